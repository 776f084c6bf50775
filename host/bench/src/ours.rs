//! The library's own call for reading, on buffers that are lent: what the safe crate does beside it is not counted.

type ReadCall = unsafe extern "C" fn(*const u8, usize, *mut u32, usize, *mut u64, usize) -> u32;

extern "C" {
    fn leamugi_read(btf: *const u8, btf_len: usize, table: *mut u32, table_len: usize, said: *mut u64, said_len: usize) -> u32;

    #[cfg(feature = "earlier")]
    fn earlier_leamugi_read(btf: *const u8, btf_len: usize, table: *mut u32, table_len: usize, said: *mut u64, said_len: usize) -> u32;
}

/// Reads into a table that stands ready; whether the bytes were accepted.
pub fn read_into(btf: &[u8], table: &mut [u32]) -> bool {
    read_by(leamugi_read, btf, table)
}

/// The same by an earlier library.
#[cfg(feature = "earlier")]
pub fn earlier_into(btf: &[u8], table: &mut [u32]) -> bool {
    read_by(earlier_leamugi_read, btf, table)
}

fn read_by(call: ReadCall, btf: &[u8], table: &mut [u32]) -> bool {
    let mut said = [0u64; 5];
    // SAFETY: each pointer and length come from one slice or array; `table` and `said` are exclusively borrowed.
    let number = unsafe { call(btf.as_ptr(), btf.len(), table.as_mut_ptr(), table.len(), said.as_mut_ptr(), said.len()) };
    number == 0
}

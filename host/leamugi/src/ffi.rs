//! The boundary: the static library's calls, and the one place that checks anything before one of them.
//!
//! The library asks nothing of its caller: every call answers for any bytes, any table and any numbers. What is left to
//! uphold is that a pointer and a length describe memory that may be read (and, for `*mut`, written): here they come from
//! Rust slices, always.

/// How many numbers a call says back at most, as a reading does: where types and strings begin, their lengths, the last id.
pub(crate) const SAID: usize = 5;

extern "C" {
    fn leamugi_read(btf: *const u8, btf_len: usize, table: *mut u32, table_len: usize, said: *mut u64, said_len: usize) -> u32;

    fn leamugi_relocate_reported(
        local: *const u8,
        local_len: usize,
        ltable: *const u32,
        ltable_len: usize,
        lread: *const u64,
        lread_len: usize,
        target: *const u8,
        target_len: usize,
        ttable: *const u32,
        ttable_len: usize,
        tread: *const u64,
        tread_len: usize,
        insns: *mut u8,
        insns_len: usize,
        section: u64,
        records: *const u8,
        records_len: usize,
        said: *mut u64,
        said_len: usize,
        out: *mut u8,
        out_len: usize,
    ) -> u32;

    fn leamugi_relocate_read(
        local: *const u8,
        local_len: usize,
        ltable: *const u32,
        ltable_len: usize,
        lread: *const u64,
        lread_len: usize,
        target: *const u8,
        target_len: usize,
        ttable: *const u32,
        ttable_len: usize,
        tread: *const u64,
        tread_len: usize,
        insns: *mut u8,
        insns_len: usize,
        section: u64,
        records: *const u8,
        records_len: usize,
        said: *mut u64,
        said_len: usize,
    ) -> u32;

    fn leamugi_entry(
        btf: *const u8,
        btf_len: usize,
        table: *const u32,
        table_len: usize,
        read: *const u64,
        read_len: usize,
        id: u32,
        k: u32,
        said: *mut u64,
        said_len: usize,
    ) -> u32;

    fn leamugi_type(
        btf: *const u8,
        btf_len: usize,
        table: *const u32,
        table_len: usize,
        read: *const u64,
        read_len: usize,
        id: u32,
        said: *mut u64,
        said_len: usize,
    ) -> u32;
}

/// A BTF as the calls take it: its bytes, its table, the five numbers that reading it gave.
pub(crate) struct Read<'a> {
    pub bytes: &'a [u8],
    pub table: &'a [u32],
    pub numbers: &'a [u64; SAID],
}

/// What a call said: its number and the numbers beside it.
pub(crate) struct Said {
    pub number: u32,
    pub numbers: [u64; SAID],
}

/// A call, with what it is lent in order: `btf` a BTF that was read, `from` a slice to read, `into` a slice to write, `at` a number.
/// Answers what it said in `said`.
macro_rules! call {
    (@ $name:ident $said:ident [$($done:expr),*]) => {
        $name($($done,)* $said.as_mut_ptr(), $said.len())
    };
    (@ $name:ident $said:ident [$($done:expr),*] btf $b:ident, $($rest:tt)*) => {
        call!(@ $name $said [$($done,)* $b.bytes.as_ptr(), $b.bytes.len(), $b.table.as_ptr(), $b.table.len(), $b.numbers.as_ptr(), $b.numbers.len()] $($rest)*)
    };
    (@ $name:ident $said:ident [$($done:expr),*] from $s:ident, $($rest:tt)*) => {
        call!(@ $name $said [$($done,)* $s.as_ptr(), $s.len()] $($rest)*)
    };
    (@ $name:ident $said:ident [$($done:expr),*] into $s:ident, $($rest:tt)*) => {
        call!(@ $name $said [$($done,)* $s.as_mut_ptr(), $s.len()] $($rest)*)
    };
    (@ $name:ident $said:ident [$($done:expr),*] at $n:ident, $($rest:tt)*) => {
        call!(@ $name $said [$($done,)* $n] $($rest)*)
    };
    // the report's buffer comes after what is said
    (@ $name:ident $said:ident [$($done:expr),*] => $out:ident) => {
        $name($($done,)* $said.as_mut_ptr(), $said.len(), $out.as_mut_ptr(), $out.len())
    };
    ($name:ident: $($rest:tt)*) => {{
        let mut numbers = [0; SAID];
        // SAFETY: each pointer and length come from one slice or array; those that are written are exclusively borrowed.
        let number = unsafe { call!(@ $name numbers [] $($rest)*) };
        Said { number, numbers }
    }};
}

pub(crate) fn read(btf: &[u8], table: &mut [u32]) -> Said {
    call!(leamugi_read: from btf, into table,)
}

pub(crate) fn relocate(local: &Read, target: &Read, insns: &mut [u8], section: u64, records: &[u8]) -> Said {
    call!(leamugi_relocate_read: btf local, btf target, into insns, at section, from records,)
}

pub(crate) fn relocate_reported(local: &Read, target: &Read, insns: &mut [u8], section: u64, records: &[u8], out: &mut [u8]) -> Said {
    call!(leamugi_relocate_reported: btf local, btf target, into insns, at section, from records, => out)
}

/// What stands at an id: `number` is the kind; the numbers are the name's offset in the strings and length, size, referred type, entries.
pub(crate) fn type_at(btf: &Read, id: u32) -> Said {
    call!(leamugi_type: btf btf, at id,)
}

/// The k-th entry of a type: `number` is its type; the numbers are its name's offset in the strings and length, and its two words.
pub(crate) fn entry_at(btf: &Read, id: u32, k: u32) -> Said {
    call!(leamugi_entry: btf btf, at id, at k,)
}

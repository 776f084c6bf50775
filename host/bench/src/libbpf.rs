//! libbpf's parse, and its search and relocation of one record, by the functions that its loader calls.
//!
//! The loader's functions are not exported by the shared library; the static archive has them. What they say is compared with our
//! answers before anything is timed, so a libbpf that declares them otherwise does not pass unseen.
use crate::measure::Way;
use crate::relocating::Work;
use std::ffi::{c_char, c_int, c_void, CStr};
use std::hint::black_box;
use std::rc::Rc;

/// The first three words of a type, as libbpf hands it out.
#[repr(C)]
struct BtfType {
    name: u32,
    info: u32,
    size: u32,
}

/// One record as libbpf takes it: the same four words.
#[repr(C)]
#[derive(Clone, Copy)]
struct CoreRelo {
    insn: u32,
    typ: u32,
    access: u32,
    kind: u32,
}

#[repr(C)]
struct Cand {
    btf: *const c_void,
    id: u32,
}

#[repr(C)]
struct CandList {
    cands: *mut Cand,
    len: c_int,
}

/// What a record comes to: the value that the instruction should have, the new one, and flags and sizes that libbpf alone reads.
#[repr(C)]
struct CoreRes {
    before: u64,
    after: u64,
    rest: [u64; 8],
}

/// Room for the three walks that libbpf keeps on the side, of some 1,300 bytes each.
const SCRATCH: usize = 2048;

extern "C" {
    fn btf__new(data: *const c_void, size: u32) -> *mut c_void;
    fn btf__free(btf: *mut c_void);
    fn btf__type_by_id(btf: *const c_void, id: u32) -> *const BtfType;
    fn btf__name_by_offset(btf: *const c_void, offset: u32) -> *const c_char;
    fn libbpf_get_error(pointer: *const c_void) -> isize;
    fn libbpf_version_string() -> *const c_char;
    fn bpf_core_essential_name_len(name: *const c_char) -> usize;
    fn bpf_core_add_cands(
        local: *mut Cand,
        name_len: usize,
        target: *const c_void,
        target_name: *const c_char,
        first: c_int,
        list: *mut CandList,
    ) -> c_int;
    fn bpf_core_calc_relo_insn(
        program: *const c_char,
        relo: *const CoreRelo,
        number: c_int,
        local: *const c_void,
        list: *mut CandList,
        scratch: *mut c_void,
        res: *mut CoreRes,
    ) -> c_int;
    fn bpf_core_patch_insn(
        program: *const c_char,
        insn: *mut c_void,
        index: c_int,
        relo: *const CoreRelo,
        number: c_int,
        res: *const CoreRes,
    ) -> c_int;
    fn free(pointer: *mut c_void);
}

/// A BTF that libbpf has read.
struct Btf(*mut c_void);

impl Btf {
    fn new(bytes: &[u8]) -> Option<Self> {
        // SAFETY: pointer and length come from one slice, which libbpf copies; an error comes back as a pointer that says so.
        let btf = unsafe { btf__new(bytes.as_ptr().cast(), bytes.len() as u32) };
        // SAFETY: looks at the pointer's value alone.
        (unsafe { libbpf_get_error(btf) } == 0).then_some(Self(btf))
    }
}

impl Drop for Btf {
    fn drop(&mut self) {
        // SAFETY: came from `btf__new`, and is freed once.
        unsafe { btf__free(self.0) }
    }
}

/// The candidates that a search found.
struct Candidates(CandList);

impl Candidates {
    fn ids(&self) -> Vec<u32> {
        // SAFETY: libbpf wrote `len` of them.
        (0..self.0.len as usize).map(|at| unsafe { (*self.0.cands.add(at)).id }).collect()
    }
}

impl Drop for Candidates {
    fn drop(&mut self) {
        // SAFETY: the list is libbpf's, from the C library's allocator, or null.
        unsafe { free(self.0.cands.cast()) }
    }
}

/// One record between two BTFs, with what libbpf's loader knows beforehand: the length of the type's name without flavour.
struct Search {
    local: Btf,
    target: Btf,
    relo: CoreRelo,
    name_len: usize,
}

impl Search {
    fn new(local: Btf, target: Btf, record: &[u8]) -> Self {
        let word = |at: usize| u32::from_le_bytes(record[at..at + 4].try_into().expect("four bytes"));
        let relo = CoreRelo { insn: word(0), typ: word(4), access: word(8), kind: word(12) };
        // SAFETY: the id is of this BTF, as our own reading of the same bytes has it, and a BTF's names are ended by a zero.
        let name_len = unsafe {
            let typ = btf__type_by_id(local.0, relo.typ);
            bpf_core_essential_name_len(btf__name_by_offset(local.0, (*typ).name))
        };
        Self { local, target, relo, name_len }
    }

    /// The plain search through all of the target's types.
    fn candidates(&self) -> Candidates {
        let mut own = Cand { btf: self.local.0, id: self.relo.typ };
        let mut found = Candidates(CandList { cands: std::ptr::null_mut(), len: 0 });
        // SAFETY: both BTFs live, and the list is empty.
        let said = unsafe { bpf_core_add_cands(&mut own, self.name_len, self.target.0, c"target".as_ptr(), 1, &mut found.0) };
        assert_eq!(said, 0, "libbpf's search fails");
        found
    }

    /// Search, value, patch.
    fn relocate(&self, insns: &mut [u8]) {
        let mut found = self.candidates();
        let mut scratch = [0u64; 3 * SCRATCH / 8];
        let mut res = CoreRes { before: 0, after: 0, rest: [0; 8] };
        let index = self.relo.insn as usize / 8;
        let insn = &mut insns[8 * index..];
        let program = c"bench".as_ptr();
        // SAFETY: both BTFs live; `scratch` and `res` have more room than libbpf's structs; the instruction and those after it are lent.
        let said = unsafe {
            let scratch = scratch.as_mut_ptr().cast();
            let computed = bpf_core_calc_relo_insn(program, &self.relo, 0, self.local.0, &mut found.0, scratch, &mut res);
            let patched = bpf_core_patch_insn(program, insn.as_mut_ptr().cast(), index as c_int, &self.relo, 0, &res);
            (computed, patched)
        };
        assert_eq!(said, (0, 0), "libbpf refuses what we relocate");
    }
}

/// Reading, as a way to time.
pub fn reading<'a>(name: &'static str, bytes: &'a [u8]) -> Option<Way<'a>> {
    Some(Way::new(name, || drop(black_box(Btf::new(black_box(bytes)).expect("libbpf reads what we read")))))
}

/// The search and the whole record as ways to time, once it is seen that libbpf finds the same candidates and patches alike.
pub fn searching<'a>(names: [&'static str; 2], work: &'a Work, candidates: &[u32], insns: &[u8]) -> Vec<Way<'a>> {
    let read = |bytes: &[u8]| Btf::new(bytes).expect("libbpf reads what we read");
    let search = Rc::new(Search::new(read(&work.function.local), read(work.target), work.records));
    let fresh = &work.function.insns;
    let mut patched = fresh.clone();
    search.relocate(&mut patched);
    assert_eq!(search.candidates().ids(), candidates, "libbpf's candidates are others than ours");
    assert_eq!(patched, insns, "libbpf's instructions are others than ours");
    let alone = search.clone();
    vec![
        Way::new(names[0], move || drop(black_box(alone.candidates()))),
        Way::new(names[1], move || {
            patched.copy_from_slice(fresh);
            search.relocate(black_box(&mut patched));
        }),
    ]
}

/// The version that libbpf says of itself.
pub fn version() -> Option<String> {
    // SAFETY: a constant text.
    Some(unsafe { CStr::from_ptr(libbpf_version_string()) }.to_string_lossy().into_owned())
}

//! Relocating the demo's function: the whole list, and one record, which is a plain search through the target's types.
use crate::libbpf;
use crate::measure::{measured, Way};
use crate::table::{print_aim, print_table};
use leamugi::{Btf, Kind};
use oracle::timing::{self, Prepared};
use std::hint::black_box;

const FLOOR: &str = "the instructions put back";
const OURS: &str = "ours, `relocate`";
const CRATE: &str = "the crate, `Object::relocate_btf`";
const SEARCH: &str = "libbpf, `bpf_core_add_cands`: the search alone";
const RECORD: &str = "libbpf, search, `bpf_core_calc_relo_insn`, `bpf_core_patch_insn`";
/// In a target of so many types a record's time is its search's; in a smaller one it is the record's own work.
const MANY: u32 = 1000;
/// The bytes of a record.
const BYTES: usize = 16;

/// The demo's function as its files have it.
pub struct Function {
    pub local: Vec<u8>,
    pub insns: Vec<u8>,
    pub records: Vec<u8>,
}

/// The work of one table: some of the function's records against a target.
pub struct Work<'a> {
    pub function: &'a Function,
    pub records: &'a [u8],
    pub target: &'a [u8],
    local: &'a Btf,
    read: &'a Btf,
}

impl Work<'_> {
    /// The function's instructions after our call, or why it was refused.
    fn ours(&self) -> Result<Vec<u8>, String> {
        let mut insns = self.function.insns.clone();
        leamugi::relocate(self.local, self.read, &mut insns, 0, self.records).map_err(|refused| refused.to_string())?;
        Ok(insns)
    }

    /// The crate's object and target, once it is seen that its instructions are ours.
    fn theirs(&self, insns: &[u8]) -> (Prepared, timing::Read) {
        let function = self.function;
        let mut prepared = Prepared::new(&function.local, &function.insns, 0, self.records).expect("the crate reads the demo's function");
        let target = timing::Read::new(self.target).expect("the crate reads what we read");
        assert!(prepared.relocate(&target), "the crate refuses what we relocate");
        assert_eq!(prepared.insns(), insns, "the crate's instructions are others than ours");
        (prepared, target)
    }

    /// The ways that both tables have.
    fn ways(&self, insns: &[u8]) -> Vec<Way<'_>> {
        let fresh = &self.function.insns[..];
        let (mut copy, mut own) = (fresh.to_vec(), fresh.to_vec());
        let (mut prepared, target) = self.theirs(insns);
        vec![
            Way::new(FLOOR, move || black_box(&mut copy[..]).copy_from_slice(black_box(fresh))),
            Way::new(OURS, move || {
                own.copy_from_slice(fresh);
                leamugi::relocate(self.local, black_box(self.read), &mut own, 0, self.records).expect("was relocated before");
            }),
            Way::new(CRATE, move || {
                prepared.reset();
                assert!(prepared.relocate(black_box(&target)));
            }),
        ]
    }
}

/// Times both tables and prints them with their aim, or why there is nothing to time.
pub fn bench(function: &Function, target: &[u8], read: &Btf) {
    let local = Btf::read(function.local.clone()).expect("the demo's local BTF is read");
    let work = |records| Work { function, records, target, local: &local, read };
    let list = work(&function.records[..]);
    match list.ours() {
        Ok(insns) => bench_list(&list, &insns),
        Err(why) => return println!("\nThe demo's function is refused on this target, nothing is relocated: {why}"),
    }
    bench_record(&work(&function.records[..BYTES]));
}

fn bench_list(work: &Work, insns: &[u8]) {
    let taken = measured(work.ways(insns));
    let count = work.records.len() / BYTES;
    print_table(&format!("relocating {count} records"), &taken, OURS, ("ns a record", count as f64));
}

/// One record whose type has one candidate.
fn bench_record(work: &Work) {
    let insns = work.ours().expect("the list was relocated");
    let typ = u32::from_le_bytes(work.records[4..8].try_into().expect("four bytes"));
    let name = work.local.name(typ);
    let candidates = candidates(work.read, &name);
    if candidates.len() != 1 {
        return println!("\n`{name}` has {} candidates here: no search is timed.", candidates.len());
    }
    let mut ways = work.ways(&insns);
    ways.extend(libbpf::searching([SEARCH, RECORD], work, &candidates, &insns));
    let taken = measured(ways);
    print_table(&format!("one record, on `{name}`"), &taken, OURS, ("ns a type", f64::from(work.read.types())));
    if work.read.types() >= MANY {
        print_aim(&taken, "Aim, a record's plain scan no slower than libbpf's search", (OURS, SEARCH), 1.0);
    }
    print_aim(&taken, "One record no slower than libbpf's search, value and patch", (OURS, RECORD), 1.0);
}

/// The target's structs of a name, but for flavours.
fn candidates(target: &Btf, name: &str) -> Vec<u32> {
    let structs = target.iter().filter(|typ| typ.kind == Kind::Struct);
    structs.map(|typ| typ.id).filter(|id| target.name(*id).split("___").next() == Some(name)).collect()
}

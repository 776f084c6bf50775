//! Nothing that an input holds makes the crate panic: the demo's files, damaged in many ways, through all of the public interface.
mod common;

use common::demo;
use leamugi::{check_shape, read_both, relocate, relocate_reported, Btf, Record, RecordKind, Refused};

/// Numbers that look drawn at random and are the same in every run.
struct Drawn(u64);

impl Drawn {
    fn next(&mut self) -> u64 {
        self.0 ^= self.0 << 13;
        self.0 ^= self.0 >> 7;
        self.0 ^= self.0 << 17;
        self.0
    }

    fn below(&mut self, end: usize) -> usize {
        (self.next() % end.max(1) as u64) as usize
    }
}

/// The bytes as they are, or with up to three of them changed; now and then some are cut off or added.
fn damaged(whole: &[u8], drawn: &mut Drawn) -> Vec<u8> {
    let mut bytes = whole.to_vec();
    for _ in 0..drawn.below(8).saturating_sub(4) {
        let at = drawn.below(bytes.len());
        let value = [0, 1, 4, 0x7f, 0x80, 0xff, bytes[at].wrapping_add(1), drawn.next() as u8][drawn.below(8)];
        bytes[at] = value;
    }
    match drawn.below(32) {
        0 => bytes.truncate(drawn.below(whole.len())),
        1 => bytes.extend([drawn.next() as u8].repeat(drawn.below(40))),
        _ => {}
    }
    bytes
}

/// Everything that can be asked of a BTF; how long the answers are.
fn asked<B: AsRef<[u8]>>(btf: &Btf<B>, drawn: &mut Drawn) -> usize {
    let mut long = format!("{btf:?}").len() + btf.types() as usize + btf.strings() as usize;
    for typ in btf.iter().rev() {
        long += format!("{typ:?} {}", typ.kind).len() + btf.name(typ.id).len();
        long += btf.entries(typ.id).map(|entry| format!("{entry:?}").len()).sum::<usize>();
        long += btf.path(typ.id, "1:0:2:+3:x::18446744073709551616").len();
    }
    for _ in 0..8 {
        let (id, offset) = (drawn.next() as u32 >> drawn.below(32), drawn.next() as u32 >> drawn.below(32));
        let access = btf.text(offset);
        long += btf.path(id, &access).len() + btf.type_at(id).name.len() + btf.entry_at(id, offset).name.len();
        long += btf.entries(id).len() + btf.find(&access).count();
    }
    long
}

/// How many records were applied before a refusal, which can be shown.
fn applied(refused: &Refused) -> u64 {
    assert!(!format!("{refused} {refused:?}").is_empty());
    assert!((1..=18).contains(&refused.number()), "{refused}");
    refused.applied()
}

/// Damaged inputs through every call; how many records were applied.
fn run(drawn: &mut Drawn) -> u64 {
    let (local, target) = (damaged(&demo("local.btf"), drawn), damaged(&demo("target.btf"), drawn));
    let (insns, records) = (damaged(&demo("insns.bin"), drawn), damaged(&demo("records.bin"), drawn));
    let section = [0, 0, 0, 8, 4, u64::MAX, u64::MAX - 7, drawn.next()][drawn.below(8)];
    let shape = check_shape(&insns, section, &records);
    let kinds: Vec<Option<RecordKind>> = Record::list(&records).map(|record| RecordKind::from_number(record.kind)).collect();
    assert_eq!(kinds.len(), records.len() / 16);
    for bytes in [&local, &target] {
        match Btf::parse(bytes) {
            Ok(btf) => asked(&btf, drawn),
            Err(why) => format!("{why} {why:?}").len(),
        };
    }
    let (local, target) = match read_both(&local[..], target, &insns, section, &records) {
        Ok(both) => both,
        Err(refused) => return applied(&refused),
    };
    assert_eq!(shape, Ok(()));
    let (mut one, mut other) = (insns.clone(), insns);
    let result = relocate(&local, &target, &mut one, section, &records);
    let (reported, report) = relocate_reported(&local, &target, &mut other, section, &records);
    assert_eq!((&result, one), (&reported, other));
    assert_eq!(report.lines().count() % 4, 0);
    result.unwrap_or_else(|refused| applied(&refused))
}

#[test]
fn damaged_inputs() {
    let mut drawn = Drawn(0x9e37_79b9_7f4a_7c15);
    let applied: u64 = (0..20_000).map(|_| run(&mut drawn)).sum();
    assert!(applied > 10_000, "only {applied} records were applied: the inputs are damaged too much to show anything");
}

#[test]
fn bytes_without_a_shape() {
    let mut drawn = Drawn(1);
    for length in 0..600 {
        let mut bytes: Vec<u8> = (0..length).map(|_| drawn.next() as u8).collect();
        assert!(Btf::parse(&bytes[..]).is_err());
        // the first three fields as they must be: the rest decides
        for (byte, right) in bytes.iter_mut().zip([0x9f, 0xeb, 1, 0, 24, 0, 0, 0]) {
            *byte = right;
        }
        assert!(Btf::parse(bytes).is_err());
    }
}

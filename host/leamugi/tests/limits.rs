//! Section 2's limits on both sides, through the library: what a proved program's stack is too small for.
use leamugi::{relocate, Btf, BtfRefusal, Kind};

const MAX_BYTES: usize = 16_777_216;
const MAX_TYPES: usize = 1_048_575;

/// A BTF of these types and strings.
fn btf(types: &[u8], strings: &[u8]) -> Vec<u8> {
    let mut bytes = vec![0x9f, 0xeb, 1, 0];
    for number in [24, 0, types.len(), types.len(), strings.len()] {
        bytes.extend(u32::try_from(number).expect("small").to_le_bytes());
    }
    bytes.extend(types);
    bytes.extend(strings);
    bytes
}

/// So many FLOATs of 4 bytes, without a name.
fn floats(count: usize) -> Vec<u8> {
    let mut float = vec![0, 0, 0, 0];
    float.extend((16u32 << 24).to_le_bytes());
    float.extend(4u32.to_le_bytes());
    float.repeat(count)
}

#[test]
fn types_up_to_the_limit() {
    let read = Btf::read(btf(&floats(MAX_TYPES), &[0])).expect("accepted");
    assert_eq!(read.types() as usize, MAX_TYPES);
    assert_eq!(read.type_at(MAX_TYPES as u32).kind, Kind::Float);
}

#[test]
fn the_last_type_of_a_full_target_is_found() {
    // FLOAT `f`; the string at 3 is the access `0`
    let strings = b"\0f\x000\0";
    let mut named = floats(1);
    named[0] = 1;
    let mut types = floats(MAX_TYPES - 1);
    types.extend(&named);
    let local = Btf::read(btf(&named, strings)).expect("accepted");
    let target = Btf::read(btf(&types, strings)).expect("accepted");
    let mut insn = [0xb7, 1, 0, 0, 1, 0, 0, 0];
    // BPF_CORE_TYPE_ID_TARGET of type 1 at the first instruction
    let record: Vec<u8> = [0, 1, 3, 7u32].into_iter().flat_map(u32::to_le_bytes).collect();
    assert_eq!(relocate(&local, &target, &mut insn, 0, &record).expect("applied"), 1);
    assert_eq!(u32::from_le_bytes(insn[4..].try_into().expect("four bytes")), MAX_TYPES as u32);
}

#[test]
fn one_type_more() {
    assert_eq!(Btf::read(btf(&floats(MAX_TYPES + 1), &[0])).unwrap_err().number(), 2);
}

#[test]
fn a_type_more_that_is_cut_short_is_over_the_limit_too() {
    let mut types = floats(MAX_TYPES);
    types.push(0);
    assert_eq!(Btf::read(btf(&types, &[0])).unwrap_err().number(), 2);
}

#[test]
fn bytes_up_to_the_limit() {
    let read = Btf::read(btf(&[], &vec![0; MAX_BYTES - 24])).expect("accepted");
    assert_eq!(read.bytes().len(), MAX_BYTES);
    assert_eq!(Btf::read(btf(&[], &vec![0; MAX_BYTES - 23])).unwrap_err().number(), 2);
}

#[test]
fn the_byte_limit_comes_before_the_header() {
    assert!(matches!(Btf::read(vec![1; MAX_BYTES]).unwrap_err(), BtfRefusal::Bad { id: 0, .. }));
    assert_eq!(Btf::read(vec![1; MAX_BYTES + 1]).unwrap_err().number(), 2);
}

/// A type of id `id`, of another length than its neighbours': an INT of that size, a PTR to that id, a prototype of `id % 9` parameters.
fn varied(id: u32) -> Vec<u8> {
    let (info, third, rest) = match id % 3 {
        0 => (1 << 24, id, vec![0; 4]),
        1 => (2 << 24, id, vec![]),
        _ => ((13 << 24) | (id % 9), 0, vec![0; 8 * (id % 9) as usize]),
    };
    [0, info, third].iter().flat_map(|word: &u32| word.to_le_bytes()).chain(rest).collect()
}

#[test]
fn every_entry_of_a_table_that_is_filled_in_parts() {
    for types in [1, 1023, 1025, 4095, 4096, 4097, 5119, 8191, 8192, 8193, 20_000] {
        let section: Vec<u8> = (1..=types).flat_map(varied).collect();
        let read = Btf::read(btf(&section, &[0])).expect("accepted");
        assert_eq!(read.types(), types);
        for id in 1..=types {
            let found = read.type_at(id);
            let said = (found.kind, found.size, found.referred, found.entries);
            let made = match id % 3 {
                0 => (Kind::Int, id, 0, 0),
                1 => (Kind::Ptr, 0, id, 0),
                _ => (Kind::FuncProto, 0, 0, id % 9),
            };
            assert_eq!(said, made, "type {id} of {types}");
        }
    }
}

//! What a BTF that was read holds: types by id and by name, what they list, what only one kind has.
mod common;

use common::{btf, demo};
use leamugi::{Btf, Detail, Encoding, Kind, Linkage};

/// A BTF of these types, with the strings "" and "a" at 0 and 1.
fn read(types: &[u32]) -> Btf {
    Btf::read(btf(types, b"\0a\0")).expect("a BTF")
}

#[test]
fn types_and_entries_by_id() {
    let local = Btf::read(demo("local.btf")).expect("a BTF");
    let sock = local.find("tcp_sock").next().expect("a type of that name");
    assert_eq!((sock.kind, sock.entries, sock.name), (Kind::Struct, 3, &b"tcp_sock"[..]));
    assert_eq!(local.entry_at(sock.id, 1).name, b"lsndtime");
    assert_eq!(local.path(sock.id, "0:0:0:0"), "tcp_sock.inet_conn.icsk_ack.lrcvtime");
    assert_eq!(local.path(sock.id, "2:1"), "tcp_sock[2].lsndtime");
    assert_eq!(local.type_at(local.types() + 1).kind, Kind::Void);
    assert_eq!([0, sock.id, local.types() + 1].map(|id| local.type_at(id).flag), [false; 3]);
}

#[test]
fn all_types_and_all_entries() {
    let local = Btf::read(demo("local.btf")).expect("a BTF");
    assert_eq!(local.iter().len(), local.types() as usize);
    assert!(local.iter().map(|typ| typ.id).eq(1..=local.types()));
    assert!(local.iter().all(|typ| typ == local.type_at(typ.id)));
    let sock = local.find("tcp_sock").next().expect("a type of that name");
    let names: Vec<&[u8]> = local.entries(sock.id).map(|entry| entry.name).collect();
    assert_eq!(names, [&b"inet_conn"[..], b"lsndtime", b"rcv_tstamp"]);
    assert_eq!(local.entries(0).len(), 0);
    assert_eq!(local.find("no such type").count(), 0);
}

#[test]
fn types_of_one_name() {
    // STRUCT a, FWD a, TYPEDEF without a name
    let types = read(&[1, 4 << 24, 0, 1, 7 << 24, 0, 0, 8 << 24, 1]);
    assert_eq!(types.find("a").map(|typ| typ.kind).collect::<Vec<Kind>>(), [Kind::Struct, Kind::Fwd]);
    assert_eq!(types.find("a").find(|typ| typ.kind == Kind::Fwd).map(|typ| typ.id), Some(2));
    assert_eq!(types.find("").map(|typ| typ.id).collect::<Vec<u32>>(), [3]);
}

#[test]
fn the_kind_flag_of_a_type() {
    // FWD of a union, FWD of a struct
    let types = read(&[0, (1 << 31) | (7 << 24), 0, 0, 7 << 24, 0]);
    assert_eq!([1, 2].map(|id| types.type_at(id).flag), [true, false]);
}

#[test]
fn the_encoding_of_an_int() {
    let of = |word: u32| read(&[0, 1 << 24, 4, word]).type_at(1).detail;
    let encodings = [(0, Encoding::Unsigned), (1, Encoding::Signed), (2, Encoding::Char), (4, Encoding::Bool)];
    for (number, made) in encodings {
        let Detail::Int { encoding, offset, bits, .. } = of((number << 24) | (3 << 16) | 29) else { panic!("an INT has one") };
        assert_eq!((encoding, offset, bits), (made, 3, 29));
    }
    // the upper four bits of the encoding say nothing
    assert!(matches!(of(0xf100_0020), Detail::Int { encoding: Encoding::Signed, .. }));
}

#[test]
fn an_array_and_its_length() {
    let types = read(&[0, 1 << 24, 4, 32, 0, 3 << 24, 0, 1, 2, 17, 1, 16 << 24, 8]);
    let array = types.type_at(2);
    assert_eq!((array.kind, array.referred), (Kind::Array, 1));
    assert!(matches!(array.detail, Detail::Array { length: 17, index: 2, .. }));
    assert_eq!(types.type_at(3).detail, Detail::None);
    assert_eq!(types.type_at(4).detail, Detail::None);
}

#[test]
fn linkage_and_component() {
    let linkages = [(0, Linkage::Static), (1, Linkage::Global), (2, Linkage::Extern), (7, Linkage::Other(7))];
    for (number, made) in linkages {
        // FUNC_PROTO, FUNC of it, VAR
        let types = read(&[0, 13 << 24, 0, 1, (12 << 24) | number, 1, 1, 14 << 24, 0, number]);
        assert_eq!([2, 3].map(|id| types.type_at(id).detail), [Detail::Linkage(made); 2]);
        assert_eq!(types.type_at(2).entries, 0);
    }
    let tag = |component: u32| read(&[1, 17 << 24, 0, component]).type_at(1).detail;
    assert_eq!([5, u32::MAX].map(tag), [Detail::Component(Some(5)), Detail::Component(None)]);
}

#[test]
fn kinds_and_their_numbers() {
    for number in 0..32 {
        assert_eq!(Kind::from_number(number).number(), number);
        assert_eq!(Kind::from_number(number) == Kind::Other(number), number > 19);
    }
    assert_eq!([Kind::FuncProto, Kind::Enum64, Kind::Other(20)].map(|kind| kind.to_string()), ["FUNC_PROTO", "ENUM64", "kind 20"]);
}

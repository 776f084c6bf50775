//! Hand-made cases of refusals 1, 2 and 18, with the answers that sections 2 to 4 give.

use crate::{
    case::Case,
    made::bytes::{Btf, record},
};

const MOV: [u8; 8] = [0xb7, 1, 0, 0, 4, 0, 0, 0];
/// The header's words after the magic.
const HEADER: usize = 4;
const TYPE_AT: usize = 8;
const TYPE_LENGTH: usize = 12;
const STRING_AT: usize = 16;
const STRING_LENGTH: usize = 20;

/// A case and its outcome's line.
pub struct Told {
    pub name: String,
    pub case: Case,
    pub outcome: String,
}

fn put(bytes: &mut [u8], at: usize, word: u32) {
    bytes[at..at + 4].copy_from_slice(&word.to_le_bytes());
}

fn get(bytes: &[u8], at: usize) -> u32 {
    crate::case::word(bytes, at)
}

/// One type of every kind but the first, each referring to id 1 where it refers.
fn every_kind() -> Btf {
    let mut b = Btf::default();
    b.plain("int", 4);
    b.ptr(1);
    b.array(1, 3);
    b.st("s", 8, &[("a", 1, 0), ("b", 1, 32)]);
    b.group(5, "u", 4, false, &[("a", 1, 0), ("b", 1, 0)]);
    b.enumeration("e", 4, false, &[("A", 1), ("B", 2)]);
    b.refer(7, "f", 0);
    (8..=11).for_each(|kind| {
        b.refer(kind, "t", 1);
    });
    b.refer(12, "g", 1);
    b.proto(1, &[1, 1]);
    b.add(14, "v", 1, 0, false, &[0]);
    b.add(15, ".data", 4, 1, false, &[1, 0, 4]);
    b.refer(16, "d", 8);
    b.add(17, "tag", 1, 0, false, &[u32::MAX]);
    b.refer(18, "tt", 1);
    b.enum64("w", false, &[("A", 1), ("B", 2)]);
    b
}

/// A case around one BTF, as local and target, with no record.
fn around(local: Vec<u8>, target: Vec<u8>) -> Case {
    Case { local, target, insns: MOV.to_vec(), records: Vec::new(), section: 0 }
}

struct Rows(Vec<Told>);

impl Rows {
    fn push(&mut self, name: &str, case: Case, outcome: String) {
        self.0.push(Told { name: format!("{:03}_{name}", self.0.len() + 1), case, outcome });
    }

    /// The BTF as local and as target; `id` of the first fault, or accepted.
    fn read(&mut self, name: &str, bytes: Vec<u8>, id: Option<u32>) {
        let good = every_kind().bytes();
        for (side, case) in [("local", around(bytes.clone(), good.clone())), ("target", around(good, bytes))] {
            let outcome = id.map_or("outcome=0 applied=0".to_string(), |id| format!("outcome=1 btf={side} id={id} applied=0"));
            self.push(&format!("{name}_{side}"), case, outcome);
        }
    }

    /// The BTF of every kind with one word changed.
    fn word(&mut self, name: &str, at: usize, word: u32, id: Option<u32>) {
        let mut bytes = every_kind().bytes();
        put(&mut bytes, at, word);
        self.read(name, bytes, id);
    }
}

/// Where a type begins in the BTF of every kind.
fn type_at(id: usize) -> usize {
    24 + every_kind().types[..id - 1].iter().map(Vec::len).sum::<usize>()
}

pub fn cases() -> Vec<Told> {
    let mut rows = Rows(Vec::new());
    headers(&mut rows);
    strings(&mut rows);
    types(&mut rows);
    encodings(&mut rows);
    references(&mut rows);
    orders(&mut rows);
    shapes(&mut rows);
    rows.0
}

fn headers(rows: &mut Rows) {
    let good = every_kind();
    let bytes = good.bytes();
    let last = bytes.len() as u32;
    rows.read("good", bytes.clone(), None);
    rows.read("no_bytes", Vec::new(), Some(0));
    rows.read("header_cut", bytes[..23].to_vec(), Some(0));
    rows.read("header_alone", bytes[..24].to_vec(), Some(0));
    rows.word("magic", 0, 0x0001_eb9e, Some(0));
    rows.word("magic_other_order", 0, 0x0001_9feb, Some(0));
    rows.word("version_0", 0, 0x0000_eb9f, Some(0));
    rows.word("version_2", 0, 0x0002_eb9f, Some(0));
    rows.word("flags", 0, 0x0101_eb9f, Some(0));
    rows.word("header_23", HEADER, 23, Some(0));
    rows.word("header_past", HEADER, last + 1, Some(0));
    rows.word("header_most", HEADER, u32::MAX, Some(0));
    rows.read("header_28", good.laid_out(28, 0, false), None);
    rows.read("strings_first", good.laid_out(24, 0, true), None);
    rows.read("gap", good.laid_out(32, 5, true), None);
    rows.word("types_past", TYPE_LENGTH, last - 24 + 1, Some(0));
    rows.word("types_most", TYPE_LENGTH, u32::MAX, Some(0));
    rows.word("type_offset_most", TYPE_AT, u32::MAX, Some(0));
    rows.word("string_offset_most", STRING_AT, u32::MAX, Some(0));
    rows.word("strings_past", STRING_LENGTH, get(&bytes, STRING_LENGTH) + 1, Some(0));
    let mut more = bytes.clone();
    more.push(0xff);
    rows.read("bytes_after", more, None);
    let mut empty = Btf::default().bytes();
    rows.read("no_types", empty.clone(), None);
    put(&mut empty, TYPE_AT, 1);
    rows.read("no_types_at_end", empty.clone(), None);
    put(&mut empty, TYPE_AT, 2);
    rows.read("no_types_past_end", empty, Some(0));
}

fn strings(rows: &mut Rows) {
    let bytes = every_kind().bytes();
    let (start, length) = (24 + get(&bytes, STRING_AT) as usize, get(&bytes, STRING_LENGTH));
    rows.word("strings_none", STRING_LENGTH, 0, Some(0));
    rows.word("strings_end_short", STRING_LENGTH, length - 1, Some(0));
    let mut first = bytes.clone();
    first[start] = b'x';
    rows.read("strings_first_byte", first, Some(0));
    let mut last = bytes.clone();
    *last.last_mut().expect("a byte") = b'x';
    rows.read("strings_last_byte", last, Some(0));
    let mut one = Btf::default();
    one.plain("", 4);
    rows.read("strings_one_byte", one.bytes(), None);
}

fn types(rows: &mut Rows) {
    let length = get(&every_kind().bytes(), TYPE_LENGTH);
    for (name, info) in [("kind_0", 0), ("kind_20", 20 << 24), ("kind_31", 31 << 24), ("kind_32", 32 << 24)] {
        rows.word(name, type_at(7) + 4, info, Some(7));
    }
    rows.word("unused_bits", type_at(7) + 4, 0xe0ff_0000 | 7 << 24, None);
    for short in [1, 11, 12, 24, 25] {
        rows.word(&format!("cut_{short}"), TYPE_LENGTH, length - short, Some(19));
    }
    rows.word("cut_whole", TYPE_LENGTH, length - 36, None);
    for more in [1, 11] {
        rows.word(&format!("more_{more}"), TYPE_LENGTH, length + more, Some(20));
    }
    rows.word("list_long", type_at(19) + 4, 19 << 24 | 3, Some(19));
    rows.word("list_most", type_at(6) + 4, 6 << 24 | 0xffff, Some(6));
}

/// The extra word of an INT: one encoding bit at most, bit 27 is 0, the rest is free.
fn encodings(rows: &mut Rows) {
    for bits in 0..16 {
        let good = [0, 1, 2, 4].contains(&bits);
        rows.word(&format!("encoding_{bits}"), type_at(1) + 12, bits << 24 | 32, (!good).then_some(1));
    }
    rows.word("encoding_unused", type_at(1) + 12, 0xf0ff_ffff, None);
}

/// Each name offset and type id at its last good value and one past it.
fn references(rows: &mut Rows) {
    let bytes = every_kind().bytes();
    let (count, strings) = (19, get(&bytes, STRING_LENGTH));
    let third = [2, 8, 9, 10, 11, 12, 13, 14, 17, 18];
    let mut places: Vec<(usize, usize)> = third.iter().map(|&id| (id, 8)).collect();
    places.extend([(3, 12), (3, 16), (4, 16), (4, 28), (5, 16), (5, 28), (13, 16), (13, 24), (15, 12)]);
    for (id, at) in places {
        rows.word(&format!("id_last_{id}_{at}"), type_at(id) + at, count, None);
        rows.word(&format!("id_past_{id}_{at}"), type_at(id) + at, count + 1, Some(id as u32));
    }
    for (id, at) in [(3, 8), (7, 8), (1, 8), (4, 8), (16, 8), (15, 16), (17, 12), (6, 16), (19, 16)] {
        rows.word(&format!("no_id_{id}_{at}"), type_at(id) + at, u32::MAX, None);
    }
    let mut names: Vec<(usize, usize)> = (1..=19).map(|id| (id, 0)).collect();
    names.extend([(4, 12), (4, 24), (5, 24), (6, 12), (6, 20), (13, 12), (13, 20), (19, 12), (19, 24)]);
    for (id, at) in names {
        rows.word(&format!("name_last_{id}_{at}"), type_at(id) + at, strings - 1, None);
        rows.word(&format!("name_past_{id}_{at}"), type_at(id) + at, strings, Some(id as u32));
    }
}

/// The first fault in section 3's order: a later type's own fault comes before an earlier type's name.
fn orders(rows: &mut Rows) {
    let good = every_kind().bytes();
    let mut both = good.clone();
    put(&mut both, type_at(2) + 8, 99);
    put(&mut both, type_at(7) + 4, 0);
    rows.read("kind_before_id", both, Some(7));
    let mut ids = good.clone();
    put(&mut ids, type_at(9), 9999);
    put(&mut ids, type_at(8) + 8, 99);
    rows.read("ids_in_order", ids, Some(8));
    let mut bad = good.clone();
    put(&mut bad, type_at(5), 9999);
    let mut worse = good;
    put(&mut worse, 0, 0);
    rows.push("local_before_target", around(bad, worse), "outcome=1 btf=local id=5 applied=0".to_string());
}

/// Refusal 18 comes before either BTF.
fn shapes(rows: &mut Rows) {
    let good = every_kind().bytes();
    let base = Case { local: good.clone(), target: good, insns: MOV.to_vec(), records: record(0, 1, 0, 6), section: 0 };
    let refused = || "outcome=18 applied=0".to_string();
    let mut case = base.clone();
    case.insns.push(0);
    rows.push("insns_9", case, refused());
    let mut case = base.clone();
    case.section = 4;
    rows.push("section_4", case, refused());
    let mut case = base.clone();
    case.records.truncate(15);
    rows.push("records_15", case, refused());
    let mut case = base;
    case.records.push(0);
    case.local.clear();
    case.target.clear();
    rows.push("shape_before_btf", case, refused());
}

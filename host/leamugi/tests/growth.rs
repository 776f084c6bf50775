//! Demand 3 by runs: the target grows, and what a record found stays, or the record is refused for a type past the old end.
use leamugi::{relocate, Btf, Refused, Why};

const INT: u32 = 1;
const STRUCT: u32 = 4;
const TYPEDEF: u32 = 8;

/// A BTF in the making: type bytes and strings.
#[derive(Clone)]
struct Made {
    types: Vec<u8>,
    strings: Vec<u8>,
}

impl Made {
    fn new() -> Made {
        Made { types: Vec::new(), strings: vec![0] }
    }

    /// Where a text begins in the strings.
    fn text(&mut self, text: &str) -> u32 {
        if text.is_empty() {
            return 0;
        }
        let at = self.strings.len() as u32;
        self.strings.extend(text.as_bytes());
        self.strings.push(0);
        at
    }

    fn words(&mut self, words: &[u32]) {
        for word in words {
            self.types.extend(word.to_le_bytes());
        }
    }

    fn int(&mut self, size: u32) {
        let name = self.text("int");
        self.words(&[name, INT << 24, size, 8 * size]);
    }

    fn typedef(&mut self, to: u32) {
        let name = self.text("t");
        self.words(&[name, TYPEDEF << 24, to]);
    }

    /// A struct of these members: name, type, bit offset.
    fn composite(&mut self, name: &str, size: u32, members: &[(&str, u32, u32)]) {
        let name = self.text(name);
        let members: Vec<u32> = members.iter().flat_map(|(name, typ, bits)| [self.text(name), *typ, *bits]).collect();
        self.words(&[name, (STRUCT << 24) | (members.len() as u32 / 3), size]);
        self.words(&members);
    }

    fn bytes(&self) -> Vec<u8> {
        let mut bytes = vec![0x9f, 0xeb, 1, 0];
        for number in [24, 0, self.types.len(), self.types.len(), self.strings.len()] {
            bytes.extend((number as u32).to_le_bytes());
        }
        bytes.extend(&self.types);
        bytes.extend(&self.strings);
        bytes
    }
}

/// The program's `struct s { int a; int b; }`, and where its access string "0:1" begins.
fn local() -> (Btf, u32) {
    let mut made = Made::new();
    made.int(4);
    made.composite("s", 8, &[("a", 1, 0), ("b", 1, 32)]);
    let access = made.text("0:1");
    (Btf::read(made.bytes()).expect("a BTF"), access)
}

/// The kernel's `struct s { int a; int x; int b; }`: ids 1 and 2, b at byte 8.
fn target() -> Made {
    let mut made = Made::new();
    made.int(4);
    made.composite("s", 12, &[("a", 1, 0), ("x", 1, 32), ("b", 1, 64)]);
    made
}

/// One record of a kind on `b`, against a target.
fn run(kind: u32, target: &Made) -> (Result<u64, Refused>, Vec<u8>) {
    let (local, access) = local();
    let record: Vec<u8> = [0, 2, access, kind].iter().flat_map(|word: &u32| word.to_le_bytes()).collect();
    let mut insns = vec![0xb7, 1, 0, 0, 4, 0, 0, 0];
    let result = relocate(&local, &Btf::read(target.bytes()).expect("a BTF"), &mut insns, 0, &record);
    (result, insns)
}

fn why(result: Result<u64, Refused>) -> Why {
    match result.expect_err("refused") {
        Refused::Record { why, .. } => why,
        other => panic!("{other}"),
    }
}

const UNTOUCHED: [u8; 8] = [0xb7, 1, 0, 0, 4, 0, 0, 0];

#[test]
fn nothing_new_disturbs_it() {
    let old = run(0, &target());
    assert_eq!(old.0, Ok(1));
    assert_eq!(old.1[4], 8);
    let mut grown = target();
    grown.composite("other", 4, &[("b", 1, 0)]);
    grown.composite("s___same", 12, &[("b", 1, 64)]);
    assert_eq!(run(0, &grown), old);
}

#[test]
fn another_bit_offset() {
    let mut grown = target();
    grown.composite("s___two", 8, &[("b", 1, 32)]);
    grown.composite("s___three", 8, &[("b", 1, 0)]);
    let (result, insns) = run(0, &grown);
    assert_eq!(why(result), Why::Conflict { id: 3, count: 2 });
    assert_eq!(insns, UNTOUCHED);
    // existence too: equal values at other bit offsets conflict
    assert_eq!(why(run(2, &grown).0), Why::Conflict { id: 3, count: 2 });
}

#[test]
fn another_value() {
    let mut grown = target();
    grown.int(8);
    grown.composite("s___wide", 16, &[("b", 3, 64)]);
    assert_eq!(run(0, &grown), run(0, &target()));
    assert_eq!(why(run(1, &grown).0), Why::Conflict { id: 4, count: 1 });
}

#[test]
fn a_candidate_that_is_refused_itself() {
    let mut endless = target();
    endless.typedef(3);
    endless.composite("s___endless", 12, &[("b", 3, 64)]);
    let (result, insns) = run(0, &endless);
    assert_eq!(why(result), Why::Unresolved);
    assert_eq!(insns, UNTOUCHED);
    let mut far = target();
    far.composite("", 8, &[("b", 1, 32)]);
    far.composite("s___far", 8, &[("", 3, u32::MAX)]);
    assert_eq!(why(run(0, &far).0), Why::BitsTooBig);
    let mut deep = target();
    deep.composite("", 4, &[("b", 1, 0)]);
    for id in 3..36 {
        deep.composite("", 4, &[("", id, 0)]);
    }
    deep.composite("s___deep", 4, &[("", 36, 0)]);
    assert_eq!(why(run(0, &deep).0), Why::TooDeep);
}

#[test]
fn its_own_id_looks_at_no_target() {
    let mut made = Made::new();
    made.int(4);
    made.composite("s", 8, &[("a", 1, 0), ("b", 1, 32)]);
    let access = made.text("0");
    let local = Btf::read(made.bytes()).expect("a BTF");
    let record: Vec<u8> = [0, 2, access, 6].iter().flat_map(|word: &u32| word.to_le_bytes()).collect();
    let mut grown = target();
    grown.composite("s___two", 8, &[("b", 1, 32)]);
    for made in [target(), grown] {
        let mut insns = UNTOUCHED.to_vec();
        assert_eq!(relocate(&local, &Btf::read(made.bytes()).expect("a BTF"), &mut insns, 0, &record), Ok(1));
        assert_eq!(insns[4], 2);
    }
}

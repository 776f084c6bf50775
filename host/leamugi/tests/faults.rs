//! What is said of bytes that are no BTF: the words for each fault.
mod common;

use leamugi::{Btf, Which};

/// A BTF of these words as types, and the strings "" and "a".
fn btf(types: &[u32]) -> Vec<u8> {
    common::btf(types, b"\0a\0")
}

fn said(bytes: Vec<u8>) -> String {
    Btf::read(bytes).expect_err("no BTF").to_string()
}

#[test]
fn words_for_header_and_strings() {
    let edited = |at: usize, byte: u8| {
        let mut bytes = btf(&[]);
        bytes[at] = byte;
        said(bytes)
    };
    assert_eq!(said(vec![0; 23]), "bad BTF: 23 bytes are fewer than a header's 24");
    assert_eq!(said([0xeb, 0x9f].into_iter().chain([0; 22]).collect()), "bad BTF: its magic number is that of a big-endian BTF");
    assert_eq!(edited(0, 0), "bad BTF: its magic number is 0xeb00 and not 0xeb9f");
    assert_eq!(edited(2, 2), "bad BTF: its version is 2 and not 1");
    assert_eq!(edited(3, 1), "bad BTF: its header's flags are 0x1 and not 0");
    assert_eq!(edited(4, 23), "bad BTF: its header says that it has 23 bytes, and there are at least 24");
    assert_eq!(edited(12, 4), "bad BTF: its types would end at byte 28, past its own end");
    assert_eq!(edited(20, 4), "bad BTF: its strings would end at byte 28, past its own end");
    assert_eq!(edited(20, 0), "bad BTF: its strings do not begin and end with a zero byte");
    assert_eq!(edited(26, 1), "bad BTF: its strings do not begin and end with a zero byte");
}

#[test]
fn words_for_types() {
    // INT `a`, then the type in question
    let second = |types: &[u32]| said(btf(&[&[1, 1 << 24, 4, 0x0100_0020], types].concat()));
    assert_eq!(second(&[0]), "bad BTF: type id 2 (unnamed), at byte 40: it runs past the end of the types");
    assert_eq!(second(&[1, 20 << 24, 0]), "bad BTF: type id 2 (a), at byte 40: there is no kind 20");
    assert_eq!(second(&[1, (4 << 24) | 1, 4, 0, 1]), "bad BTF: type id 2 (a), at byte 40: it runs past the end of the types");
    assert_eq!(
        second(&[1, 1 << 24, 1, 0x0300_0008]),
        "bad BTF: type id 2 (a), at byte 40: an integer's encoding is none, 1 (signed), 2 (char) or 4 (bool), and not 3"
    );
    assert_eq!(second(&[3, 16 << 24, 4]), "bad BTF: type id 2 (unnamed), at byte 40: a name at offset 3 lies outside the strings");
    assert_eq!(second(&[0, 2 << 24, 3]), "bad BTF: type id 2 (unnamed), at byte 40: it refers to type id 3, and the last is 2");
}

#[test]
fn words_for_limits_and_for_which() {
    assert_eq!(said(vec![0; 16_777_217]), "BTF over a limit: 16777217 bytes, and 16777216 are carried");
    let many: Vec<u32> = [0, 16 << 24, 4].repeat(1_048_576);
    assert_eq!(said(btf(&many)), "BTF over a limit: more than 1048575 types");
    let refused = Btf::read(vec![]).expect_err("no BTF").of(Which::Target);
    assert_eq!((refused.number(), refused.applied()), (1, 0));
    assert_eq!(refused.to_string(), "the target BTF: bad BTF: 0 bytes are fewer than a header's 24");
}

//! Document 01 section 8's cases, starred and not, each with the answer that the document gives.

use crate::{
    case::Case,
    made::bytes::{Btf, record},
};

const MOV: &str = "b701000004000000";
const LDDW: &str = "18010000000000000000000000000000";

/// A case, the values of its records and its outcome, and the instructions after it, all as section 8 has them.
pub struct Told {
    pub name: &'static str,
    pub case: Case,
    pub values: Vec<&'static str>,
    pub outcome: &'static str,
    pub insns: String,
}

fn unhex(text: &str) -> Vec<u8> {
    (0..text.len()).step_by(2).map(|i| u8::from_str_radix(&text[i..i + 2], 16).expect("hexadecimal")).collect()
}

/// Records of one type and access, a slot each.
fn case(l: &mut Btf, t: &Btf, id: u32, access: &str, kinds: &[u32], insns: &str) -> Case {
    let access = l.name(access);
    let records = kinds.iter().zip(0..).flat_map(|(&kind, i)| record(8 * i, id, access, kind)).collect();
    Case { local: l.bytes(), target: t.bytes(), insns: unhex(insns), records, section: 0 }
}

/// A struct of two ints of 4 bytes in both.
fn two_ints(access: &str, kind: u32) -> Case {
    let (mut l, mut t) = (Btf::default(), Btf::default());
    for b in [&mut l, &mut t] {
        b.plain("int", 4);
        b.st("s", 8, &[("a", 1, 0), ("b", 1, 32)]);
    }
    case(&mut l, &t, 2, access, &[kind], MOV)
}

/// Three variants in both, the third of value 7.
fn variants(access: &str) -> Case {
    let (mut l, mut t) = (Btf::default(), Btf::default());
    for b in [&mut l, &mut t] {
        b.enumeration("e", 4, false, &[("A", 5), ("B", 6), ("C", 7)]);
    }
    case(&mut l, &t, 1, access, &[11], MOV)
}

/// One bitfield of an unsigned int of 4 bytes in both; kinds 0, 1, 4 and 5.
fn bitfield(offset: u32, width: u32) -> Case {
    let (mut l, mut t) = (Btf::default(), Btf::default());
    for b in [&mut l, &mut t] {
        b.plain("u32", 4);
        b.group(4, "s", 16, true, &[("x", 1, width << 24 | offset)]);
    }
    case(&mut l, &t, 2, "0:0", &[0, 1, 4, 5], &MOV.repeat(4))
}

/// A plain field at byte 16 of the target.
fn at_16(local: (u32, u32), target: (u32, u32), insns: &str) -> Case {
    let (mut l, mut t) = (Btf::default(), Btf::default());
    l.int("i", local.0, (local.0 * 8) | (local.1 << 24));
    t.int("i", target.0, (target.0 * 8) | (target.1 << 24));
    l.st("s", 8, &[("x", 1, 0)]);
    t.st("s", 32, &[("x", 1, 128)]);
    case(&mut l, &t, 2, "0:0", &[0], insns)
}

/// An enum's one value.
fn variant(signed: bool, value: i64, insns: &str) -> Case {
    let (mut l, mut t) = (Btf::default(), Btf::default());
    l.enumeration("e", 4, signed, &[("A", 0)]);
    t.enumeration("e", 4, signed, &[("A", value)]);
    case(&mut l, &t, 1, "0", &[11], insns)
}

/// A bitfield as wide as its 8-byte int, walked from the second element.
fn second_element() -> Case {
    let (mut l, mut t) = (Btf::default(), Btf::default());
    for b in [&mut l, &mut t] {
        b.plain("u64", 8);
        b.group(4, "s", 8, true, &[("x", 1, 64 << 24)]);
    }
    case(&mut l, &t, 2, "1:0", &[0], MOV)
}

/// Every line of section 8, in its order.
pub fn cases() -> Vec<Told> {
    let told = |name, case, values: &[&'static str], outcome, insns: &str| Told {
        name,
        case,
        values: values.to_vec(),
        outcome,
        insns: insns.to_string(),
    };
    let imm = |n: u8| format!("b7010000{n:02x}000000");
    vec![
        told("01_parts_0_1", two_ints("0:1", 0), &["4"], "outcome=0 applied=1", MOV),
        told("02_part_plus_2", variants("+2"), &["7"], "outcome=0 applied=1", &imm(7)),
        told("03_empty", two_ints("", 0), &["none"], "outcome=7 record=0 applied=0", MOV),
        told("04_empty_part", two_ints("0::1", 0), &["none"], "outcome=7 record=0 applied=0", MOV),
        told(
            "05_part_2_64_less_1",
            variants("18446744073709551615"),
            &["none"],
            "outcome=8 index=18446744073709551615 count=3 applied=0",
            MOV,
        ),
        told("06_part_2_64", variants("18446744073709551616"), &["none"], "outcome=7 record=0 applied=0", MOV),
        told(
            "07_bits_35_size_5",
            bitfield(35, 5),
            &["4", "4", "56", "59"],
            "outcome=0 applied=4",
            &[imm(4), imm(4), imm(56), imm(59)].concat(),
        ),
        told(
            "08_bits_30_size_4",
            bitfield(30, 4),
            &["0", "8", "30", "60"],
            "outcome=0 applied=4",
            &[imm(0), imm(8), imm(30), imm(60)].concat(),
        ),
        told("09_imm_16", at_16((4, 0), (4, 0), MOV), &["16"], "outcome=0 applied=1", &imm(16)),
        told(
            "10_source_register",
            at_16((4, 0), (4, 0), "b711000004000000"),
            &["none"],
            "outcome=12 reason=1 applied=0",
            "b711000004000000",
        ),
        told("11_load_4_to_8", at_16((4, 0), (8, 0), "6112080000000000"), &["16"], "outcome=0 applied=1", "7912100000000000"),
        told(
            "12_load_target_signed",
            at_16((4, 0), (8, 1), "6112080000000000"),
            &["none"],
            "outcome=12 reason=3 applied=0",
            "6112100000000000",
        ),
        told("13_off_32767", variant(false, 32767, "6112080000000000"), &["32767"], "outcome=0 applied=1", "6112ff7f00000000"),
        told("14_off_32768", variant(false, 32768, "6112080000000000"), &["none"], "outcome=12 reason=2 applied=0", "6112080000000000"),
        told(
            "15_wide_signed",
            variant(true, -1, LDDW),
            &["18446744073709551615"],
            "outcome=0 applied=1",
            "18010000ffffffff00000000ffffffff",
        ),
        told(
            "16_wide_unsigned",
            variant(false, 0xffff_ffff, LDDW),
            &["4294967295"],
            "outcome=0 applied=1",
            "18010000ffffffff0000000000000000",
        ),
        told("17_second_element", second_element(), &["none"], "outcome=14 record=0 applied=0", MOV),
    ]
}

impl Told {
    /// The block that section 8 asks for, without its first line.
    pub fn block(&self) -> String {
        let number = self.outcome.trim_start_matches("outcome=").split(' ').next().unwrap_or_default();
        let lines: String =
            self.values.iter().enumerate().map(|(i, value)| format!("record={i}\nanswer={number}\ninsn={i}\nvalue={value}\n")).collect();
        format!("{lines}{}\ninsns={}\nend\n", self.outcome, self.insns)
    }
}

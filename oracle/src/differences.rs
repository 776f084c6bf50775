//! The smallest inputs of docs/DIFFERENCES.md, each with what the crate does.

use crate::{
    case::Case,
    made::bytes::{Btf, record},
    run::Run,
};

const MOV: [u8; 8] = [0xb7, 1, 0, 0, 4, 0, 0, 0];
const LDX: [u8; 8] = [0x61, 0x12, 8, 0, 0, 0, 0, 0];

/// A case's name in the document, the case, and what comes of it in one line.
pub struct Row {
    pub name: &'static str,
    pub case: Case,
    pub told: &'static str,
}

/// Values or the outcome, then the instructions if they tell something, then why it is outside the domain.
pub fn summary(run: &Run) -> String {
    let mark = run.outside.first().map_or(String::new(), |o| {
        let line = o.line.split("why=").nth(1).unwrap_or(&o.line);
        format!(" [{}]", line.replace('"', ""))
    });
    let values: Vec<String> = run.plain().lines().filter_map(|l| l.strip_prefix("value=").map(str::to_string)).collect();
    let said = if run.outcome.starts_with("outcome=0") { format!("value={}", values.join(",")) } else { run.outcome.clone() };
    format!("{said}{mark}")
}

type Make<'a> = &'a dyn Fn(&mut Btf) -> u32;

/// One record of the type that a maker made last.
fn one(local: Make, target: Make, access: &str, kind: u32, insns: &[u8]) -> Case {
    let (mut l, mut t) = (Btf::default(), Btf::default());
    let id = local(&mut l);
    target(&mut t);
    let access = l.name(access);
    Case { local: l.bytes(), target: t.bytes(), insns: insns.to_vec(), records: record(0, id, access, kind), section: 0 }
}

fn both(make: Make, access: &str, kind: u32) -> Case {
    one(make, make, access, kind, &MOV)
}

/// A typedef of the made type, and a struct with it as its one member.
fn alias(b: &mut Btf, make: Make) -> u32 {
    let of = make(b);
    b.refer(8, "f", of)
}

fn member(b: &mut Btf, make: Make) -> u32 {
    let of = make(b);
    b.st("s", 4, &[("x", of, 0)])
}

fn arrays(b: &mut Btf, lengths: &[u32]) -> u32 {
    let int = b.plain("int", 4);
    lengths.iter().rev().fold(int, |of, &n| b.array(of, n))
}

fn bitfield(size: u32, word: u32) -> impl Fn(&mut Btf) -> u32 {
    move |b| {
        let int = b.plain("u", size);
        b.group(4, "s", 8, true, &[("x", int, word)])
    }
}

fn zero_length(b: &mut Btf) -> u32 {
    let int = b.plain("int", 4);
    let z = b.array(int, 0);
    b.st("s", 4, &[("a", int, 0), ("z", z, 32)])
}

fn unnamed_second(b: &mut Btf) -> u32 {
    let int = b.plain("int", 4);
    let inner = b.st("", 4, &[("c", int, 0)]);
    b.st("s", 8, &[("a", int, 0), ("", inner, 32)])
}

/// A struct whose unnamed member is of its own type.
fn own_member(b: &mut Btf) -> u32 {
    b.plain("int", 4);
    b.st("s", 4, &[("", 2, 0), ("x", 1, 0)])
}

/// A prototype whose parameter is a pointer to itself.
fn own_parameter(b: &mut Btf) -> u32 {
    b.add(13, "", 0, 1, false, &[0, 2]);
    b.ptr(1);
    b.refer(8, "f", 1)
}

fn wide(value: i64) -> impl Fn(&mut Btf) -> u32 {
    move |b| b.enum64("e", false, &[("A", value)])
}

fn variant(signed: bool, value: i64) -> impl Fn(&mut Btf) -> u32 {
    move |b| b.enumeration("e", 4, signed, &[("A", value)])
}

pub fn rows() -> Vec<Row> {
    let mut rows = access();
    rows.extend(matching());
    rows.extend(values());
    rows.extend(applying());
    rows.extend(panics());
    rows
}

fn access() -> Vec<Row> {
    let row = |name, case, told| Row { name, case, told };
    let strings_end = |more: u32| {
        let mut case = both(&|b| alias(b, &|b| b.plain("int", 4)), "0", 8);
        let length = crate::case::word(&case.local, 20);
        case.records[8..12].copy_from_slice(&(length + more).to_le_bytes());
        case
    };
    let mut kind_12 = both(&variant(false, 1), "0", 10);
    kind_12.records.extend(record(0, 1, 3, 12));
    vec![
        row("first-index-in-bytes", both(&bitfield(8, 64 << 24), "1:0", 0), "outcome=14 record=0 applied=0"),
        row("zero-length-by-array-index-0", both(&zero_length, "0:1:0", 0), "outcome=8 index=0 count=0 applied=0"),
        row("zero-length-by-array-index-1", both(&zero_length, "0:1:1", 0), "value=8"),
        row("unnamed-last-part", both(&unnamed_second, "0:1", 0), "value=0"),
        row("part-with-sign-and-zeros", both(&variant(false, 7), "+00", 11), "value=7"),
        row("strings-end", strings_end(0), "outcome=14 record=0 applied=0"),
        row(
            "strings-end-and-1",
            strings_end(1),
            "outcome=14 record=0 applied=0 [btf.rs:423 range start index 10 out of range for slice of length 9 by=document-01]",
        ),
        row("strings-far", strings_end(4096), "outcome=14 record=0 applied=0"),
        row("kind-12-after-another", kind_12, "outcome=4 kind=12 applied=1"),
    ]
}

fn matching() -> Vec<Row> {
    let row = |name, case, told| Row { name, case, told };
    let empty = |name: &'static str| move |b: &mut Btf| b.st(name, 4, &[]);
    let flavoured = |b: &mut Btf| b.enumeration("e", 4, false, &[("___A_BIT", 5)]);
    let flavoured_after = |b: &mut Btf| b.enumeration("e", 4, false, &[("___Z_BIT", 1), ("___A_BIT", 5)]);
    let nothing = |_: &mut Btf| 0;
    let levels = |n: usize| {
        move |b: &mut Btf| {
            let int = b.plain("int", 4);
            let x = b.st("", 4, &[("x", int, 0)]);
            let top = (1..n).fold(x, |of, _| b.st("", 4, &[("", of, 0)]));
            b.st("s", 4, &[("", top, 0)])
        }
    };
    let x = |b: &mut Btf| member(b, &|b| b.plain("int", 4));
    vec![
        row("name-is-a-flavour", one(&empty("___a"), &empty(""), "0", 8, &MOV), "value=1"),
        row("variant-is-a-flavour", one(&flavoured, &flavoured_after, "0", 11, &MOV), "value=1"),
        row("enum-and-enum64", one(&variant(false, 1), &wide(1), "0", 10, &MOV), "value=0"),
        row("no-match-type-id", one(&empty("s"), &nothing, "0", 7, &MOV), "outcome=13 record=0 applied=0"),
        row("no-match-type-size", one(&empty("s"), &nothing, "0", 9, &MOV), "outcome=13 record=0 applied=0"),
        row("void", one(&|_| 0, &nothing, "0", 8, &MOV), "value=1"),
        row("levels-32", one(&x, &levels(32), "0:0", 0, &MOV), "value=0"),
        row("levels-33", one(&x, &levels(33), "0:0", 0, &MOV), "outcome=17 record=0 applied=0 [candidate 35 by=document-01]"),
        row("member-of-itself", one(&x, &own_member, "0:0", 0, &MOV), "outcome=17 record=0 applied=0 [candidate 2 by=document-01]"),
        row("parameter-of-itself", both(&own_parameter, "0", 8), "outcome=17 record=0 applied=0 [candidate 3 by=document-01]"),
    ]
}

fn values() -> Vec<Row> {
    let row = |name, case, told| Row { name, case, told };
    let old_bitfield = |b: &mut Btf| member(b, &|b| b.int("u", 4, 4));
    let int_index = |n: &str| both(&|b| b.plain("int", 4), n, 0);
    vec![
        row("nested-array-size", both(&|b| alias(b, &|b| arrays(b, &[2, 3])), "0", 9), "value=12"),
        row("nested-array-size-0", both(&|b| alias(b, &|b| arrays(b, &[0, 5])), "0", 9), "value=20"),
        row("nested-array-index", both(&|b| member(b, &|b| arrays(b, &[2, 3, 4])), "0:0:1", 0), "value=16"),
        row(
            "prototype-size",
            both(
                &|b| {
                    alias(b, &|b| {
                        let i = b.plain("int", 4);
                        b.proto(i, &[])
                    })
                },
                "0",
                9,
            ),
            "value=4",
        ),
        row("old-bitfield", both(&old_bitfield, "0:0", 5), "value=32"),
        row("bitfield-of-3-bytes", both(&bitfield(3, 1 << 24), "0:0", 1), "value=3"),
        row("offset-2-32-local", int_index("1073741824"), "outcome=16 record=0 applied=0 [bit offset 4294967296 by=document-01]"),
        row("offset-2-32-target", int_index("134217728"), "outcome=16 record=0 applied=0 [bit offset 4294967296 by=document-01]"),
    ]
}

fn applying() -> Vec<Row> {
    let row = |name, case, told| Row { name, case, told };
    let at = |code: u8, regs: u8| [&[code, regs, 0, 0, 0, 0, 0, 0], &MOV[..]].concat();
    let mut unaligned = both(&variant(false, 7), "0", 11);
    unaligned.records[0] = 7;
    let nothing = |_: &mut Btf| 0;
    let plain = |b: &mut Btf| member(b, &|b| b.plain("u", 4));
    vec![
        row("legacy-load", one(&wide(1), &wide(0x1122_3344_5566_7788), "0", 11, &at(0x20, 0)), "value=1234605616436508552"),
        row("legacy-load-poison", one(&wide(1), &nothing, "0", 11, &at(0x20, 0)), "value=poison"),
        row("register-source", one(&wide(1), &wide(7), "0", 11, &at(0x0f, 1)), "value=7"),
        row("value-cut-to-32-bits", one(&wide(1), &wide(0x1_0000_0001), "0", 11, &MOV), "value=4294967297"),
        row("offset-unaligned", unaligned, "value=7"),
        row("poison-at-the-end", one(&wide(1), &nothing, "0", 11, &at(0x18, 0)[..8]), "outcome=6 index=1 applied=0"),
        row("wide-at-the-end", one(&wide(1), &wide(1), "0", 11, &at(0x18, 0)[..8]), "outcome=6 index=1 applied=0"),
        row(
            "plain-to-bitfield",
            one(&plain, &bitfield(4, 3 << 24), "0:0", 0, &LDX),
            "outcome=12 reason=6 applied=0 [one side of a size change has no type by=document-01]",
        ),
    ]
}

fn panics() -> Vec<Row> {
    let row = |name, case, told| Row { name, case, told };
    let plain = |b: &mut Btf| member(b, &|b| b.plain("u", 4));
    let of = |make: Make, word: u32| {
        let make = |b: &mut Btf| {
            let x = make(b);
            b.group(4, "s", 8, true, &[("x", x, word)])
        };
        both(&make, "0:0", 0)
    };
    let with = |make: Make, kind| both(&|b| member(b, make), "0:0", kind);
    let product = |b: &mut Btf| {
        let half = b.int("h", 1 << 31, 0);
        b.array(half, 2)
    };
    let far = |b: &mut Btf| {
        let int = b.plain("u", 4);
        b.st("s", 4, &[("x", int, u32::MAX)])
    };
    vec![
        row(
            "product-2-64",
            both(&|b| b.plain("int", 4), "18446744073709551615", 0),
            "outcome=16 record=0 applied=0 [relocation.rs:788 attempt to multiply with overflow by=document-01]",
        ),
        row(
            "size-2-32",
            both(&|b| alias(b, &product), "0", 9),
            "outcome=14 record=0 applied=0 [btf.rs:483 attempt to multiply with overflow by=document-01]",
        ),
        row(
            "member-void",
            with(&|_| 0, 2),
            "outcome=14 record=0 applied=0 [types.rs:1589 internal error: entered unreachable code: unexpected type Un by=document-01]",
        ),
        row(
            "function",
            both(
                &|b| {
                    let p = b.proto(0, &[]);
                    b.refer(12, "g", p)
                },
                "0",
                8,
            ),
            "outcome=14 record=0 applied=0 [types.rs:1538 internal error: entered unreachable code: unexpected type Fu by=document-01]",
        ),
        row(
            "bitfield-without-size",
            of(&|b| b.refer(7, "w", 0), 1 << 24),
            "outcome=14 record=0 applied=0 [relocation.rs:1200 called `Option::unwrap()` on a `None` value by=document-01]",
        ),
        row(
            "bitfield-of-size-0",
            of(&|b| b.plain("u", 0), 1 << 24),
            "outcome=14 record=0 applied=0 [relocation.rs:1201 attempt to divide by zero by=document-01]",
        ),
        row(
            "shift-below-0-local",
            with(&|b| b.plain("u", 16), 5),
            "outcome=14 record=0 applied=0 [relocation.rs:1247 attempt to subtract with overflow by=document-01]",
        ),
        row(
            "shift-below-0-target",
            one(&plain, &|b| member(b, &|b| b.plain("u", 16)), "0:0", 5, &MOV),
            "value=poison [relocation.rs:1247 attempt to subtract with overflow by=document-01]",
        ),
        row(
            "plain-2-29",
            with(&|b| b.int("u", 1 << 29, 0), 1),
            "outcome=outside applied=0 [relocation.rs:1212 attempt to multiply with overflow by=nobody]",
        ),
        row("end-2-32", both(&far, "0:0", 4), "outcome=outside applied=0 [relocation.rs:1241 attempt to add with overflow by=nobody]"),
    ]
}

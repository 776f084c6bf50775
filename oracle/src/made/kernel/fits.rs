//! Records that a compiler would write for a program's types, and instructions that fit them.

use super::cut::Cut;
use crate::{
    case::Case,
    made::{
        bytes::{Btf, record},
        records::{self, Wanted},
        rng::Rng,
        types::*,
    },
};

/// Codes of loads and stores by the bytes that they move: LDX, LDX with sign, ST, STX.
const MOVES: [(u64, &[u8]); 4] = [
    (1, &[0x71, 0x71, 0x71, 0x91, 0x72, 0x73]),
    (2, &[0x69, 0x69, 0x69, 0x89, 0x6a, 0x6b]),
    (4, &[0x61, 0x61, 0x61, 0x81, 0x62, 0x63]),
    (8, &[0x79, 0x79, 0x79, 0x7a, 0x7b]),
];
const WIDE: u8 = 0x18;
/// Instructions without a record: mov between registers, a call, a jump, an add.
const PLAIN: [[u8; 8]; 4] =
    [[0xbf, 0x61, 0, 0, 0, 0, 0, 0], [0x85, 0, 0, 0, 113, 0, 0, 0], [0x15, 0, 1, 0, 0, 0, 0, 0], [0x0f, 0x21, 0, 0, 0, 0, 0, 0]];
const EXIT: [u8; 8] = [0x95, 0, 0, 0, 0, 0, 0, 0];

/// Where a walk from a type ends.
struct Walk {
    parts: Vec<usize>,
    end: u32,
    bits: u32,
    /// whether the last part is a member's
    member: bool,
}

/// A walk along members and elements that are there.
fn walk(rng: &mut Rng, types: &Types, root: u32) -> Walk {
    let mut walk = Walk { parts: vec![if rng.chance(96) { 0 } else { 1 + rng.below(3) }], end: root, bits: 0, member: false };
    // Unnamed members end no walk: a compiler names the member inside.
    let mut inside = rng.chance(97);
    while inside || rng.chance(75) {
        let Some((_, ty)) = behind(types, walk.end) else {
            break;
        };
        let part = match ty.kind {
            STRUCT | UNION if !ty.entries.is_empty() => rng.below(ty.entries.len()),
            ARRAY => rng.below(ty.extra[2].max(1) as usize),
            _ => break,
        };
        walk.parts.push(part);
        walk.member = ty.is_group();
        inside = ty.is_group() && ty.entries[part].name.is_empty();
        walk.bits = if ty.is_group() && ty.flag { ty.entries[part].words[1] >> 24 } else { 0 };
        walk.end = if ty.is_group() { ty.entries[part].words[0] } else { ty.extra[0] };
    }
    walk
}

/// Whether shifts of a type's value make sense.
fn is_number(types: &Types, id: u32) -> bool {
    behind(types, id).is_some_and(|(_, ty)| ty.is_enum() || ty.kind == PTR || ty.kind == INT && ty.third <= 8)
}

/// A record of a field, and a code for its instruction.
fn field(rng: &mut Rng, cut: &Cut, root: u32) -> Wanted {
    let walk = walk(rng, &cut.types, root);
    let kind = match () {
        () if !walk.member => rng.pick(&[0, 0, 0, 1, 2, 2]),
        () if walk.bits > 0 => rng.pick(&[0, 1, 1, 2, 3, 4, 4, 5, 5]),
        () if is_number(&cut.types, walk.end) => rng.pick(&[0, 0, 0, 0, 0, 1, 1, 2, 3, 4, 5]),
        () => rng.pick(&[0, 0, 1, 1, 2, 2, 3]),
    };
    let moves = MOVES.iter().find(|(size, _)| *size == cut.size(walk.end));
    let code = match moves {
        Some((_, codes)) if kind == 0 && rng.chance(65) => rng.pick(codes),
        _ => rng.pick(&[0xb7, 0xb7, 0x07, 0xb4, WIDE]),
    };
    let access = walk.parts.iter().map(usize::to_string).collect::<Vec<_>>().join(":");
    Wanted { type_id: root, access, kind, code: Some(code) }
}

/// A record of one of the program's types.
pub fn wanted(rng: &mut Rng, cut: &Cut, roots: &[u32]) -> Wanted {
    let asked = rng.chance(85);
    let root = if asked { rng.pick(roots) } else { 1 + rng.below(cut.types.len()) as u32 };
    if rng.chance(4) {
        return records::wanted(rng, &cut.types, root);
    }
    let suits = behind(&cut.types, root).map(|(_, ty)| ty);
    let of_field = suits.is_some_and(|ty| ty.is_group() && !ty.entries.is_empty() || ty.kind == ARRAY);
    if of_field && rng.chance(78) {
        return field(rng, cut, root);
    }
    let variants = suits.filter(|ty| ty.is_enum() && !ty.entries.is_empty()).map_or(0, |ty| ty.entries.len());
    let (kind, access) = match () {
        () if variants > 0 && rng.chance(70) => (rng.pick(&[10, 11, 11]), rng.below(variants)),
        () if asked => (rng.pick(&[6, 6, 7, 8, 8, 8, 8, 9]), 0),
        // The target may well have none of that name, and then an id or a size is refused.
        () => (rng.pick(&[6, 8, 8, 8, 8, 9]), 0),
    };
    Wanted { type_id: root, access: access.to_string(), kind, code: Some(rng.pick(&[0xb7, 0xb4, WIDE, WIDE])) }
}

/// An instruction of a code; registers as its class has them.
fn instruction(rng: &mut Rng, code: u8) -> [u8; 8] {
    if rng.chance(2) {
        return records::instruction(rng);
    }
    let (to, from) = (rng.below(10) as u8, rng.below(10) as u8);
    let regs = if matches!(code & 7, 1 | 3) { from << 4 | to } else { to };
    let [a, b] = (rng.below(256) as u16).to_le_bytes();
    match code & 7 {
        1..=3 => [code, regs, a, b, 0, 0, 0, 0],
        _ => [code, regs, 0, 0, a, b, 0, 0],
    }
}

/// The function and its records: each has an instruction of its own, others stand between them.
pub fn function(rng: &mut Rng, local: &mut Btf, wanted: &[Wanted]) -> Case {
    let mut case = Case { section: if rng.chance(60) { 0 } else { 8 * rng.below(4_000) as u64 }, ..Case::default() };
    for wanted in wanted {
        for _ in 0..rng.below(3) {
            case.insns.extend(rng.pick(&PLAIN));
        }
        let at = match rng.below(200) {
            0 => rng.below(2 * case.insns.len() + 64),
            1 => case.insns.len() + rng.below(8),
            _ => case.insns.len(),
        };
        let insn = instruction(rng, wanted.code.unwrap_or(0xb7));
        case.insns.extend(insn);
        if insn[0] == WIDE && rng.chance(99) {
            case.insns.extend([0; 8]);
        }
        let access = local.name(&wanted.access);
        case.records.extend(record(case.section as u32 + at as u32, wanted.type_id, access, wanted.kind));
    }
    case.insns.extend(EXIT);
    case
}

//! Records and instructions for a pair of type lists.

use super::{
    bytes::{Btf, record},
    rng::Rng,
    types::{ARRAY, Types, behind, emit},
};
use crate::case::Case;

/// Access strings that are no walk.
const ODD_TEXTS: [&str; 22] = [
    "",
    ":",
    "0:",
    ":0",
    "0::1",
    "+",
    "++0",
    "-1",
    "0x1",
    " 0",
    "0 ",
    "00",
    "+0",
    "+00:+0",
    "0:+1",
    "x",
    "0:x",
    "1:0:",
    "18446744073709551615",
    "18446744073709551616",
    "0:18446744073709551615",
    "99999999999999999999999",
];

/// One record before it is bytes.
pub struct Wanted {
    pub type_id: u32,
    pub access: String,
    pub kind: u32,
    /// the code of its instruction, if it matters
    pub code: Option<u8>,
}

/// A walk from a type: mostly one that stands, now and then an index too far.
pub fn walk(rng: &mut Rng, types: &Types, id: u32, longest: usize) -> String {
    let mut parts = vec![if rng.chance(92) { 0 } else { rng.below(4) }];
    let mut at = id;
    while parts.len() < longest && rng.chance(85) {
        let Some((_, ty)) = behind(types, at) else {
            break;
        };
        let part = if ty.is_group() {
            let part = index(rng, ty.entries.len());
            let Some(entry) = ty.entries.get(part) else {
                parts.push(part);
                break;
            };
            at = entry.words[0];
            part
        } else if ty.kind == ARRAY {
            at = ty.extra[0];
            index(rng, ty.extra[2].min(6) as usize)
        } else if rng.chance(96) {
            break;
        } else {
            rng.below(2)
        };
        parts.push(part);
    }
    parts.iter().map(|&p| part(rng, p)).collect::<Vec<_>>().join(":")
}

/// An index below `n`, in a few of a hundred at or past it.
fn index(rng: &mut Rng, n: usize) -> usize {
    if n == 0 || rng.chance(2) { n + rng.below(3) } else { rng.below(n) }
}

/// A part as text: here and there with a sign or zeros before it.
fn part(rng: &mut Rng, value: usize) -> String {
    match rng.below(60) {
        0 => format!("+{value}"),
        1 => format!("0{value}"),
        2 => format!("+00{value}"),
        _ => value.to_string(),
    }
}

/// A record for a type: a kind that suits it, mostly.
pub fn wanted(rng: &mut Rng, types: &Types, type_id: u32) -> Wanted {
    let suits = behind(types, type_id).map(|(_, ty)| ty);
    let kind = match suits {
        _ if rng.chance(1) => 12 + rng.below(3) as u32,
        _ if rng.chance(5) => rng.below(12) as u32,
        Some(ty) if ty.is_enum() => rng.pick(&[10, 10, 11, 11, 11, 11, 6, 7, 8, 9]),
        Some(ty) if ty.is_group() || ty.kind == ARRAY => rng.pick(&[0, 0, 0, 0, 1, 1, 2, 2, 3, 3, 4, 4, 5, 5, 6, 7, 8, 9]),
        _ => rng.pick(&[6, 7, 7, 8, 8, 8, 9, 9, 0, 1, 2]),
    };
    let access = match kind {
        _ if rng.chance(2) => rng.pick(&ODD_TEXTS).to_string(),
        6..=9 if rng.chance(97) => part(rng, 0),
        10 | 11 if rng.chance(97) => {
            let variants = suits.map_or(0, |ty| ty.entries.len());
            let variant = index(rng, variants);
            part(rng, variant)
        }
        _ => walk(rng, types, type_id, 9),
    };
    Wanted { type_id, access, kind, code: None }
}

/// An instruction: plain ones mostly, of every class now and then.
pub fn instruction(rng: &mut Rng) -> [u8; 8] {
    let regs = rng.below(11) as u8;
    let small = rng.below(64) as u8;
    let (code, regs) = match rng.weighed(&[56, 3, 20, 14, 2, 2, 3]) {
        0 => (rng.pick(&[0xb7, 0xb4, 0x07, 0x04, 0xbf, 0x0f]), regs),
        1 => (rng.pick(&[0xb7, 0xbf, 0x0f, 0x04]), regs | 0x10 << rng.below(4)),
        2 => (rng.pick(&[0x61, 0x69, 0x71, 0x79, 0x62, 0x6a, 0x63, 0x7b, 0x73, 0x81, 0x91, 0xdb]), regs | 0x10),
        3 => (0x18, regs),
        4 => (rng.pick(&[0x05, 0x85, 0x95, 0x15, 0x06, 0x16]), regs),
        5 => (rng.pick(&[0x20, 0x28, 0x30, 0x40, 0x00]), regs),
        _ => (rng.draw() as u8, rng.draw() as u8),
    };
    if rng.chance(6) {
        let noise = rng.draw().to_le_bytes();
        return [code, regs, noise[0], noise[1], noise[2], noise[3], noise[4], noise[5]];
    }
    [code, regs, small, 0, small, 0, 0, 0]
}

/// A case from two type lists and records: each record gets a slot of its own, mostly.
pub fn case(rng: &mut Rng, local: &Types, target: &Types, wanted: &[Wanted]) -> Case {
    let (mut local, target) = (emit(rng, local), emit(rng, target));
    let mut insns = Vec::new();
    let mut slots = Vec::new();
    for wanted in wanted {
        slots.push(insns.len() as u32);
        let mut insn = instruction(rng);
        insn[0] = wanted.code.unwrap_or(insn[0]);
        insns.extend(insn);
        if insn[0] == 0x18 && rng.chance(85) {
            insns.extend([0, 0, 0, 0, small(rng), 0, 0, 0]);
        }
    }
    let section = if rng.chance(80) { 0 } else { 8 * rng.below(40) as u64 };
    let mut records = Vec::new();
    for (wanted, slot) in wanted.iter().zip(slots) {
        let slot = match rng.below(100) {
            0 => insns.len() as u32 + rng.below(17) as u32,
            1 => slot.wrapping_sub(1 + rng.below(16) as u32),
            2..=5 => slot + rng.below(8) as u32,
            6 => rng.below(insns.len()) as u32,
            _ => slot,
        };
        let access = local.name(&wanted.access);
        let past = local.strings.len() + rng.below(120);
        let access = if rng.chance(99) { access } else { rng.pick(&[past as u32, past as u32 + 400, u32::MAX]) };
        let type_id = if rng.chance(99) { wanted.type_id } else { (local.types.len() + rng.below(3)) as u32 };
        records.extend(record(slot.wrapping_add(section as u32), type_id, access, wanted.kind));
    }
    Case { local: laid_out(rng, &local), target: laid_out(rng, &target), insns, records, section }
}

/// A BTF's bytes: mostly as compilers lay them out, now and then with a longer header, a gap, or the strings first.
fn laid_out(rng: &mut Rng, btf: &Btf) -> Vec<u8> {
    if rng.chance(96) {
        return btf.bytes();
    }
    let header = 24 + 4 * rng.below(3) as u32;
    let gap = rng.below(3) as u32;
    btf.laid_out(header, gap, rng.chance(50))
}

fn small(rng: &mut Rng) -> u8 {
    if rng.chance(80) { 0 } else { rng.draw() as u8 }
}

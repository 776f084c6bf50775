//! Types thrown together: any kind may refer to any id, circles included.

use super::{rng::Rng, types::*};

const NAMES: [&str; 6] = ["a", "b", "s", "a___1", "b___2", "s___v"];

/// A list of types of every kind.
pub fn types(rng: &mut Rng) -> Types {
    let count = 3 + rng.below(10);
    (1..=count).map(|id| any(rng, id as u32, count as u32)).collect()
}

/// A name out of a small pool, often none.
fn name(rng: &mut Rng) -> String {
    if rng.chance(30) { String::new() } else { rng.pick(&NAMES).to_string() }
}

/// An id at or below the last: mostly one before this, so that circles stay rare.
fn id(rng: &mut Rng, here: u32, last: u32) -> u32 {
    match rng.below(20) {
        0 => rng.below(last as usize + 1) as u32,
        1 => rng.below(here as usize) as u32,
        _ => 1 + rng.below(here.saturating_sub(1).max(1) as usize) as u32,
    }
}

fn any(rng: &mut Rng, here: u32, last: u32) -> Type {
    let kinds = [5, 4, 4, 10, 4, 5, 2, 4, 1, 2, 1, 1, 3, 1, 1, 2, 1, 1, 3];
    let kind = 1 + rng.weighed(&kinds) as u32;
    let mut ty = Type { kind, name: name(rng), flag: rng.chance(20), third: id(rng, here, last), ..Type::default() };
    let sizes = [1, 2, 4, 8, 4, 8, 16, 3, 12, 0];
    let count = rng.below(4);
    match kind {
        INT => {
            ty.third = rng.pick(&sizes[..7]);
            ty.extra = vec![(ty.third * 8) | (rng.pick(&[0, 0, 0, 1, 2, 4]) << 24) | u32::from(rng.chance(4)) << 16];
        }
        ARRAY => ty.extra = vec![id(rng, here, last), id(rng, here, last), rng.below(4) as u32],
        STRUCT | UNION => {
            ty.third = rng.pick(&sizes);
            ty.entries = (0..count).map(|i| member(rng, here, last, i)).collect();
        }
        ENUM | ENUM64 => {
            ty.third = if kind == ENUM { 4 } else { 8 };
            ty.entries = (0..count).map(|_| variant(rng, kind)).collect();
        }
        PROTO => ty.entries = (0..rng.below(3)).map(|_| Entry { name: name(rng), words: vec![id(rng, here, last)] }).collect(),
        VAR | DECL_TAG => ty.extra = vec![rng.below(3) as u32],
        DATASEC => {
            ty.third = rng.pick(&sizes);
            ty.entries = (0..count).map(|_| Entry { name: String::new(), words: vec![id(rng, here, last), 0, 4] }).collect();
        }
        FLOAT => ty.third = rng.pick(&sizes),
        _ => {}
    }
    ty
}

fn member(rng: &mut Rng, here: u32, last: u32, at: usize) -> Entry {
    let bits = if rng.chance(15) { (1 + rng.below(12) as u32) << 24 } else { 0 };
    let offset = if rng.chance(85) { 32 * at as u32 } else { rng.below(130) as u32 };
    Entry { name: name(rng), words: vec![id(rng, here, last), bits | offset] }
}

fn variant(rng: &mut Rng, kind: u32) -> Entry {
    let value = rng.pick(&[0, 1, 2, 7, 40_000, u64::MAX, 0xffff_ffff, 0x8000_0000, 0x1_0000_0001]);
    let words = if kind == ENUM { vec![value as u32] } else { vec![value as u32, (value >> 32) as u32] };
    Entry { name: name(rng), words }
}

/// Another list near this one: a word, a name, a flag changed, a type put to the end a second time.
pub fn near(rng: &mut Rng, types: &Types) -> Types {
    let mut types = types.clone();
    for _ in 0..rng.below(4) {
        let at = rng.below(types.len());
        let last = types.len();
        let ty = &mut types[at];
        match rng.below(9) {
            0 => ty.name = name(rng),
            1 => ty.flag = !ty.flag,
            2 => {
                if let Some(id) = ty.ids().into_iter().next() {
                    *id = rng.below(last + 1) as u32;
                }
            }
            3 if !ty.entries.is_empty() => {
                ty.entries.remove(rng.below(ty.entries.len()));
            }
            4 if ty.entries.len() > 1 => ty.entries.swap(0, 1),
            5 if ty.is_group() => ty.entries.iter_mut().for_each(|e| e.words[1] = e.words[1].wrapping_add(64)),
            6 if ty.is_enum() => ty.entries.iter_mut().for_each(|e| e.words[0] ^= 1),
            7 if ty.kind == INT || ty.kind == FLOAT => ty.third = rng.pick(&[1, 2, 4, 8]),
            _ => {
                let twin = types[at].clone();
                types.push(twin);
            }
        }
    }
    types
}

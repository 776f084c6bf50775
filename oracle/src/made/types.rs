//! A type list before it is bytes: names as text, everything open to change.

use super::{bytes::Btf, rng::Rng};

pub const INT: u32 = 1;
pub const PTR: u32 = 2;
pub const ARRAY: u32 = 3;
pub const STRUCT: u32 = 4;
pub const UNION: u32 = 5;
pub const ENUM: u32 = 6;
pub const FWD: u32 = 7;
pub const TYPEDEF: u32 = 8;
pub const CONST: u32 = 10;
pub const FUNC: u32 = 12;
pub const PROTO: u32 = 13;
pub const VAR: u32 = 14;
pub const DATASEC: u32 = 15;
pub const FLOAT: u32 = 16;
pub const DECL_TAG: u32 = 17;
pub const TYPE_TAG: u32 = 18;
pub const ENUM64: u32 = 19;

/// Typedef, volatile, const, restrict, type tag.
pub const MODIFIERS: [u32; 5] = [8, 9, 10, 11, 18];

/// An entry of a list: its name (not in a DATASEC) and the words beside it.
#[derive(Clone, Debug, PartialEq)]
pub struct Entry {
    pub name: String,
    pub words: Vec<u32>,
}

/// One type. `third` is its size or its type; `extra` the words of INT, ARRAY, VAR and DECL_TAG.
#[derive(Clone, Debug, Default, PartialEq)]
pub struct Type {
    pub kind: u32,
    pub name: String,
    pub flag: bool,
    pub third: u32,
    pub extra: Vec<u32>,
    pub entries: Vec<Entry>,
}

/// Types in id order, id 1 first.
pub type Types = Vec<Type>;

impl Type {
    pub fn is_group(&self) -> bool {
        self.kind == STRUCT || self.kind == UNION
    }

    pub fn is_enum(&self) -> bool {
        self.kind == ENUM || self.kind == ENUM64
    }

    pub fn is_modifier(&self) -> bool {
        MODIFIERS.contains(&self.kind)
    }

    /// The type ids of the type itself and of its entries, to be changed in place.
    pub fn ids(&mut self) -> Vec<&mut u32> {
        match self.kind {
            2 | 8..=12 | 14 | 17 | 18 => vec![&mut self.third],
            ARRAY => self.extra[..2].iter_mut().collect(),
            STRUCT | UNION | DATASEC => self.entries.iter_mut().map(|e| &mut e.words[0]).collect(),
            PROTO => [&mut self.third].into_iter().chain(self.entries.iter_mut().map(|e| &mut e.words[0])).collect(),
            _ => Vec::new(),
        }
    }
}

/// The list as a BTF. Now and then an empty name is put at an offset other than 0.
pub fn emit(rng: &mut Rng, types: &Types) -> Btf {
    let mut btf = Btf::default();
    for ty in types {
        let mut words = ty.extra.clone();
        for entry in &ty.entries {
            if ty.kind != DATASEC {
                let empty = entry.name.is_empty() && btf.strings.len() > 1 && rng.chance(2);
                words.push(if empty { btf.strings.len() as u32 - 1 } else { btf.name(&entry.name) });
            }
            words.extend(&entry.words);
        }
        btf.add(ty.kind, &ty.name, ty.third, ty.entries.len(), ty.flag, &words);
    }
    btf
}

/// The type behind modifiers, or nothing.
pub fn behind(types: &Types, id: u32) -> Option<(u32, &Type)> {
    let mut id = id;
    for _ in 0..40 {
        let ty = types.get(id.checked_sub(1)? as usize)?;
        if !ty.is_modifier() {
            return Some((id, ty));
        }
        id = ty.third;
    }
    None
}

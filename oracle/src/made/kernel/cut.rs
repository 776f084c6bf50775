//! A program's own copy of some of a kernel's types, as its compiler emits them: the members that it needs, laid out
//! anew, and forward declarations where it does not look further.

use std::collections::HashMap;

use super::source::Kernel;
use crate::made::{rng::Rng, types::*, world::FLAVOURS};

/// Levels of structs in structs, and how many members a struct keeps on each, the innermost first.
pub const LEVELS: usize = 3;
const MEMBERS: [usize; LEVELS + 1] = [3, 4, 6, 14];
/// Variants that an enum keeps.
const VARIANTS: usize = 8;
/// Ints by size and encoding, the unsigned ones first: of another size, only they fit a load.
const INTS: [(&str, u32, u32); 7] = [
    ("unsigned char", 1, 0),
    ("unsigned short", 2, 0),
    ("unsigned int", 4, 0),
    ("unsigned long", 8, 0),
    ("short", 2, 1),
    ("int", 4, 1),
    ("long", 8, 1),
];
/// What a name gets that the kernel has not.
const GONE: &str = "_gone";

pub struct Cut<'k> {
    kernel: &'k Kernel,
    pub types: Types,
    /// the copy of each kernel's type
    ids: HashMap<u32, u32>,
}

/// A member on its way: its type in the kernel, its bits if it is a bitfield, its offset in bits in the kernel.
#[derive(Clone)]
struct Field {
    name: String,
    of: u32,
    bits: u32,
    at: u32,
}

/// How a type is come to.
#[derive(Clone, Copy, PartialEq)]
enum By {
    Value,
    Pointer,
}

impl<'k> Cut<'k> {
    pub fn new(kernel: &'k Kernel) -> Self {
        Self { kernel, types: Types::new(), ids: HashMap::new() }
    }

    /// A type that records ask of: now and then of a flavour, or of a name that the kernel has not.
    pub fn root(&mut self, rng: &mut Rng, id: u32) -> u32 {
        let here = self.copy(rng, id, LEVELS, By::Value);
        let name = &mut self.types[here as usize - 1].name;
        match rng.below(100) {
            0..=14 => *name += rng.pick(&FLAVOURS[..4]),
            15..=17 => *name += GONE,
            _ => {}
        }
        here
    }

    /// What else a compiler puts into a program's BTF: its function, and its licence in a section.
    pub fn program(&mut self) {
        let int = self.push(Type { kind: INT, name: "int".into(), third: 4, extra: vec![0x0100_0020], ..Type::default() });
        let char = self.push(Type { kind: INT, name: "char".into(), third: 1, extra: vec![0x0100_0008], ..Type::default() });
        let size = self.push(Type { kind: INT, name: "__ARRAY_SIZE_TYPE__".into(), third: 4, extra: vec![0x20], ..Type::default() });
        let context = self.push(Type { kind: PTR, ..Type::default() });
        let parameter = Entry { name: "ctx".into(), words: vec![context] };
        let proto = self.push(Type { kind: PROTO, third: int, entries: vec![parameter], ..Type::default() });
        self.push(Type { kind: FUNC, name: "program".into(), third: proto, ..Type::default() });
        let text = self.push(Type { kind: ARRAY, extra: vec![char, size, 4], ..Type::default() });
        let licence = self.push(Type { kind: VAR, name: "_license".into(), third: text, extra: vec![1], ..Type::default() });
        let held = Entry { name: String::new(), words: vec![licence, 0, 4] };
        self.push(Type { kind: DATASEC, name: "license".into(), third: 4, entries: vec![held], ..Type::default() });
    }

    /// The copy's id, made where there is none.
    fn copy(&mut self, rng: &mut Rng, id: u32, depth: usize, by: By) -> u32 {
        if id == 0 {
            return 0;
        }
        if let Some(&here) = self.ids.get(&id) {
            return here;
        }
        let ty = &self.kernel.types[id as usize - 1];
        let here = match ty.kind {
            STRUCT | UNION if by == By::Pointer && !ty.name.is_empty() && (depth == 0 || rng.chance(85)) => {
                return self.push(Type { kind: FWD, name: ty.name.clone(), flag: ty.kind == UNION, ..Type::default() });
            }
            STRUCT | UNION => return self.group(rng, id, depth),
            ENUM | ENUM64 => {
                let entries = variants(rng, &ty.entries);
                self.push(Type { entries, ..ty.clone() })
            }
            _ => self.referring(rng, ty, depth, by),
        };
        // Modifiers before a forward declaration stand for the pointer that came to them, not for a member.
        if by == By::Value || !ty.is_modifier() {
            self.ids.insert(id, here);
        }
        here
    }

    /// A pointer, an array, a modifier, a prototype, or what refers to nothing.
    fn referring(&mut self, rng: &mut Rng, ty: &Type, depth: usize, by: By) -> u32 {
        let mut ty = ty.clone();
        let (below, by) = match ty.kind {
            PTR => (depth.saturating_sub(1), By::Pointer),
            ARRAY | PROTO => (depth, By::Value),
            _ => (depth, by),
        };
        if ty.kind == ARRAY && rng.chance(4) {
            ty.extra[2] = rng.pick(&[0, 1, ty.extra[2] / 2, ty.extra[2] + 1]);
        }
        for id in ty.ids() {
            *id = self.copy(rng, *id, below, by);
        }
        self.push(ty)
    }

    /// A type's id; what is there already is not put a second time.
    fn push(&mut self, ty: Type) -> u32 {
        if let Some(at) = self.types.iter().position(|t| *t == ty) {
            return at as u32 + 1;
        }
        self.types.push(ty);
        self.types.len() as u32
    }

    /// A struct or union. Its place is taken first: it may come to itself through a pointer.
    fn group(&mut self, rng: &mut Rng, id: u32, depth: usize) -> u32 {
        self.types.push(Type::default());
        let here = self.types.len();
        self.ids.insert(id, here as u32);
        let kernel = self.kernel;
        let ty = &kernel.types[id as usize - 1];
        let fields = self.kept(rng, ty, depth);
        let as_there = rng.chance(25);
        let flag = fields.iter().any(|f| f.bits > 0);
        let (mut at, mut size, mut widest) = (0, 0, 1);
        let mut entries = Vec::new();
        for field in fields {
            let of = self.member(rng, &field, depth);
            let (start, end) = place(at, self.size(of), field.bits);
            let start = if as_there { field.at } else { start as u32 };
            let word = if flag { start & 0xff_ffff | field.bits << 24 } else { start };
            entries.push(Entry { name: field.name, words: vec![of, word] });
            size = size.max(end);
            widest = widest.max(alignment(self.size(of)));
            at = if ty.kind == UNION { 0 } else { end };
        }
        let third = if as_there { ty.third } else { size.div_ceil(8).next_multiple_of(widest) as u32 };
        self.types[here - 1] = Type { kind: ty.kind, name: ty.name.clone(), flag, third, extra: Vec::new(), entries };
        here as u32
    }

    /// A member's type: mostly the kernel's, now and then another that fits a member.
    fn member(&mut self, rng: &mut Rng, field: &Field, depth: usize) -> u32 {
        if field.bits > 0 || field.name.is_empty() || rng.chance(93) {
            return self.copy(rng, field.of, depth.saturating_sub(1), By::Value);
        }
        let unsigned = behind(&self.kernel.types, field.of).is_some_and(|(_, ty)| ty.kind == INT && ty.extra[0] >> 24 == 0);
        if !unsigned && rng.chance(30) {
            return self.push(Type { kind: PTR, ..Type::default() });
        }
        let (name, third, encoding) = if unsigned { rng.pick(&INTS[..4]) } else { rng.pick(&INTS) };
        self.push(Type { kind: INT, name: name.to_string(), third, extra: vec![(third * 8) | (encoding << 24)], ..Type::default() })
    }

    /// The members that the program needs: some of the kernel's, those of some unnamed members in their place, a few
    /// in another order, seldom one that the kernel has not.
    fn kept(&self, rng: &mut Rng, ty: &Type, depth: usize) -> Vec<Field> {
        let mut fields = Vec::new();
        for field in fields_of(ty) {
            let inner = behind(&self.kernel.types, field.of).map(|(_, inner)| inner).filter(|inner| inner.is_group());
            match inner {
                Some(inner) if field.name.is_empty() && rng.chance(25) => {
                    fields.extend(fields_of(inner).into_iter().map(|f| Field { at: field.at + f.at, ..f }));
                }
                _ => fields.push(field),
            }
        }
        fields.retain(|f| depth > 0 || self.is_leaf(f.of));
        while fields.len() > MEMBERS[depth] {
            fields.remove(rng.below(fields.len()));
        }
        if fields.len() > 1 && rng.chance(30) {
            let (a, b) = (rng.below(fields.len()), rng.below(fields.len()));
            fields.swap(a, b);
        }
        for field in &mut fields {
            if !field.name.is_empty() && rng.chance(4) {
                field.name += GONE;
            }
        }
        fields
    }

    /// Whether a member holds no struct or union.
    fn is_leaf(&self, id: u32) -> bool {
        match behind(&self.kernel.types, id) {
            Some((_, ty)) if ty.kind == ARRAY => self.is_leaf(ty.extra[0]),
            Some((_, ty)) => !ty.is_group(),
            None => false,
        }
    }

    /// A size in bytes of a copy; 0 where there is none.
    pub fn size(&self, id: u32) -> u64 {
        match behind(&self.types, id) {
            Some((_, ty)) if ty.kind == PTR => 8,
            Some((_, ty)) if ty.kind == ARRAY => self.size(ty.extra[0]) * u64::from(ty.extra[2]),
            Some((_, ty)) if matches!(ty.kind, INT | STRUCT | UNION | ENUM | FLOAT | ENUM64) => u64::from(ty.third),
            _ => 0,
        }
    }
}

fn fields_of(ty: &Type) -> Vec<Field> {
    let field = |entry: &Entry| {
        let word = entry.words[1];
        let (bits, at) = if ty.flag { (word >> 24, word & 0xff_ffff) } else { (0, word) };
        Field { name: entry.name.clone(), of: entry.words[0], bits, at }
    };
    ty.entries.iter().map(field).collect()
}

/// Some of an enum's variants, seldom one that the kernel has not, or of a flavour.
fn variants(rng: &mut Rng, of: &[Entry]) -> Vec<Entry> {
    let mut kept = of.to_vec();
    while kept.len() > VARIANTS {
        kept.remove(rng.below(kept.len()));
    }
    for variant in &mut kept {
        match rng.below(100) {
            0..=3 => variant.name += GONE,
            4..=6 => variant.name += "___other",
            _ => {}
        }
    }
    kept
}

/// As near as a size tells it.
fn alignment(bytes: u64) -> u64 {
    bytes.next_power_of_two().clamp(1, 8)
}

/// Where a member of so many bytes (or bits of them) begins and ends, in bits, if the next free bit is `at`.
fn place(at: u64, bytes: u64, bits: u32) -> (u64, u64) {
    let unit = 8 * bytes.max(1);
    let start = match u64::from(bits) {
        0 => at.next_multiple_of(8 * alignment(bytes)),
        bits if at / unit == (at + bits - 1) / unit => at,
        _ => at.next_multiple_of(unit),
    };
    let length = if bits > 0 { u64::from(bits) } else { 8 * bytes };
    (start, start + length)
}

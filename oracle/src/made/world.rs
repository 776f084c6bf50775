//! Types as a program declares them, and how another kernel declares them a little otherwise.

use super::{rng::Rng, types::*};

#[derive(Clone, Debug)]
pub enum Shape {
    Void,
    Int { name: &'static str, size: u32, extra: u32 },
    Float { size: u32 },
    Ptr(Box<Shape>),
    Array(Box<Shape>, u32),
    Modified { kind: u32, name: &'static str, of: Box<Shape> },
    Proto(Box<Shape>, Vec<Shape>),
    Fwd(&'static str),
    Named(usize),
    Inline(Box<Decl>),
}

#[derive(Clone, Debug)]
pub struct Field {
    pub name: String,
    pub shape: Shape,
    /// a bitfield's width, 0 for none
    pub bits: u32,
}

#[derive(Clone, Debug)]
pub enum Decl {
    Group { name: String, union: bool, fields: Vec<Field> },
    Enum { name: String, wide: bool, signed: bool, variants: Vec<(String, u64)> },
    Alias { name: String, of: Shape },
}

pub type World = Vec<Decl>;

const FIELD_NAMES: [&str; 8] = ["a", "b", "c", "d", "e", "x", "y", "pid"];
const VARIANT_NAMES: [&str; 6] = ["A", "B", "C", "D", "MAX", "___E"];
const TYPE_NAMES: [&str; 7] = ["s", "t", "u", "task", "file", "in", "w"];
pub const FLAVOURS: [&str; 6] = ["___v1", "___v2", "___", "____x", "___v1___v2", "__y"];

pub fn int(rng: &mut Rng) -> Shape {
    let (name, size, encoding) = rng.pick(&[
        ("int", 4, 1),
        ("unsigned int", 4, 0),
        ("u8", 1, 0),
        ("char", 1, 2),
        ("bool", 1, 4),
        ("short", 2, 1),
        ("u16", 2, 0),
        ("u64", 8, 0),
        ("long", 8, 1),
        ("u32", 4, 0),
        ("u128", 16, 0),
        ("u24", 3, 0),
    ]);
    let offset = if rng.chance(2) { 8 } else { 0 };
    Shape::Int { name, size, extra: (size * 8) & 0xff | offset << 16 | encoding << 24 }
}

/// An unsigned int of any size, the ones that no load has among them.
pub fn unsigned(rng: &mut Rng) -> Shape {
    let size = rng.pick(&[1, 2, 4, 8, 4, 8, 3, 16, 3]);
    Shape::Int { name: "un", size, extra: size * 8 }
}

pub fn modified(rng: &mut Rng, of: Shape) -> Shape {
    let kind = rng.pick(&MODIFIERS);
    let name = if kind == TYPEDEF {
        rng.pick(&["t1", "t2", "size_t"])
    } else if kind == TYPE_TAG {
        "user"
    } else {
        ""
    };
    Shape::Modified { kind, name, of: Box::new(of) }
}

/// A type for a member; `depth` bounds how far it nests, `known` the declarations that it may name.
pub fn shape(rng: &mut Rng, depth: usize, known: usize) -> Shape {
    if depth == 0 {
        return int(rng);
    }
    match rng.weighed(&[38, 12, 12, 10, 12, 3, 2, 2, 7, 4]) {
        0 => int(rng),
        1 => Shape::Ptr(Box::new(if rng.chance(20) { Shape::Void } else { shape(rng, depth - 1, known) })),
        2 => {
            let length = rng.pick(&[0, 1, 2, 3, 4, 5, 8, 1]);
            Shape::Array(Box::new(shape(rng, depth - 1, known)), length)
        }
        3 => {
            let of = shape(rng, depth - 1, known);
            modified(rng, of)
        }
        4 if known > 0 => Shape::Named(rng.below(known)),
        5 => Shape::Float { size: rng.pick(&[4, 8]) },
        6 => Shape::Fwd(rng.pick(&["fwd", "fwd___1", "other"])),
        7 => Shape::Ptr(Box::new(proto(rng, depth - 1, known))),
        9 => {
            let name = rng.pick(&["e", "e___1", "g", ""]).to_string();
            Shape::Inline(Box::new(enumeration(rng, name)))
        }
        _ => Shape::Inline(Box::new(group(rng, String::new(), depth - 1, known))),
    }
}

pub fn proto(rng: &mut Rng, depth: usize, known: usize) -> Shape {
    let parameters = (0..rng.below(3)).map(|_| shape(rng, depth, known)).collect();
    Shape::Proto(Box::new(if rng.chance(30) { Shape::Void } else { shape(rng, depth, known) }), parameters)
}

pub fn field(rng: &mut Rng, depth: usize, known: usize) -> Field {
    if rng.chance(12) {
        let inner = group(rng, String::new(), depth.saturating_sub(1), known);
        return Field { name: String::new(), shape: Shape::Inline(Box::new(inner)), bits: 0 };
    }
    let name = rng.pick(&FIELD_NAMES).to_string();
    if rng.chance(15) {
        let widest = rng.pick(&[8, 8, 16, 31, 64]);
        let bits = 1 + rng.below(widest) as u32;
        let shape = if rng.chance(90) { int(rng) } else { shape(rng, 1, known) };
        return Field { name, shape, bits };
    }
    Field { name, shape: shape(rng, depth, known), bits: 0 }
}

fn group(rng: &mut Rng, name: String, depth: usize, known: usize) -> Decl {
    let fields = (0..1 + rng.below(4)).map(|_| field(rng, depth, known)).collect();
    Decl::Group { name, union: rng.chance(25), fields }
}

fn value(rng: &mut Rng) -> u64 {
    match rng.below(10) {
        0 => u64::MAX - rng.below(3) as u64,
        1 => rng.pick(&[32_767, 32_768, 0xffff_ffff, 0x8000_0000, 0x7fff_ffff, 0x1_0000_0000, 0x1122_3344_5566_7788]),
        _ => rng.below(30) as u64,
    }
}

pub fn enumeration(rng: &mut Rng, name: String) -> Decl {
    let count = rng.below(5);
    let variants = (0..count).map(|i| (VARIANT_NAMES[(i + rng.below(2)) % 6].to_string(), value(rng))).collect();
    Decl::Enum { name, wide: rng.chance(40), signed: rng.chance(40), variants }
}

/// Two to four declarations.
pub fn world(rng: &mut Rng) -> World {
    let mut world = World::new();
    for _ in 0..2 + rng.below(3) {
        let known = world.len();
        let mut name = if rng.chance(93) { rng.pick(&TYPE_NAMES).to_string() } else { String::new() };
        if rng.chance(10) {
            name += rng.pick(&FLAVOURS);
        }
        world.push(match rng.weighed(&[55, 30, 15]) {
            0 => group(rng, name, 2, known),
            1 => enumeration(rng, name),
            _ => {
                let of = if rng.chance(30) { proto(rng, 2, known) } else { shape(rng, 2, known) };
                Decl::Alias { name, of }
            }
        });
    }
    world
}

/// A few changes, some twins, another order.
pub fn vary(rng: &mut Rng, world: &World) -> World {
    let mut world = world.clone();
    for _ in 0..rng.below(4) {
        let at = rng.below(world.len());
        vary_decl(rng, &mut world[at]);
    }
    while rng.chance(28) {
        let mut twin = world[rng.below(world.len())].clone();
        if rng.chance(50) {
            *twin.name() += FLAVOURS[rng.below(5)];
        }
        if rng.chance(60) {
            vary_decl(rng, &mut twin);
        }
        world.push(twin);
    }
    world
}

impl Decl {
    pub fn name(&mut self) -> &mut String {
        match self {
            Self::Group { name, .. } | Self::Enum { name, .. } | Self::Alias { name, .. } => name,
        }
    }
}

fn vary_decl(rng: &mut Rng, decl: &mut Decl) {
    if rng.chance(6) {
        *decl.name() += rng.pick(&FLAVOURS);
        return;
    }
    if rng.chance(3) {
        *decl.name() = rng.pick(&TYPE_NAMES).to_string();
        return;
    }
    match decl {
        Decl::Group { union, fields, .. } => vary_group(rng, union, fields),
        Decl::Enum { wide, signed, variants, .. } => vary_enum(rng, wide, signed, variants),
        Decl::Alias { of, .. } => vary_shape(rng, of),
    }
}

fn vary_group(rng: &mut Rng, union: &mut bool, fields: &mut Vec<Field>) {
    let count = fields.len();
    match rng.weighed(&[14, 8, 8, 14, 18, 4, 10, 1]) {
        0 => fields.insert(rng.below(count + 1), field(rng, 1, 0)),
        1 if count > 0 => {
            fields.remove(rng.below(count));
        }
        2 if count > 1 => fields.swap(0, rng.below(count)),
        3 if count > 0 => {
            for _ in 0..1 + rng.below(3) {
                nest(rng, fields);
            }
        }
        4 if count > 0 => {
            let at = rng.below(count);
            vary_shape(rng, &mut fields[at].shape);
        }
        5 if count > 0 => fields[rng.below(count)].name = rng.pick(&FIELD_NAMES).to_string(),
        6 if count > 0 => {
            let at = rng.below(count);
            let field = &mut fields[at];
            field.bits = if field.bits == 0 { 1 + rng.below(32) as u32 } else { rng.pick(&[0, 1, field.bits + 1, 60]) };
        }
        _ => *union = !*union,
    }
}

/// Puts some fields that follow each other into an unnamed struct or union.
pub fn nest(rng: &mut Rng, fields: &mut Vec<Field>) {
    let from = rng.below(fields.len());
    let to = from + 1 + rng.below(fields.len() - from);
    let inner: Vec<Field> = fields.drain(from..to).collect();
    let decl = Decl::Group { name: String::new(), union: rng.chance(40), fields: inner };
    let mut shape = Shape::Inline(Box::new(decl));
    if rng.chance(10) {
        shape = modified(rng, shape);
    }
    fields.insert(from, Field { name: String::new(), shape, bits: 0 });
}

fn vary_enum(rng: &mut Rng, wide: &mut bool, signed: &mut bool, variants: &mut Vec<(String, u64)>) {
    let count = variants.len();
    match rng.below(8) {
        0 if count > 0 => {
            variants.remove(rng.below(count));
        }
        1 if count > 1 => variants.swap(0, rng.below(count)),
        2 | 3 if count > 0 => variants[rng.below(count)].1 = value(rng),
        4 if count > 0 => variants[rng.below(count)].0 += rng.pick(&FLAVOURS),
        5 => *signed = !*signed,
        6 => *wide = !*wide,
        _ => variants.insert(0, (rng.pick(&VARIANT_NAMES).to_string(), value(rng))),
    }
}

pub fn vary_shape(rng: &mut Rng, shape: &mut Shape) {
    if rng.chance(15) {
        let of = std::mem::replace(shape, Shape::Void);
        *shape = modified(rng, of);
        return;
    }
    match shape {
        Shape::Int { .. } if rng.chance(85) => *shape = int(rng),
        Shape::Array(_, length) if rng.chance(60) => *length = rng.pick(&[0, 0, 1, 2, 7]),
        Shape::Ptr(of) | Shape::Array(of, _) | Shape::Modified { of, .. } => vary_shape(rng, of),
        Shape::Proto(result, parameters) => match parameters.len() {
            0 => parameters.push(int(rng)),
            n if rng.chance(60) => {
                let at = rng.below(n);
                vary_shape(rng, &mut parameters[at]);
            }
            _ => vary_shape(rng, result),
        },
        Shape::Inline(decl) => vary_decl(rng, decl),
        _ => *shape = self::shape(rng, 2, 0),
    }
}

/// Lowers declarations to a type list; returns the ids that they got.
pub fn lower(rng: &mut Rng, world: &World) -> (Types, Vec<u32>) {
    let mut lowering = Lowering { types: Types::new(), ids: vec![0; world.len()], world };
    let mut order: Vec<usize> = (0..world.len()).collect();
    for i in (1..order.len()).rev() {
        if rng.chance(30) {
            order.swap(i, rng.below(i + 1));
        }
    }
    order.iter().for_each(|&i| {
        lowering.decl(i);
    });
    (lowering.types, lowering.ids)
}

struct Lowering<'w> {
    types: Types,
    ids: Vec<u32>,
    world: &'w World,
}

impl Lowering<'_> {
    fn push(&mut self, ty: Type) -> u32 {
        if let Some(at) = self.types.iter().position(|t| *t == ty && !ty.is_group() && !ty.is_enum()) {
            return at as u32 + 1;
        }
        self.types.push(ty);
        self.types.len() as u32
    }

    fn decl(&mut self, at: usize) -> u32 {
        if self.ids[at] == 0 {
            self.types.push(Type::default());
            let id = self.types.len() as u32;
            self.ids[at] = id;
            let ty = self.declared(&self.world[at]);
            self.types[id as usize - 1] = ty;
        }
        self.ids[at]
    }

    fn declared(&mut self, decl: &Decl) -> Type {
        match decl {
            Decl::Group { name, union, fields } => self.group(name, *union, fields),
            Decl::Enum { name, wide, signed, variants } => {
                let words = |v: u64| if *wide { vec![v as u32, (v >> 32) as u32] } else { vec![v as u32] };
                let entries = variants.iter().map(|(name, v)| Entry { name: name.clone(), words: words(*v) }).collect();
                let (kind, third) = if *wide { (ENUM64, 8) } else { (ENUM, 4) };
                Type { kind, name: name.clone(), flag: *signed, third, extra: Vec::new(), entries }
            }
            Decl::Alias { name, of } => {
                let third = self.shape(of);
                Type { kind: TYPEDEF, name: name.clone(), third, ..Type::default() }
            }
        }
    }

    fn group(&mut self, name: &str, union: bool, fields: &[Field]) -> Type {
        let flag = fields.iter().any(|f| f.bits > 0);
        let (mut at, mut size) = (0u64, 0u64);
        let mut entries = Vec::new();
        for field in fields {
            let id = self.shape(&field.shape);
            let bytes = self.size(&field.shape, 0);
            let (start, end) = place(at, bytes, field.bits);
            let word = if flag { start as u32 & 0xff_ffff | field.bits << 24 } else { start as u32 };
            entries.push(Entry { name: field.name.clone(), words: vec![id, word] });
            size = size.max(end);
            at = if union { 0 } else { end };
        }
        let kind = if union { UNION } else { STRUCT };
        Type { kind, name: name.to_string(), flag, third: size.div_ceil(8) as u32, extra: Vec::new(), entries }
    }

    fn shape(&mut self, shape: &Shape) -> u32 {
        let ty = match shape {
            Shape::Void => return 0,
            Shape::Named(at) => return self.decl(*at),
            Shape::Inline(decl) => {
                self.types.push(Type::default());
                let id = self.types.len();
                self.types[id - 1] = self.declared(decl);
                return id as u32;
            }
            Shape::Int { name, size, extra } => {
                Type { kind: INT, name: name.to_string(), third: *size, extra: vec![*extra], ..Type::default() }
            }
            Shape::Float { size } => Type { kind: FLOAT, name: "float".to_string(), third: *size, ..Type::default() },
            Shape::Fwd(name) => Type { kind: FWD, name: name.to_string(), ..Type::default() },
            Shape::Ptr(of) => Type { kind: PTR, third: self.shape(of), ..Type::default() },
            Shape::Modified { kind, name, of } => Type { kind: *kind, name: name.to_string(), third: self.shape(of), ..Type::default() },
            Shape::Array(of, length) => {
                let of = self.shape(of);
                Type { kind: ARRAY, extra: vec![of, 0, *length], ..Type::default() }
            }
            Shape::Proto(result, parameters) => {
                let third = self.shape(result);
                let entries = parameters.iter().map(|p| Entry { name: String::new(), words: vec![self.shape(p)] }).collect();
                Type { kind: PROTO, third, entries, ..Type::default() }
            }
        };
        self.push(ty)
    }

    /// A size in bytes, as a compiler would have it; 0 where there is none.
    fn size(&self, shape: &Shape, depth: usize) -> u64 {
        if depth > 6 {
            return 8;
        }
        match shape {
            Shape::Int { size, .. } | Shape::Float { size } => u64::from(*size),
            Shape::Ptr(_) => 8,
            Shape::Array(of, length) => self.size(of, depth + 1) * u64::from(*length),
            Shape::Modified { of, .. } => self.size(of, depth + 1),
            Shape::Named(at) => self.declared_size(&self.world[*at], depth + 1),
            Shape::Inline(decl) => self.declared_size(decl, depth + 1),
            Shape::Void | Shape::Proto(..) | Shape::Fwd(_) => 0,
        }
    }

    fn declared_size(&self, decl: &Decl, depth: usize) -> u64 {
        match decl {
            Decl::Enum { wide, .. } => {
                if *wide {
                    8
                } else {
                    4
                }
            }
            Decl::Alias { of, .. } => self.size(of, depth),
            Decl::Group { union, fields, .. } => {
                let (mut at, mut size) = (0, 0);
                for field in fields {
                    let (_, end) = place(at, self.size(&field.shape, depth), field.bits);
                    size = size.max(end);
                    at = if *union { 0 } else { end };
                }
                size.div_ceil(8)
            }
        }
    }
}

/// Where a field of so many bytes (or bits) begins and ends, in bits, if the next free bit is `at`.
fn place(at: u64, bytes: u64, bits: u32) -> (u64, u64) {
    if bits > 0 {
        return (at, at + u64::from(bits));
    }
    let align = 8 * bytes.next_power_of_two().clamp(1, 8);
    let start = at.next_multiple_of(align);
    (start, start + 8 * bytes)
}

//! What a case is about.

use super::{
    records::{self, Wanted, wanted},
    rng::Rng,
    soup,
    types::*,
    world::{self, Decl, Field, Shape, World},
};
use crate::case::Case;

/// One theme by weight, then up to five records.
pub fn any(rng: &mut Rng) -> Case {
    match rng.weighed(&[48, 18, 8, 6, 4, 4, 3, 2, 7]) {
        0 => plain(rng),
        1 => thrown(rng),
        2 => bitfields(rng),
        3 => arrays(rng),
        4 => chains(rng),
        5 => long_access(rng),
        6 => levels(rng),
        7 => wide(rng),
        _ => loads(rng),
    }
}

fn some(rng: &mut Rng, types: &Types, ids: &[u32]) -> Vec<Wanted> {
    let count = 1 + rng.below(5);
    (0..count)
        .map(|_| {
            let id = if rng.chance(94) { rng.pick(ids) } else { rng.below(types.len() + 1) as u32 };
            wanted(rng, types, id)
        })
        .collect()
}

/// A program's types and a kernel's, near each other.
fn plain(rng: &mut Rng) -> Case {
    let local = world::world(rng);
    let target = world::vary(rng, &local);
    from_worlds(rng, &local, &target)
}

fn from_worlds(rng: &mut Rng, local: &World, target: &World) -> Case {
    let (local, ids) = world::lower(rng, local);
    let (target, _) = world::lower(rng, target);
    let records = some(rng, &local, &ids);
    records::case(rng, &local, &target, &records)
}

fn thrown(rng: &mut Rng) -> Case {
    let local = soup::types(rng);
    let target = soup::near(rng, &local);
    let ids: Vec<u32> = (0..=local.len() as u32).collect();
    let records = some(rng, &local, &ids);
    records::case(rng, &local, &target, &records)
}

fn group(name: &str, union: bool, fields: Vec<Field>) -> Decl {
    Decl::Group { name: name.to_string(), union, fields }
}

fn named(name: &str, shape: Shape, bits: u32) -> Field {
    Field { name: name.to_string(), shape, bits }
}

/// A struct of bitfields and plain ints on both sides, kinds 0 to 5.
fn bitfields(rng: &mut Rng) -> Case {
    let fields = |rng: &mut Rng| {
        let names = ["a", "b", "c", "d"];
        names
            .iter()
            .map(|n| {
                let widest = rng.pick(&[4, 9, 17, 33, 64]);
                let bits = if rng.chance(80) { 1 + rng.below(widest) as u32 } else { 0 };
                named(n, world::int(rng), bits)
            })
            .collect::<Vec<_>>()
    };
    let local = vec![group("s", rng.chance(10), fields(rng))];
    let target = if rng.chance(30) { local.clone() } else { vec![group("s", rng.chance(10), fields(rng))] };
    let target = if rng.chance(25) { world::vary(rng, &target) } else { target };
    from_worlds(rng, &local, &target)
}

/// Arrays in arrays, and zero-length ones, last and not.
fn arrays(rng: &mut Rng) -> Case {
    let array = |rng: &mut Rng| {
        let mut shape =
            if rng.chance(70) { world::int(rng) } else { Shape::Inline(Box::new(group("", false, vec![named("v", world::int(rng), 0)]))) };
        for _ in 0..1 + rng.below(3) {
            shape = Shape::Array(Box::new(shape), rng.pick(&[0, 0, 1, 2, 3, 4]));
        }
        shape
    };
    let mut fields = Vec::new();
    for name in &["a", "b", "z"][..1 + rng.below(3)] {
        let shape = if rng.chance(70) { array(rng) } else { world::int(rng) };
        fields.push(named(name, shape, 0));
    }
    let of = array(rng);
    let local = vec![group("s", rng.chance(20), fields), Decl::Alias { name: "many".to_string(), of }];
    let target = world::vary(rng, &local);
    from_worlds(rng, &local, &target)
}

/// Modifiers, pointers, arrays and prototypes in long rows, around the crate's depths.
fn chains(rng: &mut Rng) -> Case {
    let length = rng.pick(&[2, 29, 30, 31, 32, 33, 34]);
    let wrap = rng.below(5);
    let other = if rng.chance(15) { rng.below(5) } else { wrap };
    let local = chain(rng, length, wrap);
    let target_length = if rng.chance(60) { length } else { rng.pick(&[30, 31, 32, 33]) };
    let target = chain(rng, target_length, other);
    let make = |of: Shape, union: bool| vec![group("s", union, vec![named("x", of.clone(), 0)]), Decl::Alias { name: "f".to_string(), of }];
    from_worlds(rng, &make(local, false), &make(target, false))
}

fn chain(rng: &mut Rng, length: usize, wrap: usize) -> Shape {
    let mut shape = if rng.chance(80) { world::int(rng) } else { Shape::Proto(Box::new(Shape::Void), vec![world::int(rng)]) };
    for _ in 0..length {
        let of = Box::new(shape);
        shape = match wrap {
            0 => Shape::Modified { kind: CONST, name: "", of },
            1 => Shape::Ptr(of),
            2 => Shape::Array(of, 1),
            3 => Shape::Proto(Box::new(Shape::Void), vec![*of]),
            _ => Shape::Proto(of, Vec::new()),
        };
    }
    shape
}

/// A struct that holds itself, walked far: the target's parts grow faster than the local ones.
fn long_access(rng: &mut Rng) -> Case {
    let own = |rng: &mut Rng, deepest: usize| {
        let mut fields =
            vec![named("x", Shape::Named(0), 0), named("a", Shape::Array(Box::new(Shape::Named(0)), 2), 0), named("y", world::int(rng), 0)];
        for field in &mut fields {
            for _ in 0..rng.below(deepest + 1) {
                let inner = group("", false, vec![field.clone()]);
                *field = Field { name: String::new(), shape: Shape::Inline(Box::new(inner)), bits: 0 };
            }
        }
        vec![group("s", false, fields)]
    };
    let (local, target) = (own(rng, 0), own(rng, 3));
    let mut parts = vec!["0"];
    let length = rng.pick(&[20, 24, 28, 33, 40, 50, 60, 63, 64, 65]);
    let bias = rng.below(100);
    while parts.len() < length {
        if rng.chance(bias) {
            parts.extend(["1", "0"]);
        } else {
            parts.push("0");
        }
    }
    parts.truncate(length);
    if rng.chance(50) {
        parts.push("2");
    }
    let (local, ids) = world::lower(rng, &local);
    let (target, _) = world::lower(rng, &target);
    let kind = rng.pick(&[0, 1, 2, 2, 2, 3, 4]);
    let records = [Wanted { type_id: ids[0], access: parts.join(":"), kind, code: None }];
    records::case(rng, &local, &target, &records)
}

/// Unnamed members several levels deep, around the limit now and then.
fn levels(rng: &mut Rng) -> Case {
    let local = vec![group("s", false, vec![named("x", world::int(rng), 0), named("y", world::int(rng), 0)])];
    let mut fields = vec![named("x", world::int(rng), 0)];
    let deepest = if rng.chance(25) { rng.pick(&[31, 32, 33]) } else { 1 + rng.below(5) };
    for _ in 0..deepest {
        if rng.chance(40) {
            fields.insert(0, named(rng.pick(&["p", "q", "y"]), world::int(rng), 0));
        }
        let inner = group("", rng.chance(30), std::mem::take(&mut fields));
        fields.push(Field { name: String::new(), shape: Shape::Inline(Box::new(inner)), bits: 0 });
    }
    fields.push(named("y", world::int(rng), 0));
    if rng.chance(20) {
        fields.insert(rng.below(2), Field { name: String::new(), shape: world::int(rng), bits: 0 });
    }
    let target = vec![group("s", false, fields)];
    let (a, b) = if rng.chance(75) { (&local, &target) } else { (&target, &local) };
    from_worlds(rng, a, b)
}

/// Offsets and sizes near the ends of their widths.
fn wide(rng: &mut Rng) -> Case {
    let big = [32_767, 32_768, 262_136, 262_144, 0xff_ffff, 0x0fff_fff8, 0x1fff_ffff, 0x2000_0000, 0xffff_ff00, 0xffff_ffff];
    let local = world::world(rng);
    let (mut local, ids) = world::lower(rng, &local);
    let mut target = local.clone();
    for types in [&mut local, &mut target] {
        for _ in 0..1 + rng.below(2) {
            let at = rng.below(types.len());
            let ty = &mut types[at];
            match ty.kind {
                ARRAY => ty.extra[2] = rng.pick(&big),
                STRUCT | UNION if !ty.entries.is_empty() => {
                    let entry = rng.below(ty.entries.len());
                    ty.entries[entry].words[1] = rng.pick(&big);
                }
                INT | STRUCT | UNION | ENUM | FLOAT => ty.third = rng.pick(&big),
                _ => {}
            }
        }
    }
    let mut records = some(rng, &local, &ids);
    if rng.chance(20) {
        let first = rng.pick(&["1", "4294967295", "536870912", "134217728", "134217727", "1073741824"]);
        records[0].access = records[0].access.replacen('0', first, 1);
    }
    records::case(rng, &local, &target, &records)
}

/// Ints and pointers of other sizes under loads and stores.
fn loads(rng: &mut Rng) -> Case {
    let member = |rng: &mut Rng| match rng.below(10) {
        0 => Shape::Ptr(Box::new(Shape::Void)),
        1 => Shape::Array(Box::new(world::int(rng)), 2),
        2 => Shape::Float { size: 8 },
        3 => world::int(rng),
        _ => world::unsigned(rng),
    };
    let (a, b) = (member(rng), member(rng));
    let bits = |rng: &mut Rng| if rng.chance(12) { 5 } else { 0 };
    let (la, ta) = (bits(rng), bits(rng));
    let local = vec![group("s", false, vec![named("x", a, la)])];
    let target = vec![group("s", false, vec![named("p", world::int(rng), 0), named("x", b, ta)])];
    let (local, ids) = world::lower(rng, &local);
    let (target, _) = world::lower(rng, &target);
    let codes = [0x61, 0x69, 0x71, 0x79, 0x62, 0x6a, 0x63, 0x7b, 0x73, 0x81, 0x91, 0xdb];
    let access = if rng.chance(80) { "0:0" } else { "0:0:1" };
    let kind = if rng.chance(80) { 0 } else { 1 };
    let records = [Wanted { type_id: ids[0], access: access.to_string(), kind, code: Some(rng.pick(&codes)) }];
    records::case(rng, &local, &target, &records)
}

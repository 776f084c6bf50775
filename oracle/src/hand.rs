//! Hand-made cases, one rule of document 01 each. Their answers are the crate's to give.

use crate::{
    case::Case,
    made::bytes::{Btf, record},
};

const MOV: [u8; 8] = [0xb7, 1, 0, 0, 4, 0, 0, 0];
const LDX: [u8; 8] = [0x61, 0x12, 8, 0, 0, 0, 0, 0];
const LDDW: [u8; 16] = [0x18, 1, 0, 0, 0, 0, 0, 0, 0, 0, 0, 0, 0, 0, 0, 0];

/// Types by name, each returning its id.
impl Btf {
    pub fn int(&mut self, name: &str, size: u32, extra: u32) -> u32 {
        self.add(1, name, size, 0, false, &[extra])
    }
    pub fn plain(&mut self, name: &str, size: u32) -> u32 {
        self.int(name, size, size * 8)
    }
    pub fn ptr(&mut self, to: u32) -> u32 {
        self.add(2, "", to, 0, false, &[])
    }
    pub fn array(&mut self, of: u32, length: u32) -> u32 {
        self.add(3, "", 0, 0, false, &[of, 1, length])
    }
    pub fn group(&mut self, kind: u32, name: &str, size: u32, flag: bool, members: &[(&str, u32, u32)]) -> u32 {
        let words: Vec<u32> = members.iter().flat_map(|&(m, t, o)| [self.name(m), t, o]).collect();
        self.add(kind, name, size, members.len(), flag, &words)
    }
    pub fn st(&mut self, name: &str, size: u32, members: &[(&str, u32, u32)]) -> u32 {
        self.group(4, name, size, false, members)
    }
    pub fn enumeration(&mut self, name: &str, size: u32, signed: bool, variants: &[(&str, i64)]) -> u32 {
        let words: Vec<u32> = variants.iter().flat_map(|&(m, v)| [self.name(m), v as u32]).collect();
        self.add(6, name, size, variants.len(), signed, &words)
    }
    pub fn enum64(&mut self, name: &str, signed: bool, variants: &[(&str, i64)]) -> u32 {
        let words: Vec<u32> = variants.iter().flat_map(|&(m, v)| [self.name(m), v as u32, (v >> 32) as u32]).collect();
        self.add(19, name, 8, variants.len(), signed, &words)
    }
    pub fn refer(&mut self, kind: u32, name: &str, to: u32) -> u32 {
        self.add(kind, name, to, 0, false, &[])
    }
    pub fn proto(&mut self, result: u32, parameters: &[u32]) -> u32 {
        let words: Vec<u32> = parameters.iter().flat_map(|&p| [0, p]).collect();
        self.add(13, "", result, parameters.len(), false, &words)
    }
    /// So many consts around a type.
    fn consts(&mut self, to: u32, n: usize) -> u32 {
        (0..n).fold(to, |to, _| self.refer(10, "", to))
    }
    fn pointers(&mut self, to: u32, n: usize) -> u32 {
        (0..n).fold(to, |to, _| self.ptr(to))
    }
    fn arrays(&mut self, of: u32, n: usize) -> u32 {
        (0..n).fold(of, |of, _| self.array(of, 1))
    }
    fn nested(&mut self, n: usize) -> u32 {
        (0..n).fold(1, |p, _| self.proto(0, &[p]))
    }
}

/// A record of a hand-made case: type, access, kind, offset in the function.
type Wanted<'a> = (u32, &'a str, u32, i64);

/// The cases so far, each with its name.
#[derive(Default)]
struct Hand {
    cases: Vec<(String, Case)>,
}

type Make<'a> = &'a dyn Fn(&mut Btf) -> u32;

fn pair() -> (Btf, Btf) {
    (Btf::default(), Btf::default())
}

/// Two lists that begin with an int.
fn pair_with_int() -> (Btf, Btf) {
    let (mut l, mut t) = pair();
    l.plain("int", 4);
    t.plain("int", 4);
    (l, t)
}

/// A part of a name that a file may have.
fn slug(text: &str) -> String {
    text.replace(':', "c").replace(' ', "s")
}

impl Hand {
    fn full(&mut self, name: &str, l: &mut Btf, t: &Btf, wanted: &[Wanted], insns: &[u8], section: u64) {
        let records: Vec<u8> =
            wanted.iter().flat_map(|&(id, access, kind, at)| record((section as i64 + at) as u32, id, l.name(access), kind)).collect();
        let name = format!("{:03}_{name}", self.cases.len() + 1);
        self.cases.push((name, Case { local: l.bytes(), target: t.bytes(), insns: insns.to_vec(), records, section }));
    }

    fn with(&mut self, name: &str, l: &mut Btf, t: &Btf, wanted: (u32, &str, u32), insns: &[u8]) {
        self.full(name, l, t, &[(wanted.0, wanted.1, wanted.2, 0)], insns, 0);
    }

    fn case(&mut self, name: &str, l: &mut Btf, t: &Btf, id: u32, access: &str, kind: u32) {
        self.with(name, l, t, (id, access, kind), &MOV);
    }

    /// A struct with a field x of the types that the two make.
    fn field(&mut self, name: &str, local: Make, target: Make, kinds: &[u32]) {
        let (mut l, mut t) = pair_with_int();
        let x = local(&mut l);
        let id = l.st("s", 8, &[("x", x, 0)]);
        let x = target(&mut t);
        t.st("s", 8, &[("x", x, 0)]);
        for kind in kinds {
            self.case(&format!("{name}_{kind}"), &mut l, &t, id, "0:0", *kind);
        }
    }

    /// A typedef f to the types that the two make.
    fn whole(&mut self, name: &str, local: Make, target: Make, kinds: &[u32]) {
        let (mut l, mut t) = pair_with_int();
        let x = local(&mut l);
        let id = l.refer(8, "f", x);
        let x = target(&mut t);
        t.refer(8, "f", x);
        for kind in kinds {
            self.case(&format!("{name}_{kind}"), &mut l, &t, id, "0", *kind);
        }
    }
}

/// Every hand-made case, in order.
pub fn cases() -> Vec<(String, Case)> {
    let mut h = Hand::default();
    h.modifiers();
    h.fields();
    h.wholes();
    h.prototypes();
    h.sizes();
    h.names();
    h.parts();
    h.bit_offsets();
    h.zero_length();
    h.searches();
    h.conflicts();
    h.failures();
    h.bitfields();
    h.signs();
    h.loads();
    h.instructions();
    h.enums_and_types();
    h.candidates();
    h.nesting();
    h.kinds_of_enums();
    h.cases
}

impl Hand {
    /// Modifiers of every kind, as the record's own type.
    fn modifiers(&mut self) {
        for kind in [8, 9, 10, 11, 18] {
            let (mut l, mut t) = pair();
            let s = l.st("s", 12, &[]);
            let id = l.refer(kind, "m", s);
            let s = t.st("s", 20, &[]);
            t.refer(kind, "m", s);
            self.case(&format!("modifier_{kind}"), &mut l, &t, id, "0", 9);
        }
    }

    fn fields(&mut self) {
        let both = &[0, 2];
        let fwd = |name: &'static str| move |b: &mut Btf| b.refer(7, name, 0);
        let float = |name: &'static str, size| move |b: &mut Btf| b.refer(16, name, size);
        let e = |name: &'static str| move |b: &mut Btf| b.enumeration(name, 4, false, &[("A", 1)]);
        let i = |name: &'static str, size| move |b: &mut Btf| b.plain(name, size);
        let odd = |b: &mut Btf| b.int("i", 4, 32 | 8 << 16);
        self.field("enum_enum64", &e("e"), &|b| b.enum64("e", false, &[("A", 1)]), both);
        self.field("enum_other", &e("e"), &e("g"), both);
        self.field("enum_flavour", &e("e___1"), &e("e___2"), both);
        self.field("fwd_other", &fwd("x"), &fwd("y"), both);
        self.field("fwd_flavour", &fwd("x"), &fwd("x___1"), both);
        self.field("fwd_struct", &fwd("x"), &|b| b.st("x", 4, &[]), both);
        self.field("struct_union", &|b| b.st("q", 4, &[]), &|b| b.group(5, "w", 4, false, &[]), both);
        self.field("int_offset", &odd, &i("i", 4), both);
        self.field("int_offset_target", &i("i", 4), &odd, both);
        self.field("int_size", &i("i", 2), &i("j", 8), &[0, 1, 2, 3, 4, 5]);
        self.field("int_float", &i("i", 4), &float("i", 4), both);
        self.field("float_float", &float("i", 4), &float("j", 8), &[1, 2]);
        self.field("ptr_ptr", &|b| b.ptr(1), &|b| b.ptr(0), &[0, 1, 2]);
        self.field("array_array", &|b| b.array(1, 3), &|b| b.array(1, 2), &[0, 1, 2]);
        let deep = |b: &mut Btf| {
            let inner = b.array(1, 2);
            b.array(inner, 3)
        };
        let deep_struct = |b: &mut Btf| {
            let z = b.st("z", 4, &[]);
            let inner = b.array(z, 2);
            b.array(inner, 3)
        };
        self.field("array_deep", &deep, &deep_struct, &[1, 2]);
        for n in [31, 32, 33] {
            self.field(&format!("arrays_{n}"), &|b| b.arrays(1, n), &|b| b.arrays(1, n), &[2]);
        }
    }

    fn wholes(&mut self) {
        let ptr_to_struct = |b: &mut Btf| {
            let s = b.st("s", 1, &[]);
            b.ptr(s)
        };
        let array_of_struct = |b: &mut Btf| {
            let s = b.st("s", 1, &[]);
            b.array(s, 2)
        };
        self.whole("int_offset", &|b| b.int("i", 4, 32 | 8 << 16), &|b| b.plain("i", 4), &[8]);
        self.whole("enum_enum64", &|b| b.enumeration("e", 4, false, &[]), &|b| b.enum64("g", false, &[]), &[8, 9]);
        self.whole("float", &|b| b.refer(16, "d", 8), &|b| b.refer(16, "e", 4), &[8, 9]);
        self.whole("fwd", &|b| b.refer(7, "d", 0), &|b| b.refer(7, "e", 0), &[8, 9]);
        self.whole("ptr_kinds", &|b| b.ptr(1), &ptr_to_struct, &[8]);
        self.whole("ptr_void", &|b| b.ptr(0), &|b| b.ptr(0), &[8]);
        self.whole("array_kinds", &|b| b.array(1, 2), &array_of_struct, &[8]);
    }

    /// Parameter lists, results, and how far the two checks go down.
    fn prototypes(&mut self) {
        let with_ptr = |result: u32| {
            move |b: &mut Btf| {
                let p = b.ptr(1);
                b.proto(result, &[1, p])
            }
        };
        let only_ptr = |b: &mut Btf| {
            let p = b.ptr(1);
            b.proto(1, &[p])
        };
        let returns_ptr = |b: &mut Btf| {
            let p = b.ptr(1);
            b.proto(p, &[1])
        };
        let far_result = |b: &mut Btf| {
            let far = b.consts(1, 33);
            b.proto(far, &[1])
        };
        let far_parameter = |b: &mut Btf| {
            let far = b.consts(1, 33);
            b.proto(1, &[far])
        };
        let far_and_one = |b: &mut Btf| {
            let far = b.consts(1, 33);
            b.proto(1, &[far, 1])
        };
        self.whole("params_count", &|b| b.proto(1, &[1]), &|b| b.proto(1, &[]), &[8]);
        self.whole("params_count_2", &|b| b.proto(1, &[]), &|b| b.proto(1, &[1]), &[8]);
        self.whole("params_same", &with_ptr(0), &with_ptr(0), &[7, 8, 9]);
        self.whole("params_second", &|b| b.proto(1, &[1, 1]), &with_ptr(1), &[8]);
        self.whole("return_other", &|b| b.proto(1, &[1]), &returns_ptr, &[8]);
        self.whole("params_before_return", &far_result, &only_ptr, &[8]);
        self.whole("count_before_params", &far_parameter, &far_and_one, &[8]);
        self.whole("param_chain", &far_parameter, &|b| b.proto(1, &[1]), &[8]);
        self.whole("return_chain", &far_result, &|b| b.proto(1, &[1]), &[8]);
        for n in [30, 31, 32] {
            let parameter = |b: &mut Btf| {
                let p = b.pointers(1, n);
                b.proto(1, &[p])
            };
            let result = |b: &mut Btf| {
                let p = b.pointers(1, n);
                b.proto(p, &[])
            };
            self.whole(&format!("param_pointers_{n}"), &parameter, &parameter, &[8]);
            self.whole(&format!("return_pointers_{n}"), &result, &result, &[8]);
            self.whole(&format!("pointers_{n}"), &|b| b.pointers(1, n), &|b| b.pointers(1, n), &[8]);
        }
        for n in [31, 32, 33] {
            self.whole(&format!("nested_params_{n}"), &|b| b.nested(n), &|b| b.nested(n), &[8]);
        }
        for n in [31, 32] {
            let late = |b: &mut Btf| {
                let proto = b.proto(0, &[1]);
                b.pointers(proto, n - 1)
            };
            self.whole(&format!("late_params_{n}"), &late, &late, &[8]);
        }
    }

    /// Sizes by kind, asked of the type itself.
    fn sizes(&mut self) {
        let kinds: [(&str, Make); 9] = [
            ("datasec", &|b| b.add(15, "r", 24, 0, false, &[])),
            ("decl_tag", &|b| b.add(17, "r", 1, 0, false, &[0])),
            ("var", &|b| b.add(14, "r", 1, 0, false, &[0])),
            ("func", &|b| {
                let proto = b.proto(1, &[]);
                b.refer(12, "r", proto)
            }),
            ("fwd", &|b| b.refer(7, "r", 0)),
            ("float", &|b| b.refer(16, "r", 8)),
            ("union", &|b| b.group(5, "r", 12, false, &[])),
            ("enum64", &|b| b.enum64("r", false, &[])),
            ("enum", &|b| b.enumeration("r", 2, false, &[])),
        ];
        for (name, make) in kinds {
            let (mut l, mut t) = pair_with_int();
            let id = make(&mut l);
            make(&mut t);
            for kind in [0, 1] {
                self.case(&format!("size_of_{name}_{kind}"), &mut l, &t, id, "0", kind);
            }
            self.case(&format!("index_on_{name}"), &mut l, &t, id, "3", 0);
        }
    }

    /// Names with and without flavours, of types, variants and members.
    fn names(&mut self) {
        let names =
            [("a__b", "a"), ("a___b", "a"), ("a___b", "a___c"), ("a____b", "a_"), ("___a", ""), ("a", "a___"), ("a", "b"), ("a_", "a")];
        for (i, (local, target)) in names.iter().enumerate() {
            let (mut l, mut t) = pair();
            let id = l.st(local, 4, &[]);
            t.st(target, 4, &[]);
            self.case(&format!("names_{i}"), &mut l, &t, id, "0", 8);
            let (mut l, mut t) = pair();
            let id = l.enumeration("e", 4, false, &[(local, 5)]);
            t.enumeration("e", 4, false, &[("Z", 1), (target, 7)]);
            self.case(&format!("variants_{i}"), &mut l, &t, id, "0", 11);
            let (mut l, mut t) = pair_with_int();
            let id = l.st("s", 4, &[(local, 1, 0)]);
            t.st("s", 4, &[(target, 1, 0)]);
            self.case(&format!("members_{i}"), &mut l, &t, id, "0:0", 2);
        }
    }

    /// Parts: how many, and how each is written.
    fn parts(&mut self) {
        for n in [63, 64, 65, 66] {
            let zeros = ["0"].repeat(n).join(":");
            let (mut l, t) = pair_with_int();
            self.case(&format!("parts_{n}"), &mut l, &t, 1, &zeros, 0);
            let (mut l, t) = pair_with_int();
            let bad = [["0"].repeat(n - 1).join(":"), "x".to_string()].join(":");
            self.case(&format!("parts_bad_{n}"), &mut l, &t, 1, &bad, 0);
            let deep = |b: &mut Btf| {
                let int = b.plain("int", 4);
                (1..n).fold(int, |x, _| b.st("s", 4, &[("x", x, 0)]))
            };
            let (mut l, mut t) = pair();
            let id = deep(&mut l);
            deep(&mut t);
            self.case(&format!("deep_{n}"), &mut l, &t, id, &zeros, 2);
        }
        let texts = ["+0:0", "++0", "0:", ":0", "-1", "0x1", " 0", "00", "18446744073709551615", "18446744073709551616", "+", "0:+"];
        for text in texts {
            let (mut l, mut t) = pair();
            let id = l.plain("i", 4);
            t.plain("i", 4);
            self.case(&format!("text_{}", slug(text)), &mut l, &t, id, text, 0);
        }
    }

    /// Bit offsets at and below 2^32.
    fn bit_offsets(&mut self) {
        let rows = [
            ("local_2_32", 1u64 << 30, 0, false),
            ("local_below", (1 << 30) - 1, 2, false),
            ("target_2_32", 1 << 27, 0, true),
            ("target_below", (1 << 27) - 1, 0, true),
        ];
        for (name, index, kind, both) in rows {
            let (mut l, mut t) = pair();
            let id = l.plain("i", 4);
            if both {
                t.plain("i", 4);
            }
            self.case(name, &mut l, &t, id, &index.to_string(), kind);
        }
        for (name, local, target) in [("local_sum", u32::MAX, 0), ("target_sum", 0, u32::MAX)] {
            let (mut l, mut t) = pair_with_int();
            let id = l.st("s", 4, &[("x", 1, local)]);
            t.st("s", 4, &[("x", 1, target)]);
            self.case(name, &mut l, &t, id, "1:0", 0);
        }
    }

    /// Arrays of no elements, last and not, on both sides and in the target alone.
    fn zero_length(&mut self) {
        let (two, one, other): (&[_], &[_], &[_]) = (&[("a", 1, 0), ("z", 2, 32)], &[("z", 2, 0)], &[("z", 2, 0), ("a", 1, 0)]);
        for (members, kind) in [(two, 4), (one, 4), (one, 5), (other, 4)] {
            for index in 0..3 {
                let (mut l, mut t) = pair_with_int();
                l.array(1, 0);
                t.array(1, 0);
                let id = l.group(kind, "s", 4, false, members);
                t.group(kind, "s", 4, false, members);
                let at = members.iter().position(|m| m.0 == "z").expect("a member z");
                self.case(&format!("zero_{}_{kind}_{index}", members.len()), &mut l, &t, id, &format!("0:{at}:{index}"), 0);
            }
        }
        for kind in [4, 5] {
            let (mut l, mut t) = pair_with_int();
            l.array(1, 5);
            t.array(1, 0);
            let id = l.group(kind, "s", 20, false, &[("z", 2, 0)]);
            t.group(kind, "s", 4, false, &[("z", 2, 64)]);
            self.case(&format!("zero_target_{kind}"), &mut l, &t, id, "0:0:3", 0);
        }
    }

    /// The first equal name decides, an outer level goes on; a local member at another empty name is named.
    fn searches(&mut self) {
        let (mut l, mut t) = pair_with_int();
        let float = t.refer(16, "fl", 4);
        let inner = t.st("", 8, &[("x", float, 0), ("x", 1, 32)]);
        let id = l.st("s", 4, &[("x", 1, 0)]);
        t.st("s", 16, &[("", inner, 0), ("x", 1, 64)]);
        self.case("outer_goes_on", &mut l, &t, id, "0:0", 0);
        let (mut l, mut t) = pair_with_int();
        let float = t.refer(16, "fl", 4);
        let id = l.st("s", 4, &[("x", 1, 0)]);
        t.st("s", 16, &[("x", float, 0), ("x", 1, 64)]);
        self.case("level_ends", &mut l, &t, id, "0:0", 2);
        let (mut l, mut t) = pair_with_int();
        l.strings.push(0);
        let empty = l.strings.len() as u32 - 1;
        let x = l.name("x");
        let id = l.add(4, "s", 8, 2, false, &[empty, 1, 0, x, 1, 32]);
        t.st("s", 8, &[("x", 1, 0)]);
        self.case("empty_name_offset", &mut l, &t, id, "0:0", 2);
    }

    /// Twins at other offsets and of other sizes.
    fn conflicts(&mut self) {
        let (four, one) = (4, 1);
        let rows: [(&str, &[(u32, u32)]); 4] = [
            ("three", &[(0, four), (32, four), (64, four)]),
            ("same", &[(0, four), (0, four)]),
            ("sizes", &[(0, four), (0, one)]),
            ("mixed", &[(0, four), (0, four), (32, four), (0, one), (32, four)]),
        ];
        for (name, twins) in rows {
            for kind in [0, 1, 2] {
                let (mut l, mut t) = pair_with_int();
                let id = l.st("s", 8, &[("x", 1, 0)]);
                for &(offset, size) in twins {
                    let x = if size == four { 1 } else { t.plain("b", one) };
                    t.st("s", 8, &[("x", x, offset)]);
                }
                self.case(&format!("conflict_{name}_{kind}"), &mut l, &t, id, "0:0", kind);
            }
        }
    }

    /// Matches without a value beside one with, and failures of the local side.
    fn failures(&mut self) {
        let bits = |b: &mut Btf, width: u32, offset: u32| {
            let x = b.plain("l", 4);
            b.group(4, "s", 16, true, &[("x", x, width << 24 | offset)])
        };
        for kind in [0, 4] {
            for (order, widths) in [[60, 5], [5, 60]].iter().enumerate() {
                let (mut l, mut t) = pair();
                let id = bits(&mut l, 5, 0);
                widths.iter().for_each(|&w| {
                    bits(&mut t, w, 8);
                });
                self.case(&format!("valueless_{kind}_{order}"), &mut l, &t, id, "0:0", kind);
            }
        }
        let (mut l, mut t) = pair();
        let id = bits(&mut l, 60, 8);
        self.case("local_failure_none", &mut l, &t, id, "0:0", 0);
        bits(&mut t, 5, 0);
        let (mut l, _) = pair();
        let id = bits(&mut l, 60, 8);
        self.case("local_failure_match", &mut l, &t, id, "0:0", 0);
        let (mut l, mut t) = pair();
        let id = bits(&mut l, 60, 8);
        t.refer(8, "", 0);
        self.case("local_failure_kind2", &mut l, &t, id, "0:0", 2);
    }

    fn bitfields(&mut self) {
        let rows = [(5, 35, 4), (4, 30, 4), (8, 0, 1), (3, 7, 1), (9, 15, 2), (33, 31, 4), (64, 0, 8), (60, 8, 4), (1, 0, 3), (20, 5, 3)];
        for (width, offset, size) in rows {
            let (mut l, mut t) = pair();
            for b in [&mut l, &mut t] {
                b.plain("l", size);
                b.group(4, "s", 16, true, &[("x", 1, width << 24 | offset)]);
            }
            for kind in [0, 1, 4, 5] {
                self.case(&format!("bits_{width}_{offset}_{size}_{kind}"), &mut l, &t, 2, "0:0", kind);
            }
        }
    }

    fn signs(&mut self) {
        let rows: [(&str, Make); 8] = [
            ("sint", &|b| b.int("i", 4, 32 | 1 << 24)),
            ("char", &|b| b.int("i", 1, 8 | 2 << 24)),
            ("bool", &|b| b.int("i", 1, 8 | 4 << 24)),
            ("se", &|b| b.enumeration("e", 4, true, &[])),
            ("ue", &|b| b.enumeration("e", 4, false, &[])),
            ("se64", &|b| b.enum64("e", true, &[])),
            ("ptr", &|b| b.ptr(1)),
            ("st", &|b| b.st("y", 4, &[])),
        ];
        for (name, make) in rows {
            self.field(&format!("signed_{name}"), make, make, &[3]);
        }
    }

    /// Loads and stores of other sizes.
    fn loads(&mut self) {
        let two = |local: u32, target: u32, signs: (u32, u32)| {
            let (mut l, mut t) = pair();
            l.int("i", local, (local * 8) | (signs.0 << 24));
            t.int("i", target, (target * 8) | (signs.1 << 24));
            let id = l.st("s", 16, &[("x", 1, 0)]);
            t.st("s", 16, &[("x", 1, 64)]);
            (l, t, id)
        };
        for (local, target) in [(4, 8), (8, 1), (1, 2), (2, 4), (4, 16), (4, 3)] {
            let (mut l, t, id) = two(local, target, (0, 0));
            for code in [0x61, 0x63, 0x62, 0x81] {
                self.with(&format!("load_{local}_{target}_{code:x}"), &mut l, &t, (id, "0:0", 0), &coded(code));
            }
        }
        let (mut l, t, id) = two(4, 8, (0, 1));
        self.with("load_signed", &mut l, &t, (id, "0:0", 0), &LDX);
        let (mut l, t, id) = two(4, 8, (1, 0));
        self.with("load_signed_local", &mut l, &t, (id, "0:0", 0), &LDX);
        for (kind, name) in [(0, "offset"), (1, "size")] {
            let (mut l, mut t) = pair();
            l.plain("i", 4);
            t.plain("i", 8);
            l.array(1, 4);
            t.array(1, 4);
            let id = l.st("s", 16, &[("x", 2, 0)]);
            t.st("s", 32, &[("x", 2, 64)]);
            self.with(&format!("load_element_{name}"), &mut l, &t, (id, "0:0:1", kind), &LDX);
        }
        let (mut l, mut t) = pair();
        l.plain("i", 4);
        t.plain("i", 4);
        let id = l.st("s", 16, &[("x", 1, 0)]);
        t.group(4, "s", 16, true, &[("x", 1, 3 << 24)]);
        self.with("load_plain_bitfield", &mut l, &t, (id, "0:0", 0), &LDX);
    }

    /// Class 0, poison, the end of the function, classes, offsets, lists.
    fn instructions(&mut self) {
        let (mut l, mut t) = pair();
        let e = l.enum64("e", false, &[("A", 1)]);
        t.enum64("e", false, &[("A", 0x1122_3344_5566_7788)]);
        let none = Btf::default();
        self.with("wide", &mut l, &t, (e, "0", 11), &LDDW);
        self.with("wide_end", &mut l, &t, (e, "0", 11), &LDDW[..8]);
        self.full("wide_second", &mut l, &t, &[(e, "0", 11, 8)], &LDDW, 0);
        self.with("wide_poison", &mut l, &none, (e, "0", 11), &LDDW);
        self.with("wide_poison_end", &mut l, &none, (e, "0", 11), &LDDW[..8]);
        let mut other = [0; 16];
        other[0] = 0x20;
        self.with("class_0_other", &mut l, &none, (e, "0", 11), &other);
        for class in 0..8 {
            let insns = [coded(0x60 | class), MOV].concat();
            self.with(&format!("class_{class}"), &mut l, &t, (e, "0", 10), &insns);
            self.with(&format!("class_{class}_poison"), &mut l, &none, (e, "0", 11), &insns);
        }
        for at in [0, 1, 7, 8, 15, 16] {
            self.full(&format!("at_{at}"), &mut l, &t, &[(e, "0", 10, at)], &[MOV, MOV].concat(), 64);
        }
        self.full("before_function", &mut l, &t, &[(e, "0", 10, -1)], &[MOV, MOV].concat(), 64);
        self.case("kind_12", &mut l, &t, e, "0", 12);
        self.case("void_exists", &mut l, &t, 0, "0", 8);
        self.case("void_target", &mut l, &t, 0, "0", 7);
        let several = [(e, "0", 10, 0), (e, "0", 11, 8), (e, "0", 6, 16), (e, "1", 11, 24), (e, "0", 6, 32)];
        self.full("several", &mut l, &t, &several, &MOV.repeat(5), 0);
        self.case("id_past", &mut l, &t, 2, "0", 6);
        self.case("id_last", &mut l, &t, 1, "0", 6);
    }

    /// Enum records on other kinds, signs, and type records with other parts or no match.
    fn enums_and_types(&mut self) {
        let (mut l, mut t) = pair_with_int();
        let id = l.st("s", 4, &[("a", 1, 0)]);
        t.st("s", 4, &[("a", 1, 0)]);
        for access in ["0", "0:0", "7"] {
            self.case(&format!("enum_on_struct_{}", slug(access)), &mut l, &t, id, access, 10);
            self.case(&format!("type_{}", slug(access)), &mut l, &t, id, access, 8);
        }
        let (mut l, mut t) = pair();
        let id = l.enum64("e", true, &[("A", 0xffff_ffff)]);
        t.enum64("e", true, &[("A", 0xffff_ffff)]);
        self.with("enum64_signed", &mut l, &t, (id, "0", 11), &LDDW);
        let (mut l, mut t) = pair();
        let id = l.enumeration("e", 4, true, &[("A", -5)]);
        t.enumeration("e", 4, true, &[("B", -5), ("A", -7)]);
        self.with("enum_signed", &mut l, &t, (id, "0", 11), &LDDW);
        let (mut l, mut t) = pair();
        let id = l.enumeration("e", 4, false, &[("A", 1), ("B", 2)]);
        t.enumeration("e", 4, false, &[("A", 1)]);
        for access in ["0", "1", "2", "0:0", "1:1"] {
            for kind in [10, 11] {
                self.case(&format!("variant_{}_{kind}", slug(access)), &mut l, &t, id, access, kind);
            }
        }
        let (mut l, t) = pair();
        let id = l.st("s", 4, &[]);
        for kind in 6..10 {
            self.case(&format!("alone_{kind}"), &mut l, &t, id, "0", kind);
        }
    }

    /// Candidates by unresolved kind, a refusal after a conflict, an empty name at another offset.
    fn candidates(&mut self) {
        let (mut l, mut t) = pair_with_int();
        let id = l.refer(8, "s", 1);
        t.st("s", 4, &[]);
        t.refer(8, "s___1", 1);
        t.refer(8, "s___2", 1);
        for kind in [7, 8, 9] {
            self.case(&format!("candidates_{kind}"), &mut l, &t, id, "0", kind);
        }
        let (mut l, mut t) = pair_with_int();
        let id = l.st("s", 4, &[("a", 1, 0)]);
        t.st("s", 4, &[("a", 1, 0)]);
        t.st("s", 4, &[("a", 1, 32)]);
        let far = t.consts(1, 40);
        t.st("s", 4, &[("a", far, 0)]);
        self.case("conflict_then_14", &mut l, &t, id, "0:0", 0);
        let (mut l, mut t) = pair_with_int();
        let id = l.st("s", 8, &[("x", 1, 0)]);
        let inner = t.st("", 4, &[("x", 1, 0)]);
        t.strings.push(0);
        let empty = t.strings.len() as u32 - 1;
        t.add(4, "s", 8, 1, false, &[empty, inner, 64]);
        self.case("empty_name_target", &mut l, &t, id, "0:0", 0);
    }
}

impl Hand {
    /// The target's parts at 64, before a member and before an index, and past 64 without ever being equal to it.
    fn nesting(&mut self) {
        let (mut l, mut t) = pair_with_int();
        l.arrays(5, 3);
        l.st("s", 64, &[("x", 5, 0), ("a", 4, 0), ("y", 5, 0), ("e", 6, 0)]);
        l.st("q", 4, &[("m", 1, 0)]);
        t.arrays(5, 3);
        t.st("s", 64, &[("", 7, 0), ("a", 4, 0), ("y", 5, 0), ("e", 6, 0)]);
        t.st("q", 4, &[]);
        t.st("", 64, &[("", 8, 0)]);
        t.st("", 64, &[("x", 5, 0)]);
        let rows = [
            ("member_at_64", 21, ":0"),
            ("member_to_64", 21, ""),
            ("index_at_64", 20, ":1:0:0:0"),
            ("index_to_64", 20, ":1:0:0"),
            ("past_64", 20, ":2:0:0:0:0:2:1:0"),
            ("no_member_at_64", 20, ":2:2:3:0"),
            ("member_at_63", 20, ":2:2:3"),
        ];
        for (name, times, then) in rows {
            let access = format!("0{}{then}", ":0".repeat(times));
            self.case(&format!("nesting_{name}"), &mut l, &t, 5, &access, 2);
        }
    }

    /// ENUM and ENUM64 the other way round, an alias of no enum, equal names at two levels.
    fn kinds_of_enums(&mut self) {
        let wide = |b: &mut Btf| b.enum64("e", false, &[("A", 1)]);
        let narrow = |b: &mut Btf| b.enumeration("e", 4, false, &[("A", 1)]);
        self.field("enum64_enum", &wide, &narrow, &[0, 2]);
        self.whole("enum64_enum", &wide, &narrow, &[8, 9, 10, 11]);
        self.whole("enum_enum64_variant", &narrow, &wide, &[10, 11]);
        self.whole("enum_int_variant", &narrow, &|b| b.plain("e", 4), &[10, 11]);
        self.whole("enum_union_variant", &narrow, &|b| b.group(5, "e", 4, false, &[("A", 1, 0)]), &[10, 11]);
        let (mut l, mut t) = pair_with_int();
        let id = l.st("s", 8, &[("x", 1, 0)]);
        let first = t.st("", 4, &[("x", 1, 0)]);
        t.st("s", 16, &[("", first, 64), ("x", 1, 0), ("", first, 32)]);
        self.case("inner_name_first", &mut l, &t, id, "0:0", 0);
    }
}

/// A load's bytes with another code.
fn coded(code: u8) -> [u8; 8] {
    let mut insn = LDX;
    insn[0] = code;
    insn
}

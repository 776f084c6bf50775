//! What a BTF that was read holds: types, their kinds, what they list.
use core::fmt;

/// The kind of a type, as the kernel's BTF document numbers them.
#[derive(Clone, Copy, Debug, PartialEq, Eq, Hash)]
#[non_exhaustive]
pub enum Kind {
    /// 0: void, which stands at id 0 and past the last id.
    Void,
    /// 1: an integer.
    Int,
    /// 2: a pointer.
    Ptr,
    /// 3: an array.
    Array,
    /// 4: a struct.
    Struct,
    /// 5: a union.
    Union,
    /// 6: an enum with values of 32 bits.
    Enum,
    /// 7: a struct or union that is only declared.
    Fwd,
    /// 8: a typedef.
    Typedef,
    /// 9: `volatile`.
    Volatile,
    /// 10: `const`.
    Const,
    /// 11: `restrict`.
    Restrict,
    /// 12: a function.
    Func,
    /// 13: a function's prototype.
    FuncProto,
    /// 14: a variable.
    Var,
    /// 15: a section of variables.
    Datasec,
    /// 16: a floating point number.
    Float,
    /// 17: a tag of a declaration.
    DeclTag,
    /// 18: a tag of a type.
    TypeTag,
    /// 19: an enum with values of 64 bits.
    Enum64,
    /// A number that this crate knows no kind for; a library of its own version accepts no BTF with one.
    Other(u32),
}

/// The kinds and their names in the BTF document, in the order of their numbers.
const KINDS: [(Kind, &str); 20] = [
    (Kind::Void, "void"),
    (Kind::Int, "INT"),
    (Kind::Ptr, "PTR"),
    (Kind::Array, "ARRAY"),
    (Kind::Struct, "STRUCT"),
    (Kind::Union, "UNION"),
    (Kind::Enum, "ENUM"),
    (Kind::Fwd, "FWD"),
    (Kind::Typedef, "TYPEDEF"),
    (Kind::Volatile, "VOLATILE"),
    (Kind::Const, "CONST"),
    (Kind::Restrict, "RESTRICT"),
    (Kind::Func, "FUNC"),
    (Kind::FuncProto, "FUNC_PROTO"),
    (Kind::Var, "VAR"),
    (Kind::Datasec, "DATASEC"),
    (Kind::Float, "FLOAT"),
    (Kind::DeclTag, "DECL_TAG"),
    (Kind::TypeTag, "TYPE_TAG"),
    (Kind::Enum64, "ENUM64"),
];

impl Kind {
    /// The kind of a number.
    pub fn from_number(number: u32) -> Kind {
        KINDS.get(number as usize).map_or(Kind::Other(number), |(kind, _)| *kind)
    }

    /// The kind's number.
    pub fn number(self) -> u32 {
        match self {
            Kind::Other(number) => number,
            known => KINDS.iter().take_while(|(kind, _)| *kind != known).count() as u32,
        }
    }

    /// Whether it stands between a name and the type that is meant: a typedef, `volatile`, `const`, `restrict` or a type's tag.
    pub fn is_modifier(self) -> bool {
        matches!(self, Kind::Typedef | Kind::Volatile | Kind::Const | Kind::Restrict | Kind::TypeTag)
    }
}

impl fmt::Display for Kind {
    fn fmt(&self, f: &mut fmt::Formatter<'_>) -> fmt::Result {
        match KINDS.get(self.number() as usize) {
            Some((_, name)) => f.write_str(name),
            None => write!(f, "kind {}", self.number()),
        }
    }
}

/// How an INT is to be taken.
#[derive(Clone, Copy, Debug, PartialEq, Eq, Hash)]
#[non_exhaustive]
pub enum Encoding {
    /// No encoding is named.
    Unsigned,
    /// Signed.
    Signed,
    /// A character.
    Char,
    /// A truth value.
    Bool,
    /// Other bits; no BTF with them is accepted.
    Other(u32),
}

impl Encoding {
    pub(crate) fn from_bits(bits: u32) -> Encoding {
        match bits {
            0 => Encoding::Unsigned,
            1 => Encoding::Signed,
            2 => Encoding::Char,
            4 => Encoding::Bool,
            other => Encoding::Other(other),
        }
    }
}

/// Where a function or a variable is seen.
#[derive(Clone, Copy, Debug, PartialEq, Eq, Hash)]
#[non_exhaustive]
pub enum Linkage {
    /// 0: in its own file.
    Static,
    /// 1: everywhere.
    Global,
    /// 2: it stands elsewhere.
    Extern,
    /// A number that the BTF document does not name; nothing refuses one.
    Other(u32),
}

impl Linkage {
    pub(crate) fn from_number(number: u32) -> Linkage {
        match number {
            0 => Linkage::Static,
            1 => Linkage::Global,
            2 => Linkage::Extern,
            other => Linkage::Other(other),
        }
    }
}

/// What only types of one kind have.
#[derive(Clone, Copy, Debug, PartialEq, Eq, Hash)]
#[non_exhaustive]
pub enum Detail {
    /// Nothing.
    None,
    /// Of an INT.
    #[non_exhaustive]
    Int {
        /// How it is to be taken.
        encoding: Encoding,
        /// At which bit of its bytes it begins.
        offset: u8,
        /// How many bits it has.
        bits: u8,
    },
    /// Of an ARRAY, whose elements' type is the type referred to.
    #[non_exhaustive]
    Array {
        /// How many elements there are.
        length: u32,
        /// The type id of an index.
        index: u32,
    },
    /// Of a FUNC or a VAR.
    Linkage(Linkage),
    /// Of a DECL_TAG: the index of the member or parameter that it is of, `None` where it is of the whole.
    Component(Option<u32>),
}

/// What stands at a type id.
#[derive(Clone, Copy, Debug, PartialEq, Eq)]
#[non_exhaustive]
pub struct Type<'a> {
    /// The id.
    pub id: u32,
    /// The kind.
    pub kind: Kind,
    /// The kind flag: a FWD is of a union; the members of a struct or union have a bitfield's size in their offset word; an enum's
    /// values are signed.
    pub flag: bool,
    /// The name's bytes, empty where there is none.
    pub name: &'a [u8],
    /// The size in bytes of a kind that has one, else 0.
    pub size: u32,
    /// The type referred to: a pointee, a modified type, an array's element, a function's prototype, what a prototype returns, a
    /// variable's or a tag's type; else 0.
    pub referred: u32,
    /// How many members, variants, parameters or variables there are.
    pub entries: u32,
    /// What only its kind has.
    pub detail: Detail,
}

/// What a type lists: a member, a variant, a parameter, a variable.
#[derive(Clone, Copy, Debug, PartialEq, Eq)]
#[non_exhaustive]
pub struct Entry<'a> {
    /// The name's bytes, empty where there is none.
    pub name: &'a [u8],
    /// Its type's id, 0 where it has none.
    pub typ: u32,
    /// A member's offset word (in bits; where the struct's kind flag is set, in its lower 24 bits, below a bitfield's size), the low
    /// half of a variant's value, or a section variable's offset.
    pub low: u32,
    /// The high half of an ENUM64's variant's value, or a section variable's size.
    pub high: u32,
}

//! Refusals, typed, with the numbers of docs/SCOPE.md, section 3, and words that name the place.
use crate::fault::Fault;
use alloc::string::String;
use alloc::vec;
use alloc::vec::Vec;
use core::error::Error;
use core::fmt;

/// Which of the two BTFs.
#[derive(Clone, Copy, Debug, PartialEq, Eq, Hash)]
pub enum Which {
    /// The program's.
    Local,
    /// The kernel's.
    Target,
}

impl fmt::Display for Which {
    fn fmt(&self, f: &mut fmt::Formatter<'_>) -> fmt::Result {
        f.write_str(match self {
            Which::Local => "local",
            Which::Target => "target",
        })
    }
}

/// The most bytes and the most types that a BTF may have.
const MAX_BYTES: usize = 16_777_216;
const MAX_TYPES: u32 = 1_048_575;

/// Why bytes are no BTF that can be used.
#[derive(Clone, Debug, PartialEq, Eq)]
#[non_exhaustive]
pub enum BtfRefusal {
    /// No. 1: bad BTF.
    #[non_exhaustive]
    Bad {
        /// The type id of the first fault, 0 for header or strings.
        id: u32,
        /// That type's name, empty where it has none.
        name: String,
        /// Where that type begins in the bytes.
        at: usize,
        /// What is wrong there.
        fault: Fault,
    },
    /// No. 2: more bytes or more types than are carried.
    #[non_exhaustive]
    OverLimit {
        /// How many bytes there are.
        bytes: usize,
    },
    /// A number that this crate does not know: the library is of another version.
    Unknown {
        /// The number.
        number: u32,
    },
}

impl BtfRefusal {
    /// The refusal's number.
    pub fn number(&self) -> u32 {
        match self {
            BtfRefusal::Bad { .. } => 1,
            BtfRefusal::OverLimit { .. } => 2,
            BtfRefusal::Unknown { number } => *number,
        }
    }

    /// The same, as a refusal of a call: of which of its two BTFs it is.
    pub fn of(self, which: Which) -> Refused {
        Refused::Btf { which, why: self }
    }
}

impl fmt::Display for BtfRefusal {
    fn fmt(&self, f: &mut fmt::Formatter<'_>) -> fmt::Result {
        match self {
            BtfRefusal::Bad { id: 0, fault, .. } => write!(f, "bad BTF: {fault}"),
            BtfRefusal::Bad { id, name, at, fault } => write!(f, "bad BTF: type id {id} ({}), at byte {at}: {fault}", named(name)),
            BtfRefusal::OverLimit { bytes } if *bytes > MAX_BYTES => {
                write!(f, "BTF over a limit: {bytes} bytes, and {MAX_BYTES} are carried")
            }
            BtfRefusal::OverLimit { .. } => write!(f, "BTF over a limit: more than {MAX_TYPES} types"),
            BtfRefusal::Unknown { number } => write!(f, "refusal {number}, which this version does not know"),
        }
    }
}

/// A type's name, or that it has none.
fn named(name: &str) -> &str {
    if name.is_empty() {
        "unnamed"
    } else {
        name
    }
}

impl Error for BtfRefusal {}

/// Why an instruction cannot take a value: the reasons of refusal 12.
#[derive(Clone, Copy, Debug, PartialEq, Eq, Hash)]
#[non_exhaustive]
pub enum Reason {
    /// 1: an arithmetic instruction has another source register than r0.
    SourceRegister,
    /// 2: the offset is above 32,767.
    OffsetTooBig,
    /// 3: a load's or store's size would change between types that are neither both pointers nor both unsigned integers.
    TypesDiffer,
    /// 4: the target's size is not 1, 2, 4 or 8 bytes.
    TargetSize,
    /// 5: the instruction's class takes no value.
    Class,
    /// 6: a load's or store's size would change, and one side has no type to compare.
    NoType,
    /// A number that this crate does not know: the library is of another version.
    Other(u32),
}

impl Reason {
    /// The reason of a number.
    pub fn from_number(number: u32) -> Reason {
        match number {
            1 => Reason::SourceRegister,
            2 => Reason::OffsetTooBig,
            3 => Reason::TypesDiffer,
            4 => Reason::TargetSize,
            5 => Reason::Class,
            6 => Reason::NoType,
            other => Reason::Other(other),
        }
    }

    /// The reason's number.
    pub fn number(self) -> u32 {
        match self {
            Reason::SourceRegister => 1,
            Reason::OffsetTooBig => 2,
            Reason::TypesDiffer => 3,
            Reason::TargetSize => 4,
            Reason::Class => 5,
            Reason::NoType => 6,
            Reason::Other(number) => number,
        }
    }
}

impl fmt::Display for Reason {
    fn fmt(&self, f: &mut fmt::Formatter<'_>) -> fmt::Result {
        f.write_str(match self {
            Reason::SourceRegister => "an arithmetic instruction whose source register is not r0 takes no immediate",
            Reason::OffsetTooBig => "the offset is above 32767",
            Reason::TypesDiffer => "the load's size changes between types that are neither pointers nor unsigned integers",
            Reason::TargetSize => "the target's size is not 1, 2, 4 or 8 bytes",
            Reason::Class => "its class takes no value",
            Reason::NoType => "the load's size changes and one side has no type to compare",
            Reason::Other(_) => "this version does not know it",
        })
    }
}

/// Why a record is refused. The variants are numbers 4 to 17.
#[derive(Clone, Copy, Debug, PartialEq, Eq)]
#[non_exhaustive]
pub enum Why {
    /// No. 4: the record's kind is above 11.
    KindTooBig {
        /// The kind.
        kind: u32,
    },
    /// No. 5: the record's offset names no instruction of the function.
    NotInFunction,
    /// No. 6: the instruction needs a successor and has none.
    NoSuccessor {
        /// The index at which the successor would stand.
        index: u64,
    },
    /// No. 7: the access string is not one, or not one for this kind.
    BadAccess,
    /// No. 8: a part of the access string is past the members, elements or variants.
    IndexTooBig {
        /// The part.
        index: u64,
        /// How many there are.
        count: u64,
    },
    /// No. 9: the record's kind is not valid for the type.
    WrongKind,
    /// No. 10: candidates conflict with the first match.
    Conflict {
        /// The first conflicting type id.
        id: u32,
        /// How many conflict.
        count: u64,
    },
    /// No. 11: the access has 64 parts in a candidate, and goes on.
    MaximumNesting {
        /// The candidate's type id.
        id: u32,
    },
    /// No. 12: the instruction cannot take the value.
    BadInstruction {
        /// The reason.
        reason: Reason,
    },
    /// No. 13: no type matches a record that asks for a type's id or size.
    NoMatch,
    /// No. 14: an id, a string, a size or a chain of modifiers is not resolved.
    Unresolved,
    /// No. 15: the access string has more than 64 parts.
    TooManyParts,
    /// No. 16: a bit offset reaches 2^32.
    BitsTooBig,
    /// No. 17: a nesting limit is passed.
    TooDeep,
}

impl Why {
    /// The refusal's number.
    pub fn number(self) -> u32 {
        match self {
            Why::KindTooBig { .. } => 4,
            Why::NotInFunction => 5,
            Why::NoSuccessor { .. } => 6,
            Why::BadAccess => 7,
            Why::IndexTooBig { .. } => 8,
            Why::WrongKind => 9,
            Why::Conflict { .. } => 10,
            Why::MaximumNesting { .. } => 11,
            Why::BadInstruction { .. } => 12,
            Why::NoMatch => 13,
            Why::Unresolved => 14,
            Why::TooManyParts => 15,
            Why::BitsTooBig => 16,
            Why::TooDeep => 17,
        }
    }

    /// The refusal with this number and these values beside it; `None` for a number that no record is refused with.
    pub(crate) fn from_said(number: u32, a: u64, b: u64) -> Option<Why> {
        // Ids and reasons are 32-bit numbers on the other side.
        let id = a as u32;
        Some(match number {
            4 => Why::KindTooBig { kind: id },
            5 => Why::NotInFunction,
            6 => Why::NoSuccessor { index: a },
            7 => Why::BadAccess,
            8 => Why::IndexTooBig { index: a, count: b },
            9 => Why::WrongKind,
            10 => Why::Conflict { id, count: b },
            11 => Why::MaximumNesting { id },
            12 => Why::BadInstruction { reason: Reason::from_number(id) },
            13 => Why::NoMatch,
            14 => Why::Unresolved,
            15 => Why::TooManyParts,
            16 => Why::BitsTooBig,
            17 => Why::TooDeep,
            _ => return None,
        })
    }

    /// The values beside the number, as docs/SCOPE.md lists them; the record's own number where that is what is returned.
    pub fn values(self, record: u64) -> Vec<u64> {
        match self {
            Why::KindTooBig { kind } => vec![kind.into()],
            Why::NoSuccessor { index } => vec![index],
            Why::IndexTooBig { index, count } => vec![index, count],
            Why::Conflict { id, count } => vec![id.into(), count],
            Why::MaximumNesting { id } => vec![id.into()],
            Why::BadInstruction { reason } => vec![reason.number().into()],
            Why::NotInFunction
            | Why::BadAccess
            | Why::WrongKind
            | Why::NoMatch
            | Why::Unresolved
            | Why::TooManyParts
            | Why::BitsTooBig
            | Why::TooDeep => vec![record],
        }
    }
}

impl fmt::Display for Why {
    fn fmt(&self, f: &mut fmt::Formatter<'_>) -> fmt::Result {
        match self {
            Why::KindTooBig { kind } => write!(f, "record kind {kind} is above 11"),
            Why::NotInFunction => write!(f, "its instruction is not in the function"),
            Why::NoSuccessor { index } => write!(f, "the instruction needs a successor at index {index}, where the function has ended"),
            Why::BadAccess => write!(f, "its access string is invalid"),
            Why::IndexTooBig { index, count } => write!(f, "access index {index} is too big: there are {count}"),
            Why::WrongKind => write!(f, "the record's kind is not valid for the type"),
            Why::Conflict { id, count } => {
                write!(f, "{count} matching types conflict with the first match, the first of them type id {id}")
            }
            Why::MaximumNesting { id } => write!(f, "the access has 64 parts in candidate type id {id}, and goes on"),
            Why::BadInstruction { reason } => write!(f, "the instruction is invalid (reason {}): {reason}", reason.number()),
            Why::NoMatch => write!(f, "no target type matches, and a type's id or size is asked for"),
            Why::Unresolved => write!(f, "an id, a string, a size or a chain of modifiers cannot be resolved"),
            Why::TooManyParts => write!(f, "its access string has more than 64 parts"),
            Why::BitsTooBig => write!(f, "a bit offset reaches 2^32"),
            Why::TooDeep => write!(f, "types are nested deeper than is carried"),
        }
    }
}

/// Why a relocation was refused, and where.
#[derive(Clone, Debug, PartialEq, Eq)]
#[non_exhaustive]
pub enum Refused {
    /// A record was refused. The records before it are applied, and their patches stay.
    #[non_exhaustive]
    Record {
        /// The record's number in the list, from 0; as many records were applied before it.
        record: u64,
        /// The record's type id in the local BTF.
        type_id: u32,
        /// That type's name, where it has one.
        type_name: String,
        /// The type id that the refusal names in the target, with its name, where it names one.
        candidate: Option<(u32, String)>,
        /// Why.
        why: Why,
    },
    /// No. 1 or 2: one of the two BTFs cannot be used.
    Btf {
        /// Which of them.
        which: Which,
        /// Why.
        why: BtfRefusal,
    },
    /// No. 18: the function's bytes or section offset are no multiple of 8, the records' bytes no multiple of 16, or there
    /// are over 4,096 instructions.
    Misshapen,
    /// A number that this crate does not know: the library is of another version.
    #[non_exhaustive]
    Unknown {
        /// The number.
        number: u32,
        /// How many records were applied.
        applied: u64,
    },
}

impl Refused {
    /// The refusal's number.
    pub fn number(&self) -> u32 {
        match self {
            Refused::Record { why, .. } => why.number(),
            Refused::Btf { why, .. } => why.number(),
            Refused::Misshapen => 18,
            Refused::Unknown { number, .. } => *number,
        }
    }

    /// How many records were applied before.
    pub fn applied(&self) -> u64 {
        match self {
            Refused::Record { record: applied, .. } | Refused::Unknown { applied, .. } => *applied,
            Refused::Btf { .. } | Refused::Misshapen => 0,
        }
    }
}

impl fmt::Display for Refused {
    fn fmt(&self, f: &mut fmt::Formatter<'_>) -> fmt::Result {
        match self {
            Refused::Record { record, type_id, type_name, candidate, why } => {
                write!(f, "record {record}, of local type id {type_id} ({}): {why}", named(type_name))?;
                match candidate {
                    Some((_, name)) if !name.is_empty() => write!(f, " ({name})"),
                    _ => Ok(()),
                }
            }
            Refused::Btf { which, why } => write!(f, "the {which} BTF: {why}"),
            Refused::Misshapen => {
                write!(f, "instructions and section offset must be multiples of 8 bytes, records of 16, and instructions at most 4,096")
            }
            Refused::Unknown { number, applied } => {
                write!(f, "refusal {number}, which this version does not know, after {applied} records")
            }
        }
    }
}

/// No source: what is shown has the cause in it already.
impl Error for Refused {}

//! CO-RE records, as `.BTF.ext` has them.
use core::fmt;

/// What a record asks for, as LLVM's relocation document numbers it.
#[derive(Clone, Copy, Debug, PartialEq, Eq, Hash)]
#[non_exhaustive]
pub enum RecordKind {
    /// 0: a field's offset in bytes.
    FieldOffset,
    /// 1: a field's size in bytes.
    FieldSize,
    /// 2: whether a field exists.
    FieldExists,
    /// 3: whether a field is signed.
    FieldSigned,
    /// 4: how far a bitfield is shifted to the left.
    FieldLeftShift,
    /// 5: how far it is then shifted to the right.
    FieldRightShift,
    /// 6: the type's id in the program's BTF.
    LocalTypeId,
    /// 7: the type's id in the kernel's BTF.
    TargetTypeId,
    /// 8: whether a type exists.
    TypeExists,
    /// 9: a type's size in bytes.
    TypeSize,
    /// 10: whether an enum's variant exists.
    VariantExists,
    /// 11: an enum's variant's value.
    VariantValue,
}

/// The kinds and their words, in the order of their numbers.
const KINDS: [(RecordKind, &str); 12] = [
    (RecordKind::FieldOffset, "field offset"),
    (RecordKind::FieldSize, "field size"),
    (RecordKind::FieldExists, "field exists"),
    (RecordKind::FieldSigned, "field signed"),
    (RecordKind::FieldLeftShift, "field left shift"),
    (RecordKind::FieldRightShift, "field right shift"),
    (RecordKind::LocalTypeId, "type id, local"),
    (RecordKind::TargetTypeId, "type id, target"),
    (RecordKind::TypeExists, "type exists"),
    (RecordKind::TypeSize, "type size"),
    (RecordKind::VariantExists, "variant exists"),
    (RecordKind::VariantValue, "variant value"),
];

impl RecordKind {
    /// The kind of a number, `None` above the last: a record of it is refused.
    pub fn from_number(number: u32) -> Option<RecordKind> {
        KINDS.get(number as usize).map(|(kind, _)| *kind)
    }

    /// The kind's number.
    pub fn number(self) -> u32 {
        self as u32
    }
}

impl fmt::Display for RecordKind {
    fn fmt(&self, f: &mut fmt::Formatter<'_>) -> fmt::Result {
        f.write_str(KINDS[*self as usize].1)
    }
}

/// One record: which instruction it is of, and what it asks for.
#[derive(Clone, Copy, Debug, PartialEq, Eq, Hash)]
pub struct Record {
    /// The instruction's offset in its section, in bytes.
    pub insn_offset: u32,
    /// The type id in the program's BTF.
    pub type_id: u32,
    /// Where the access string begins in the program's strings.
    pub access_offset: u32,
    /// The kind's number ([`RecordKind::from_number`]).
    pub kind: u32,
}

impl Record {
    /// How many bytes a record takes.
    pub const SIZE: usize = 16;

    /// The record in its bytes.
    pub fn from_bytes(bytes: [u8; Record::SIZE]) -> Record {
        let word = |at: usize| u32::from_le_bytes([bytes[at], bytes[at + 1], bytes[at + 2], bytes[at + 3]]);
        Record { insn_offset: word(0), type_id: word(4), access_offset: word(8), kind: word(12) }
    }

    /// Its bytes, as a call takes them.
    pub fn to_bytes(self) -> [u8; Record::SIZE] {
        let mut bytes = [0; Record::SIZE];
        let words = [self.insn_offset, self.type_id, self.access_offset, self.kind];
        for (four, word) in bytes.chunks_exact_mut(4).zip(words) {
            four.copy_from_slice(&word.to_le_bytes());
        }
        bytes
    }

    /// The records of a list; bytes at its end that are fewer than a record's are left out.
    pub fn list(bytes: &[u8]) -> impl ExactSizeIterator<Item = Record> + '_ {
        bytes.chunks_exact(Record::SIZE).map(|bytes| Record::from_bytes(bytes.try_into().expect("as many bytes as a record has")))
    }
}

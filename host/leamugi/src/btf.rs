//! A BTF that was read: its bytes, and what stands in them by id.
use crate::refusal::BtfRefusal;
use crate::types::{Detail, Encoding, Entry, Kind, Linkage, Type};
use crate::{fault, ffi};
use alloc::format;
use alloc::string::String;
use alloc::vec;
use alloc::vec::Vec;
use core::fmt;

/// A BTF that was read and accepted: its bytes and the table of where its types begin.
///
/// `B` is what holds the bytes: a `Vec<u8>`, a slice, a mapped file, anything that lends them. They are not copied.
#[derive(Clone)]
pub struct Btf<B = Vec<u8>> {
    bytes: B,
    table: Vec<u32>,
    numbers: [u64; ffi::SAID],
}

impl Btf {
    /// Reads bytes as a BTF, and keeps them.
    ///
    /// # Errors
    ///
    /// As [`Btf::parse`].
    pub fn read(bytes: Vec<u8>) -> Result<Btf, BtfRefusal> {
        Btf::parse(bytes)
    }
}

impl<B: AsRef<[u8]>> Btf<B> {
    /// Reads bytes as a BTF, wherever they stand: `Btf::parse(&bytes[..])`, `Btf::parse(mapped_file)`.
    ///
    /// # Errors
    ///
    /// Bytes that are no BTF by section 4 of docs/SCOPE.md, or that are over a limit of section 2.
    pub fn parse(bytes: B) -> Result<Btf<B>, BtfRefusal> {
        let (table, numbers) = table_of(bytes.as_ref())?;
        Ok(Btf { bytes, table, numbers })
    }

    /// How many types there are beside void: the last id.
    pub fn types(&self) -> u32 {
        self.numbers[4] as u32
    }

    /// How many bytes the strings have.
    pub fn strings(&self) -> u64 {
        self.numbers[3]
    }

    /// The bytes that were read.
    pub fn bytes(&self) -> &[u8] {
        self.bytes.as_ref()
    }

    /// What holds the bytes, handed back.
    pub fn into_bytes(self) -> B {
        self.bytes
    }

    /// What stands at an id; void at 0 and past the last.
    pub fn type_at(&self, id: u32) -> Type<'_> {
        let said = ffi::type_at(&self.lent(), id);
        // What a type says are 32-bit numbers on the other side.
        let [name, length, size, referred, entries] = said.numbers;
        let kind = Kind::from_number(said.number);
        Type {
            id,
            kind,
            flag: self.word(id, 1) >> 31 == 1,
            name: self.named(name, length),
            size: size as u32,
            referred: referred as u32,
            entries: entries as u32,
            detail: self.detail(id, kind),
        }
    }

    /// The types in the order of their ids, from 1.
    pub fn iter(&self) -> impl ExactSizeIterator<Item = Type<'_>> + DoubleEndedIterator {
        (1..self.types() + 1).map(|id| self.type_at(id))
    }

    /// The types of this very name, in the order of their ids.
    pub fn find<'a>(&'a self, name: &'a str) -> impl Iterator<Item = Type<'a>> {
        self.iter().filter(move |typ| typ.name == name.as_bytes())
    }

    /// The name of the type at an id, as text.
    pub fn name(&self, id: u32) -> String {
        text(self.type_at(id).name)
    }

    /// The k-th member, variant, parameter or variable of the type at an id; zeros where there is none.
    pub fn entry_at(&self, id: u32, k: u32) -> Entry<'_> {
        let said = ffi::entry_at(&self.lent(), id, k);
        let [name, length, low, high, _] = said.numbers;
        Entry { name: self.named(name, length), typ: said.number, low: low as u32, high: high as u32 }
    }

    /// What the type at an id lists.
    pub fn entries(&self, id: u32) -> impl ExactSizeIterator<Item = Entry<'_>> + DoubleEndedIterator {
        (0..self.type_at(id).entries).map(move |k| self.entry_at(id, k))
    }

    /// The text at an offset of the strings, up to its zero.
    pub fn text(&self, offset: u32) -> String {
        text(fault::up_to_zero(self.string_bytes(), offset))
    }

    /// What an access string names, in words: `tcp_sock.inet_conn.icsk_ack.lrcvtime`. For people: nothing is decided by it.
    pub fn path(&self, id: u32, access: &str) -> String {
        let mut parts = access.split(':').map(|part| part.parse().unwrap_or(0));
        let mut id = self.resolved(id);
        let mut path = self.name(id);
        if let Some(element @ 1..) = parts.next() {
            path.push_str(&format!("[{element}]"));
        }
        for k in parts {
            let (step, next) = self.step(id, k);
            path.push_str(&step);
            id = self.resolved(next);
        }
        path
    }

    /// One step of a path: its words, and the type that it leads to.
    fn step(&self, id: u32, k: u32) -> (String, u32) {
        let typ = self.type_at(id);
        if typ.kind == Kind::Array {
            return (format!("[{k}]"), typ.referred);
        }
        let entry = self.entry_at(id, k);
        let words = if entry.name.is_empty() { String::new() } else { format!(".{}", text(entry.name)) };
        (words, entry.typ)
    }

    /// The type behind modifiers, for `path`.
    fn resolved(&self, mut id: u32) -> u32 {
        for _ in 0..32 {
            let typ = self.type_at(id);
            if !typ.kind.is_modifier() {
                break;
            }
            id = typ.referred;
        }
        id
    }

    /// What only a type of this kind has. The library has accepted the words: they are there.
    fn detail(&self, id: u32, kind: Kind) -> Detail {
        let first = || self.word(id, 3);
        match kind {
            Kind::Int => {
                let word = first();
                Detail::Int { encoding: Encoding::from_bits(word >> 24 & 15), offset: (word >> 16) as u8, bits: word as u8 }
            }
            Kind::Array => Detail::Array { length: self.word(id, 5), index: self.word(id, 4) },
            Kind::Func => Detail::Linkage(Linkage::from_number(self.word(id, 1) & 0xffff)),
            Kind::Var => Detail::Linkage(Linkage::from_number(first())),
            Kind::DeclTag => Detail::Component(Some(first()).filter(|index| *index != u32::MAX)),
            _ => Detail::None,
        }
    }

    /// A word of the type at an id; 0 for void.
    fn word(&self, id: u32, number: usize) -> u32 {
        let place = self.table.get(id as usize).filter(|_| id > 0);
        place.map_or(0, |at| fault::word(self.bytes(), *at as usize + 4 * number))
    }

    /// The string section.
    fn string_bytes(&self) -> &[u8] {
        part(self.bytes(), self.numbers[2], self.numbers[3])
    }

    /// The name of this length at an offset of the strings.
    fn named(&self, offset: u64, length: u64) -> &[u8] {
        part(self.string_bytes(), offset, length)
    }

    pub(crate) fn lent(&self) -> ffi::Read<'_> {
        ffi::Read { bytes: self.bytes(), table: &self.table, numbers: &self.numbers }
    }
}

/// One line, however big the BTF is.
impl<B: AsRef<[u8]>> fmt::Debug for Btf<B> {
    fn fmt(&self, f: &mut fmt::Formatter<'_>) -> fmt::Result {
        write!(f, "Btf({} types, {} bytes of strings, {} bytes)", self.types(), self.strings(), self.bytes().len())
    }
}

/// The table of a BTF and the numbers that reading it gives.
fn table_of(bytes: &[u8]) -> Result<(Vec<u32>, [u64; ffi::SAID]), BtfRefusal> {
    // A type takes at least 12 bytes, so the table is never too short.
    let mut table = vec![0; bytes.len() / 12 + 1];
    let said = ffi::read(bytes, &mut table);
    match said.number {
        0 => {
            table.truncate(said.numbers[4] as usize + 1);
            // a few entries are not worth moving the table
            if table.capacity() - table.len() > 1024 {
                table.shrink_to_fit();
            }
            Ok((table, said.numbers))
        }
        1 => Err(bad(bytes, said.numbers[0] as u32)),
        2 => Err(BtfRefusal::OverLimit { bytes: bytes.len() }),
        number => Err(BtfRefusal::Unknown { number }),
    }
}

/// The refusal of bytes whose first fault the library has found at this id.
fn bad(bytes: &[u8], id: u32) -> BtfRefusal {
    let found = fault::first(bytes).filter(|found| found.id == id);
    let fault::Found { at, name, fault, .. } = found.unwrap_or(fault::Found { id, at: 0, name: &[], fault: fault::Fault::Unknown });
    BtfRefusal::Bad { id, name: text(name), at, fault }
}

/// So many bytes from a place on; nothing where they are not all there.
fn part(bytes: &[u8], from: u64, length: u64) -> &[u8] {
    bytes.get(from as usize..).and_then(|rest| rest.get(..length as usize)).unwrap_or_default()
}

/// A name as text.
fn text(name: &[u8]) -> String {
    String::from_utf8_lossy(name).into_owned()
}

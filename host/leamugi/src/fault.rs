//! What is wrong with bytes that were refused as a BTF, in words. For people: the library has refused them before, and nothing
//! is decided here. It is a second reader, and no proved one: `agreement` holds it to the library's answers.
use core::{fmt, iter};

#[cfg(test)]
mod agreement;

/// What is wrong with a BTF at the place of its first fault (docs/SCOPE.md, section 4).
#[derive(Clone, Copy, Debug, PartialEq, Eq, Hash)]
#[non_exhaustive]
pub enum Fault {
    /// There are fewer bytes than a header has.
    ShortHeader {
        /// How many there are.
        bytes: usize,
    },
    /// The first two bytes are another number than 0xeb9f.
    Magic {
        /// That number.
        found: u16,
    },
    /// The version is not 1.
    Version {
        /// The version.
        found: u8,
    },
    /// The header has flags.
    Flags {
        /// The flags.
        found: u8,
    },
    /// The header says that it has fewer than 24 bytes.
    HeaderLength {
        /// How many it says.
        found: u32,
    },
    /// The types do not lie inside the bytes.
    TypesOutside {
        /// Where they end.
        end: u64,
    },
    /// The strings do not lie inside the bytes.
    StringsOutside {
        /// Where they end.
        end: u64,
    },
    /// The strings are empty, do not begin with a zero or do not end with one.
    Strings,
    /// The type or what it lists runs past the types' end.
    Cut,
    /// The type's kind is 0 or above 19.
    Kind {
        /// The kind.
        found: u32,
    },
    /// An INT has more than one encoding, or an unknown one.
    Encoding {
        /// Its four bits.
        found: u32,
    },
    /// A name of the type or of what it lists lies outside the strings.
    Name {
        /// The name's offset.
        offset: u32,
    },
    /// A type id in it is above the last.
    Id {
        /// That id.
        found: u32,
        /// The last id.
        last: u32,
    },
    /// Refused by the library; what is wrong was not found again.
    Unknown,
}

impl fmt::Display for Fault {
    fn fmt(&self, f: &mut fmt::Formatter<'_>) -> fmt::Result {
        match self {
            Fault::ShortHeader { bytes } => write!(f, "{bytes} bytes are fewer than a header's 24"),
            Fault::Magic { found: 0x9feb } => write!(f, "its magic number is that of a big-endian BTF"),
            Fault::Magic { found } => write!(f, "its magic number is {found:#06x} and not 0xeb9f"),
            Fault::Version { found } => write!(f, "its version is {found} and not 1"),
            Fault::Flags { found } => write!(f, "its header's flags are {found:#x} and not 0"),
            Fault::HeaderLength { found } => write!(f, "its header says that it has {found} bytes, and there are at least 24"),
            Fault::TypesOutside { end } => write!(f, "its types would end at byte {end}, past its own end"),
            Fault::StringsOutside { end } => write!(f, "its strings would end at byte {end}, past its own end"),
            Fault::Strings => write!(f, "its strings do not begin and end with a zero byte"),
            Fault::Cut => write!(f, "it runs past the end of the types"),
            Fault::Kind { found } => write!(f, "there is no kind {found}"),
            Fault::Encoding { found } => write!(f, "an integer's encoding is none, 1 (signed), 2 (char) or 4 (bool), and not {found}"),
            Fault::Name { offset } => write!(f, "a name at offset {offset} lies outside the strings"),
            Fault::Id { found, last } => write!(f, "it refers to type id {found}, and the last is {last}"),
            Fault::Unknown => write!(f, "it is not as the format says"),
        }
    }
}

/// A first fault: the type with it (0 for header and strings), where that begins, its name, and what is wrong.
#[derive(Debug, PartialEq, Eq)]
pub(crate) struct Found<'a> {
    pub id: u32,
    pub at: usize,
    pub name: &'a [u8],
    pub fault: Fault,
}

/// The first fault of bytes within the limits of docs/SCOPE.md, in the order of its section 3; `None` where they are a BTF.
pub(crate) fn first(bytes: &[u8]) -> Option<Found<'_>> {
    let sections = match Sections::of(bytes) {
        Ok(sections) => sections,
        Err(fault) => return Some(Found { id: 0, at: 0, name: &[], fault }),
    };
    let last = sections.places().count() as u32;
    let cut = sections.first(|at| sections.own_fault(at));
    cut.or_else(|| sections.first(|at| sections.unfit(at, last)))
}

/// Four bytes as a number; 0 where they are not all there.
pub(crate) fn word(bytes: &[u8], at: usize) -> u32 {
    bytes.get(at..at + 4).map_or(0, |four| u32::from_le_bytes(four.try_into().expect("four bytes")))
}

/// The bytes from an offset on, up to a zero; none past the end.
pub(crate) fn up_to_zero(bytes: &[u8], offset: u32) -> &[u8] {
    let rest = bytes.get(offset as usize..).unwrap_or_default();
    rest.split(|byte| *byte == 0).next().unwrap_or_default()
}

/// The bytes behind a type's twelve: those that come once, and those of each entry; `None` for what is no kind.
fn tail(kind: u32) -> Option<(usize, usize)> {
    match kind {
        1 | 14 | 17 => Some((4, 0)),
        3 => Some((12, 0)),
        4 | 5 | 15 | 19 => Some((0, 12)),
        6 | 13 => Some((0, 8)),
        2 | 7..=12 | 16 | 18 => Some((0, 0)),
        _ => None,
    }
}

/// Which words of a type of a kind are type ids, but for those of what it lists.
fn own_ids(kind: u32) -> &'static [usize] {
    match kind {
        2 | 8..=14 | 17 | 18 => &[8],
        3 => &[12, 16],
        _ => &[],
    }
}

/// Where in an entry of a kind the name's offset stands, and where the type id.
fn in_entry(kind: u32) -> (Option<usize>, Option<usize>) {
    match kind {
        4 | 5 | 13 => (Some(0), Some(4)),
        6 | 19 => (Some(0), None),
        15 => (None, Some(0)),
        _ => (None, None),
    }
}

struct Sections<'a> {
    /// Where the types begin.
    start: usize,
    types: &'a [u8],
    strings: &'a [u8],
}

impl<'a> Sections<'a> {
    /// Where a header says that they lie, or what is wrong with it or with the strings.
    fn of(bytes: &'a [u8]) -> Result<Sections<'a>, Fault> {
        if bytes.len() < 24 {
            return Err(Fault::ShortHeader { bytes: bytes.len() });
        }
        let header = |at: usize| u64::from(word(bytes, at));
        let (magic, length) = (u16::from_le_bytes([bytes[0], bytes[1]]), word(bytes, 4));
        let (types, strings) = (header(4) + header(8), header(4) + header(16));
        let (types_end, strings_end) = (types + header(12), strings + header(20));
        let size = bytes.len() as u64;
        let faults = [
            (magic != 0xeb9f, Fault::Magic { found: magic }),
            (bytes[2] != 1, Fault::Version { found: bytes[2] }),
            (bytes[3] != 0, Fault::Flags { found: bytes[3] }),
            (length < 24, Fault::HeaderLength { found: length }),
            (types_end > size, Fault::TypesOutside { end: types_end }),
            (strings_end > size, Fault::StringsOutside { end: strings_end }),
        ];
        if let Some((_, fault)) = faults.into_iter().find(|(so, _)| *so) {
            return Err(fault);
        }
        let strings = &bytes[strings as usize..strings_end as usize];
        if strings.first() != Some(&0) || strings.last() != Some(&0) {
            return Err(Fault::Strings);
        }
        Ok(Sections { start: types as usize, types: &bytes[types as usize..types_end as usize], strings })
    }

    fn kind(&self, at: usize) -> u32 {
        word(self.types, at + 4) >> 24 & 31
    }

    fn entries(&self, at: usize) -> usize {
        word(self.types, at + 4) as usize & 0xffff
    }

    /// Where the type after the one at a place begins.
    fn after(&self, at: usize) -> Option<usize> {
        let (once, each) = tail(self.kind(at))?;
        Some(at + 12 + once + each * self.entries(at)).filter(|end| *end <= self.types.len())
    }

    /// Where each type begins, up to one that does not end.
    fn places(&self) -> impl Iterator<Item = usize> + '_ {
        let begins = iter::successors(Some(0), |at| self.after(*at));
        begins.take_while(|at| *at < self.types.len())
    }

    /// The first type with a fault of a sort.
    fn first(&self, fault: impl Fn(usize) -> Option<Fault>) -> Option<Found<'a>> {
        let mut found = self.places().zip(1..).filter_map(|(at, id)| Some((at, id, fault(at)?)));
        let (at, id, fault) = found.next()?;
        Some(Found { id, at: self.start + at, name: up_to_zero(self.strings, word(self.types, at)), fault })
    }

    /// What is wrong with a type by itself.
    fn own_fault(&self, at: usize) -> Option<Fault> {
        let (kind, encoding) = (self.kind(at), word(self.types, at + 12) >> 24 & 15);
        if self.types.len() - at < 12 {
            Some(Fault::Cut)
        } else if tail(kind).is_none() {
            Some(Fault::Kind { found: kind })
        } else if self.after(at).is_none() {
            Some(Fault::Cut)
        } else if kind == 1 && ![0, 1, 2, 4].contains(&encoding) {
            Some(Fault::Encoding { found: encoding })
        } else {
            None
        }
    }

    /// The first name outside the strings, else the first id above the last.
    fn unfit(&self, at: usize, last: u32) -> Option<Fault> {
        let kind = self.kind(at);
        let (name, id) = in_entry(kind);
        let mut names = iter::once(at).chain(self.listed(at, name)).map(|at| word(self.types, at));
        let mut ids = own_ids(kind).iter().map(|by| at + by).chain(self.listed(at, id)).map(|at| word(self.types, at));
        let name = names.find(|offset| *offset as usize >= self.strings.len()).map(|offset| Fault::Name { offset });
        name.or_else(|| ids.find(|id| *id > last).map(|found| Fault::Id { found, last }))
    }

    /// Where the same word of each entry stands.
    fn listed(&self, at: usize, by: Option<usize>) -> impl Iterator<Item = usize> {
        let (each, entries) = (tail(self.kind(at)).map_or(0, |(_, each)| each), self.entries(at));
        by.into_iter().flat_map(move |by| (0..entries).map(move |k| at + 12 + each * k + by))
    }
}

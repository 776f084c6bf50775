//! A second reader of document 01 section 4, written from that section and the kernel's BTF document.
//!
//! The crate accepts other BTFs than section 4 does, so the crate is asked only about BTFs that this reader accepts.

use crate::case::word;

const MAX_BYTES: usize = 16_777_216;
const MAX_TYPES: u32 = 1_048_575;
const HEADER: usize = 24;
const TYPE: usize = 12;

/// Refusal 1 with the id of the first fault, or refusal 2.
#[derive(Clone, Copy, Debug, PartialEq, Eq)]
pub enum Fault {
    Bad(u32),
    Limit,
}

/// What is known of an accepted BTF.
#[derive(Clone, Debug, Default)]
pub struct Accepted {
    pub types: u32,
    /// whether each name is UTF-8
    pub utf8: bool,
    /// where the linkage word of a VAR lies that the crate cannot hold
    pub linkages: Vec<usize>,
}

/// A type's place in the bytes.
pub struct Place {
    pub at: usize,
    pub kind: u32,
    pub count: usize,
}

/// Bytes after a type's first twelve, by kind and list length.
fn tail(kind: u32, count: usize) -> Option<usize> {
    Some(match kind {
        1 | 14 | 17 => 4,
        3 => 12,
        4 | 5 | 15 | 19 => 12 * count,
        6 | 13 => 8 * count,
        2 | 7..=12 | 16 | 18 => 0,
        _ => return None,
    })
}

/// A section's bytes, by its offset and length in the header.
fn section(bytes: &[u8], at: usize) -> Option<(usize, usize)> {
    let start = u64::from(word(bytes, 4)) + u64::from(word(bytes, at));
    let end = start + u64::from(word(bytes, at + 4));
    (end <= bytes.len() as u64).then_some((start as usize, end as usize))
}

/// The bounds of types and strings, if the header is good.
fn header(bytes: &[u8]) -> Option<((usize, usize), (usize, usize))> {
    let good = bytes.len() >= HEADER && bytes[..4] == [0x9f, 0xeb, 1, 0] && word(bytes, 4) as usize >= HEADER;
    if !good {
        return None;
    }
    Some((section(bytes, 8)?, section(bytes, 16)?))
}

pub fn read(bytes: &[u8]) -> Result<Accepted, Fault> {
    if bytes.len() > MAX_BYTES {
        return Err(Fault::Limit);
    }
    let (types, strings) = header(bytes).ok_or(Fault::Bad(0))?;
    let strings = &bytes[strings.0..strings.1];
    if strings.first() != Some(&0) || strings.last() != Some(&0) {
        return Err(Fault::Bad(0));
    }
    let entries = entries(bytes, types)?;
    let mut found = Accepted { types: entries.len() as u32, utf8: true, linkages: Vec::new() };
    for (entry, id) in entries.iter().zip(1..) {
        references(bytes, strings, entry, &mut found).ok_or(Fault::Bad(id))?;
    }
    Ok(found)
}

/// The types' places and the strings of a BTF that is accepted.
pub fn places(bytes: &[u8]) -> Option<(Vec<Place>, &[u8])> {
    read(bytes).ok()?;
    let (types, strings) = header(bytes)?;
    Some((entries(bytes, types).ok()?, &bytes[strings.0..strings.1]))
}

/// Each type in turn, until the section is filled.
fn entries(bytes: &[u8], (start, end): (usize, usize)) -> Result<Vec<Place>, Fault> {
    let mut entries = Vec::new();
    let mut at = start;
    while at < end {
        let id = entries.len() as u32 + 1;
        if id > MAX_TYPES {
            return Err(Fault::Limit);
        }
        let entry = entry(bytes, at, end).ok_or(Fault::Bad(id))?;
        at += TYPE + tail(entry.kind, entry.count).expect("a known kind");
        entries.push(entry);
    }
    Ok(entries)
}

fn entry(bytes: &[u8], at: usize, end: usize) -> Option<Place> {
    if end - at < TYPE {
        return None;
    }
    let info = word(bytes, at + 4);
    let (kind, count) = (info >> 24 & 31, (info & 0xffff) as usize);
    if end - at - TYPE < tail(kind, count)? {
        return None;
    }
    let encoded = kind == 1 && !is_encoding(word(bytes, at + TYPE));
    (!encoded).then_some(Place { at, kind, count })
}

/// At most one of bits 24, 25 and 26, and bit 27 is 0.
fn is_encoding(extra: u32) -> bool {
    (extra >> 24 & 7).count_ones() <= 1 && extra >> 27 & 1 == 0
}

/// Names and type ids of one type.
fn references(bytes: &[u8], strings: &[u8], entry: &Place, found: &mut Accepted) -> Option<()> {
    let at = |i: usize| word(bytes, entry.at + TYPE + i);
    let third = word(bytes, entry.at + 8);
    let mut names = vec![word(bytes, entry.at)];
    let mut ids = Vec::new();
    match entry.kind {
        2 | 8..=12 | 17 | 18 => ids.push(third),
        3 => ids.extend([at(0), at(4)]),
        4 | 5 => (0..entry.count).for_each(|i| {
            names.push(at(12 * i));
            ids.push(at(12 * i + 4));
        }),
        6 => names.extend((0..entry.count).map(|i| at(8 * i))),
        13 => {
            ids.push(third);
            names.extend((0..entry.count).map(|i| at(8 * i)));
            ids.extend((0..entry.count).map(|i| at(8 * i + 4)));
        }
        14 => {
            ids.push(third);
            found.linkages.extend((at(0) > 3).then_some(entry.at + TYPE));
        }
        15 => ids.extend((0..entry.count).map(|i| at(12 * i))),
        19 => names.extend((0..entry.count).map(|i| at(12 * i))),
        _ => {}
    }
    for name in names {
        let name = strings.get(name as usize..).filter(|n| !n.is_empty())?;
        found.utf8 &= str::from_utf8(name.split(|&b| b == 0).next()?).is_ok();
    }
    ids.iter().all(|&id| id <= found.types).then_some(())
}

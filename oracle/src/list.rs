//! Many cases in one file, with or without their blocks. README.md tells the format.

use crate::{
    case::{Case, word},
    section4,
};

pub const MAGIC: &[u8; 8] = b"LEALIST1";
/// Bytes of the file's header, and of each entry's.
pub const HEAD: usize = 32;
pub const ENTRY: usize = 32;
/// The most that an entry's four byte strings have together, its block, one BTF, and the types of one BTF.
pub const MAX_CASE: usize = 4_096;
pub const MAX_BLOCK: usize = 512;
pub const MAX_BTF: usize = 2_048;
pub const MAX_TYPES: u32 = 127;

/// Who gave the blocks.
pub const NO_BLOCKS: u32 = 0;
pub const BY_CRATE: u32 = 1;
pub const BY_DOCUMENT: u32 = 2;

/// Where an entry comes from: its maker in the high byte, its number there below.
pub const SECTION8: u32 = 1 << 24;
pub const HAND: u32 = 2 << 24;
pub const READING: u32 = 3 << 24;
pub const DIFFERENCE: u32 = 4 << 24;
pub const MADE: u32 = 5 << 24;

pub struct Entry {
    pub origin: u32,
    pub case: Case,
    /// the block without its first line
    pub block: String,
}

impl Entry {
    pub fn fits(&self) -> bool {
        let small = |btf: &Vec<u8>| btf.len() <= MAX_BTF && section4::read(btf).map_or(true, |a| a.types <= MAX_TYPES);
        let btfs = small(&self.case.local) && small(&self.case.target);
        btfs && self.case.size() <= MAX_CASE && self.block.len() <= MAX_BLOCK
    }

    pub fn pack(&self, out: &mut Vec<u8>) {
        let parts = self.case.parts();
        let words = parts.map(|p| p.len() as u32);
        let section = [self.case.section as u32, (self.case.section >> 32) as u32];
        let last = [self.block.len() as u32, self.origin];
        words.iter().chain(&section).chain(&last).for_each(|w| out.extend(w.to_le_bytes()));
        parts.iter().for_each(|p| out.extend(*p));
        out.extend(self.block.as_bytes());
    }
}

/// The header of a file of so many entries.
pub fn head(count: u32, by: u32) -> Vec<u8> {
    let words = [count, MAX_CASE as u32, MAX_BLOCK as u32, by, MAX_BTF as u32, MAX_TYPES];
    MAGIC.iter().copied().chain(words.iter().flat_map(|w| w.to_le_bytes())).collect()
}

pub fn pack(entries: &[Entry], by: u32) -> Vec<u8> {
    let mut out = head(entries.len() as u32, by);
    entries.iter().for_each(|e| e.pack(&mut out));
    out
}

/// The entries of a file, or nothing if it is not of this form.
pub fn unpack(bytes: &[u8]) -> Option<Vec<Entry>> {
    if bytes.len() < HEAD || bytes[..8] != *MAGIC {
        return None;
    }
    let mut rest = &bytes[HEAD..];
    let mut entries = Vec::new();
    for _ in 0..word(bytes, 8) {
        let (head, after) = rest.split_at_checked(ENTRY)?;
        rest = after;
        let mut part = |at| {
            let (part, after) = rest.split_at_checked(word(head, at) as usize)?;
            rest = after;
            Some(part.to_vec())
        };
        let (local, target, insns, records) = (part(0)?, part(4)?, part(8)?, part(12)?);
        let block = String::from_utf8(part(24)?).ok()?;
        let section = u64::from(word(head, 16)) | u64::from(word(head, 20)) << 32;
        entries.push(Entry { origin: word(head, 28), case: Case { local, target, insns, records, section }, block });
    }
    rest.is_empty().then_some(entries)
}

//! A case: one run's input, as design/CASES.md packs it.

pub const MAGIC: &[u8; 8] = b"LEACASE1";
const HEAD: usize = 32;

#[derive(Clone, Debug, Default, PartialEq, Eq)]
pub struct Case {
    pub local: Vec<u8>,
    pub target: Vec<u8>,
    pub insns: Vec<u8>,
    pub records: Vec<u8>,
    pub section: u64,
}

pub fn word(bytes: &[u8], at: usize) -> u32 {
    u32::from_le_bytes(bytes[at..at + 4].try_into().expect("four bytes"))
}

impl Case {
    /// The case in a file's bytes; nothing may follow it.
    pub fn unpack(bytes: &[u8]) -> Option<Self> {
        if bytes.len() < HEAD || bytes[..8] != *MAGIC {
            return None;
        }
        let mut rest = &bytes[HEAD..];
        let mut part = |at| {
            let (part, after) = rest.split_at_checked(word(bytes, at) as usize)?;
            rest = after;
            Some(part.to_vec())
        };
        let (local, target, insns, records) = (part(8)?, part(12)?, part(16)?, part(20)?);
        let section = u64::from_le_bytes(bytes[24..HEAD].try_into().expect("eight bytes"));
        rest.is_empty().then_some(Self { local, target, insns, records, section })
    }

    pub fn pack(&self) -> Vec<u8> {
        let mut out = MAGIC.to_vec();
        for part in self.parts() {
            out.extend((part.len() as u32).to_le_bytes());
        }
        out.extend(self.section.to_le_bytes());
        self.parts().iter().for_each(|part| out.extend(*part));
        out
    }

    pub fn parts(&self) -> [&[u8]; 4] {
        [&self.local, &self.target, &self.insns, &self.records]
    }

    /// The four byte strings' length together.
    pub fn size(&self) -> usize {
        self.parts().iter().map(|p| p.len()).sum()
    }
}

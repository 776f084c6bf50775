//! A BTF put together type by type.

/// Types and strings; a string is kept once.
#[derive(Clone, Debug)]
pub struct Btf {
    pub strings: Vec<u8>,
    pub types: Vec<Vec<u8>>,
}

impl Default for Btf {
    fn default() -> Self {
        Self { strings: vec![0], types: Vec::new() }
    }
}

impl Btf {
    /// A name's offset; 0 for the empty one.
    pub fn name(&mut self, text: &str) -> u32 {
        if text.is_empty() {
            return 0;
        }
        let wanted = [&[0], text.as_bytes(), &[0]].concat();
        if let Some(at) = self.strings.windows(wanted.len()).position(|w| w == wanted) {
            return at as u32 + 1;
        }
        self.strings.extend(&wanted[1..]);
        (self.strings.len() - text.len() - 1) as u32
    }

    /// A type's id: kind, name, third word, list length, kind flag, the words that follow.
    pub fn add(&mut self, kind: u32, name: &str, third: u32, count: usize, flag: bool, words: &[u32]) -> u32 {
        let info = u32::from(flag) << 31 | kind << 24 | count as u32;
        let head = [self.name(name), info, third];
        let words = head.iter().chain(words);
        self.types.push(words.flat_map(|w| w.to_le_bytes()).collect());
        self.types.len() as u32
    }

    /// Header, types, strings.
    pub fn bytes(&self) -> Vec<u8> {
        self.laid_out(24, 0, false)
    }

    /// A header of so many bytes, the two sections with a gap between them, the strings first or last.
    pub fn laid_out(&self, header: u32, gap: u32, strings_first: bool) -> Vec<u8> {
        let types = self.types.concat();
        let (t, s) = (types.len() as u32, self.strings.len() as u32);
        let (type_at, string_at) = if strings_first { (s + gap, 0) } else { (0, t + gap) };
        let words = [0x0001_eb9f, header, type_at, t, string_at, s];
        let mut out: Vec<u8> = words.iter().flat_map(|w: &u32| w.to_le_bytes()).collect();
        out.resize(header as usize, 0xee);
        let (first, last) = if strings_first { (&self.strings, &types) } else { (&types, &self.strings) };
        out.extend(first);
        out.resize(out.len() + gap as usize, 0xee);
        out.extend(last);
        out
    }
}

/// A record's 16 bytes.
pub fn record(offset: u32, type_id: u32, access: u32, kind: u32) -> Vec<u8> {
    [offset, type_id, access, kind].iter().flat_map(|w| w.to_le_bytes()).collect()
}

//! What several tests need.
#![allow(dead_code, reason = "not every test needs each")]

/// A file of the demo.
pub fn demo(name: &str) -> Vec<u8> {
    std::fs::read(format!("{}/demo/{name}", env!("CARGO_MANIFEST_DIR"))).expect("a file of the demo")
}

/// A BTF of these words as types, and these strings.
pub fn btf(types: &[u32], strings: &[u8]) -> Vec<u8> {
    let (types_size, strings_size) = (4 * types.len() as u32, strings.len() as u32);
    let header = [24, 0, types_size, types_size, strings_size];
    let words = header.iter().chain(types).flat_map(|word| word.to_le_bytes());
    [0x9f, 0xeb, 1, 0].into_iter().chain(words).chain(strings.iter().copied()).collect()
}

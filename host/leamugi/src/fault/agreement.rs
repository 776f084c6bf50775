//! The second reader beside the library: both must find the first fault of the same bytes at the same type, or both none.
use super::{first, Fault};
use crate::ffi;
use std::path::PathBuf;
use std::vec::Vec;
use std::{eprintln, format, fs, vec};

/// A file of the repository.
fn path(name: &str) -> PathBuf {
    PathBuf::from(format!("{}/{name}", env!("CARGO_MANIFEST_DIR")))
}

/// Holds both to each other on the same bytes, within the limits; whether they are refused.
fn agree(bytes: &[u8], table: &mut [u32], what: &str) -> bool {
    let said = ffi::read(bytes, table);
    let library = match said.number {
        0 => None,
        1 => Some(said.numbers[0] as u32),
        other => panic!("{what}: {other} is no answer within the limits"),
    };
    let found = first(bytes);
    assert_eq!(found.as_ref().map(|found| found.id), library, "{what}: {found:?}");
    assert_ne!(found.map(|found| found.fault), Some(Fault::Unknown), "{what}");
    library.is_some()
}

/// A table that no BTF of so many bytes is too long for.
fn table_for(bytes: &[u8]) -> Vec<u32> {
    vec![0; bytes.len() / 12 + 2]
}

/// The bytes with one of them set to each of some values in turn; how many are refused.
fn set(bytes: &mut [u8], table: &mut [u32], at: usize, values: impl IntoIterator<Item = u8>) -> usize {
    let was = bytes[at];
    let mut refused = 0;
    for value in values {
        bytes[at] = value;
        refused += usize::from(agree(bytes, table, &format!("byte {at} is {value} and was {was}")));
    }
    bytes[at] = was;
    refused
}

/// Values that are likely to matter in place of one: each bit turned, one more and one less, the ends of the range.
fn near(was: u8) -> Vec<u8> {
    let turned = (0..8).map(|bit| was ^ 1 << bit);
    turned.chain([0, 1, 19, 20, 31, 0x7f, 0x80, 0xff, was.wrapping_add(1), was.wrapping_sub(1)]).collect()
}

/// A BTF with types of every kind, some with a list and some without, whose ids and names are all in range by little.
fn of_every_kind() -> Vec<u8> {
    let types: &[&[u32]] = &[
        &[1, 1 << 24, 4, 0x0100_0020],             // 1: INT
        &[0, 2 << 24, 20],                         // 2: PTR
        &[0, 3 << 24, 0, 20, 1, 3],                // 3: ARRAY
        &[1, 4 << 24 | 2, 8, 0, 20, 0, 2, 1, 32],  // 4: STRUCT
        &[1, 5 << 24 | 1 << 31 | 1, 8, 2, 20, 8],  // 5: UNION
        &[1, 6 << 24 | 2, 4, 2, 0, 1, 9],          // 6: ENUM
        &[2, 7 << 24, 0],                          // 7: FWD
        &[2, 8 << 24, 20],                         // 8: TYPEDEF
        &[0, 9 << 24, 20],                         // 9: VOLATILE
        &[0, 10 << 24, 20],                        // 10: CONST
        &[0, 11 << 24, 20],                        // 11: RESTRICT
        &[1, 12 << 24 | 1, 13],                    // 12: FUNC
        &[0, 13 << 24 | 2, 20, 2, 20, 0, 0],       // 13: FUNC_PROTO
        &[1, 14 << 24, 20, 1],                     // 14: VAR
        &[1, 15 << 24 | 2, 8, 14, 0, 4, 20, 4, 4], // 15: DATASEC
        &[2, 16 << 24, 8],                         // 16: FLOAT
        &[2, 17 << 24, 20, 0],                     // 17: DECL_TAG
        &[2, 18 << 24, 20],                        // 18: TYPE_TAG
        &[1, 19 << 24 | 1, 8, 2, 1, 0],            // 19: ENUM64
        &[0, 1 << 24, 1, 8],                       // 20: INT
    ];
    let words = types.concat();
    let (size, strings) = (4 * words.len() as u32, b"\0a\0b\0");
    let header = [24, 0, size, size, strings.len() as u32];
    let bytes = header.iter().chain(&words).flat_map(|word: &u32| word.to_le_bytes());
    [0x9f, 0xeb, 1, 0].into_iter().chain(bytes).chain(strings.iter().copied()).collect()
}

#[test]
fn every_byte_of_every_kind_set_to_everything() {
    let mut bytes = of_every_kind();
    let mut table = table_for(&bytes);
    assert!(!agree(&bytes, &mut table, "as made"));
    let refused: usize = (0..bytes.len()).map(|at| set(&mut bytes, &mut table, at, 0..=255)).sum();
    assert!(refused > 10_000, "{refused} were refused");
}

/// Two bytes at once: the first of two faults is found, and a fault behind one that moves everything.
#[test]
fn two_bytes_at_once() {
    let mut bytes = of_every_kind();
    let mut table = table_for(&bytes);
    for at in 24..bytes.len() {
        let was = bytes[at];
        for value in near(was) {
            bytes[at] = value;
            let other = 24 + (at * 7919 + usize::from(value) * 104_729) % (bytes.len() - 24);
            if other != at {
                set(&mut bytes, &mut table, other, [0, 1, 20, 0x80, 0xff]);
            }
        }
        bytes[at] = was;
    }
}

#[test]
fn the_demo_damaged() {
    for name in ["demo/local.btf", "demo/target.btf"] {
        let mut bytes = fs::read(path(name)).expect("a file of the demo");
        let mut table = table_for(&bytes);
        for at in 0..bytes.len() {
            let values = near(bytes[at]);
            set(&mut bytes, &mut table, at, values);
        }
        for length in 0..bytes.len() {
            assert!(agree(&bytes[..length], &mut table, &format!("{name}, {length} bytes")));
        }
    }
}

/// The running kernel's BTF where it shows one, and those that `tests/kernels` has got.
fn kernels() -> Vec<PathBuf> {
    let kept = fs::read_dir(path("../../target/kernels/btf")).into_iter().flatten().flatten().map(|entry| entry.path());
    let mut paths: Vec<PathBuf> = kept.filter(|path| path.extension().is_some_and(|end| end == "btf")).collect();
    paths.push(PathBuf::from("/sys/kernel/btf/vmlinux"));
    paths
}

/// Whether the library takes so many bytes and types.
fn within_the_limits(bytes: &[u8], table: &mut [u32]) -> bool {
    ffi::read(bytes, table).number != 2
}

/// All of the header, and so many places of types and strings: fewer where the second reader is not optimised, and slow.
const PLACES: usize = if cfg!(debug_assertions) { 5 } else { 100 };

#[test]
fn kernels_damaged() {
    for path in kernels() {
        let Ok(mut bytes) = fs::read(&path) else { continue };
        let mut table = table_for(&bytes);
        if !within_the_limits(&bytes, &mut table) {
            eprintln!("{}: over a limit, left out", path.display());
            continue;
        }
        agree(&bytes, &mut table, "as it is");
        let spread = (0..PLACES).map(|k| 24 + k * (bytes.len() - 25) / PLACES + k % 4);
        let places: Vec<usize> = (0..24).chain(spread).chain([bytes.len() - 1]).collect();
        let refused: usize = places.into_iter().map(|at| set(&mut bytes, &mut table, at, [0, 20, 0xff])).sum();
        eprintln!("{}: {refused} damaged ones refused", path.display());
    }
}

//! Cases on both sides of section 2's limits of a BTF and of a function: too long for a list.

use crate::{
    case::Case,
    made::bytes::{Btf, record},
    reading::Told,
};

const MAX_BYTES: usize = 16_777_216;
const MAX_TYPES: usize = 1_048_575;
const MAX_INSNS: usize = 4_096;
const MOV: [u8; 8] = [0xb7, 1, 0, 0, 4, 0, 0, 0];

/// An int and then forward declarations, so many types in all; `last` bytes of a further one.
fn types(count: usize, last: usize) -> Vec<u8> {
    let mut b = Btf::default();
    b.plain("int", 4);
    let forward = b.refer(7, "", 0) as usize;
    let forward = b.types[forward - 1].clone();
    b.types.resize(count, forward.clone());
    b.types.push(forward[..last].to_vec());
    b.bytes()
}

fn bytes(length: usize) -> Vec<u8> {
    let mut bytes = types(1, 0);
    bytes.resize(length, 0xee);
    bytes
}

pub fn cases() -> Vec<Told> {
    let told = |name: &str, local: &[u8], target: &[u8], insns: usize, outcome: &str| {
        let at = 8 * (insns as u32 - 1);
        let case =
            Case { local: local.to_vec(), target: target.to_vec(), insns: MOV.repeat(insns), records: record(at, 0, 0, 6), section: 0 };
        Told { name: name.to_string(), case, outcome: outcome.to_string() }
    };
    let small = types(1, 0);
    let (most, over) = (types(MAX_TYPES, 0), types(MAX_TYPES + 1, 0));
    let accepted = "outcome=7 record=0 applied=0";
    vec![
        told("bytes-most", &bytes(MAX_BYTES), &bytes(MAX_BYTES), 1, accepted),
        told("bytes-over-local", &bytes(MAX_BYTES + 1), &small, 1, "outcome=2 btf=local applied=0"),
        told("bytes-over-target", &small, &bytes(MAX_BYTES + 1), 1, "outcome=2 btf=target applied=0"),
        told("types-most", &most, &most, 1, accepted),
        told("types-over-local", &over, &small, 1, "outcome=2 btf=local applied=0"),
        told("types-over-target", &small, &over, 1, "outcome=2 btf=target applied=0"),
        told("types-most-and-1-byte", &types(MAX_TYPES, 1), &small, 1, "outcome=2 btf=local applied=0"),
        told("types-most-and-11-bytes", &small, &types(MAX_TYPES, 11), 1, "outcome=2 btf=target applied=0"),
        told("types-less-and-11-bytes", &types(MAX_TYPES - 1, 11), &small, 1, "outcome=1 btf=local id=1048575 applied=0"),
        told("insns-most", &small, &small, MAX_INSNS, accepted),
        told("insns-over", &small, &small, MAX_INSNS + 1, "outcome=18 applied=0"),
    ]
}

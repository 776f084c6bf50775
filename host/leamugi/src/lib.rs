//! CO-RE relocation of one function's eBPF instructions, by a library whose every function is proved.
//!
//! Read a target once, relocate many functions against it:
//!
//! ```
//! use leamugi::{Btf, Which};
//!
//! # fn main() -> Result<(), Box<dyn std::error::Error>> {
//! # let root = concat!(env!("CARGO_MANIFEST_DIR"), "/demo/");
//! let local = Btf::parse(std::fs::read(format!("{root}local.btf"))?).map_err(|why| why.of(Which::Local))?;
//! let target = Btf::parse(std::fs::read(format!("{root}target.btf"))?).map_err(|why| why.of(Which::Target))?;
//! let mut insns = std::fs::read(format!("{root}insns.bin"))?;
//! let records = std::fs::read(format!("{root}records.bin"))?;
//! let applied = leamugi::relocate(&local, &target, &mut insns, 0, &records)?;
//! assert_eq!(applied, 6);
//! # Ok(())
//! # }
//! ```
//!
//! A refusal says what and where:
//!
//! ```
//! let refused = leamugi::Btf::parse([0; 24]).unwrap_err();
//! assert_eq!(refused.number(), 1);
//! assert_eq!(refused.to_string(), "bad BTF: its magic number is 0x0000 and not 0xeb9f");
//! ```
//!
//! Every call ends, but the time that one takes has no small bound: a search goes through unnamed structs and unions within one
//! another, up to 32 levels, and the work can double with each. A loader that takes targets from strangers bounds the time itself.
//!
//! The rules, the numbers of refusals and what a refusal leaves are those of docs/SCOPE.md in the repository.
//!
//! The crate needs `alloc` and no more of the standard library.
#![no_std]
#![deny(missing_docs)]

extern crate alloc;
#[cfg(test)]
extern crate std;

mod btf;
mod fault;
mod ffi;
mod record;
mod refusal;
mod types;

pub use btf::Btf;
pub use fault::Fault;
pub use record::{Record, RecordKind};
pub use refusal::{BtfRefusal, Reason, Refused, Which, Why};
pub use types::{Detail, Encoding, Entry, Kind, Linkage, Type};

use alloc::string::String;
use alloc::vec;

/// Applies CO-RE records to one function's instructions, in order, up to the first refusal; gives how many were applied.
///
/// `section_offset` is where the function begins in its section; a record is 16 bytes, four little-endian numbers:
/// instruction offset in the section, type id, access string offset, kind ([`Record`]).
///
/// # Errors
///
/// The first refused record, or bytes of a wrong shape. What was applied before stays; what the refused record leaves is
/// fixed (docs/SCOPE.md, sections 3 and 7).
pub fn relocate(
    local: &Btf<impl AsRef<[u8]>>,
    target: &Btf<impl AsRef<[u8]>>,
    insns: &mut [u8],
    section_offset: u64,
    records: &[u8],
) -> Result<u64, Refused> {
    let said = ffi::relocate(&local.lent(), &target.lent(), insns, section_offset, records);
    ended(local, target, records, &said)
}

/// The same, with the report of docs/SCOPE.md, section 9: four lines for each record up to and including the first refused.
pub fn relocate_reported(
    local: &Btf<impl AsRef<[u8]>>,
    target: &Btf<impl AsRef<[u8]>>,
    insns: &mut [u8],
    section_offset: u64,
    records: &[u8],
) -> (Result<u64, Refused>, String) {
    // A record's lines take at most 81 bytes: `record=`, `answer=`, `insn=`, `value=`, two numbers of 20 digits.
    let mut out = vec![0; records.len() / Record::SIZE * 96];
    let said = ffi::relocate_reported(&local.lent(), &target.lent(), insns, section_offset, records, &mut out);
    out.truncate(said.numbers[3] as usize);
    (ended(local, target, records, &said), String::from_utf8_lossy(&out).into_owned())
}

/// A BTF without types and with the empty string alone.
const EMPTY: [u8; 25] = [0x9f, 0xeb, 1, 0, 24, 0, 0, 0, 0, 0, 0, 0, 0, 0, 0, 0, 0, 0, 0, 0, 1, 0, 0, 0, 0];

/// Whether instructions, section offset and records have the shape that a call wants: the first thing that it looks at.
///
/// # Errors
///
/// [`Refused::Misshapen`] where they have not.
pub fn check_shape(insns: &[u8], section_offset: u64, records: &[u8]) -> Result<(), Refused> {
    // The library is asked, on a copy: over no types it patches nothing but may refuse the first record.
    let empty = Btf::parse(EMPTY).map_err(|why| why.of(Which::Local))?;
    match relocate(&empty, &empty, &mut insns.to_vec(), section_offset, records) {
        Err(Refused::Misshapen) => Err(Refused::Misshapen),
        _ => Ok(()),
    }
}

/// The two BTFs of a call, once the rest has its shape: what is refused, in the order of docs/SCOPE.md, section 3.
///
/// # Errors
///
/// A wrong shape, else the local BTF, else the target BTF.
pub fn read_both<L: AsRef<[u8]>, T: AsRef<[u8]>>(
    local: L,
    target: T,
    insns: &[u8],
    section_offset: u64,
    records: &[u8],
) -> Result<(Btf<L>, Btf<T>), Refused> {
    check_shape(insns, section_offset, records)?;
    let local = Btf::parse(local).map_err(|why| why.of(Which::Local))?;
    let target = Btf::parse(target).map_err(|why| why.of(Which::Target))?;
    Ok((local, target))
}

/// What a call said, as a result that names the place.
fn ended(local: &Btf<impl AsRef<[u8]>>, target: &Btf<impl AsRef<[u8]>>, records: &[u8], said: &ffi::Said) -> Result<u64, Refused> {
    let [applied, a, b, ..] = said.numbers;
    let why = match said.number {
        0 => return Ok(applied),
        18 => return Err(Refused::Misshapen),
        number => Why::from_said(number, a, b).ok_or(Refused::Unknown { number, applied })?,
    };
    let type_id = Record::list(records).nth(applied as usize).map_or(0, |record| record.type_id);
    let candidate = match why {
        Why::Conflict { id, .. } | Why::MaximumNesting { id } => Some((id, target.name(id))),
        _ => None,
    };
    Err(Refused::Record { record: applied, type_id, type_name: local.name(type_id), candidate, why })
}

#[cfg(test)]
mod tests {
    use super::*;
    use alloc::string::ToString;

    /// What becomes of a call that says this number, over no types and no records.
    fn said(number: u32) -> Result<u64, Refused> {
        let empty = Btf::parse(EMPTY).expect("a BTF");
        ended(&empty, &empty, &[], &ffi::Said { number, numbers: [3, 7, 2, 0, 0] })
    }

    #[test]
    fn every_number_is_its_own_case() {
        assert_eq!(said(0), Ok(3));
        for number in (1..64).chain([u32::MAX]) {
            let refused = said(number).expect_err("refused");
            assert_eq!(refused.number(), number);
            let known = match refused {
                Refused::Record { .. } => (4..=17).contains(&number),
                Refused::Misshapen => number == 18,
                Refused::Unknown { applied, .. } => applied == 3 && !(4..=18).contains(&number),
                Refused::Btf { .. } => false,
            };
            assert!(known, "{number}");
        }
        assert_eq!(said(19).unwrap_err().to_string(), "refusal 19, which this version does not know, after 3 records");
    }

    #[test]
    fn every_reason_is_its_own_case() {
        for number in 0..10 {
            let reason = Reason::from_number(number);
            assert_eq!(reason.number(), number);
            assert_eq!(reason == Reason::Other(number), !(1..=6).contains(&number));
        }
        let Err(Refused::Record { why, .. }) = said(12) else { panic!("a record is refused") };
        assert_eq!(why, Why::BadInstruction { reason: Reason::Other(7) });
    }
}

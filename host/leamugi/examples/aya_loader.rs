//! A loader over aya that has its programs relocated by leamugi. aya itself is not needed to build this: the two structs below stand
//! for aya-obj's of the same names, with the fields that are used.
//!
//! Where the loader says
//!
//! ```text
//! let target = aya_obj::btf::Btf::from_sys_fs()?;
//! object.relocate_btf(&target)?;
//! ```
//!
//! it says
//!
//! ```text
//! let target = leamugi::Btf::parse(fs::read("/sys/kernel/btf/vmlinux")?)?;
//! let local = leamugi::Btf::parse(section(".BTF"))?;
//! for function in object.functions.values_mut() {
//!     fit(function, &local, &target, records_of(function))?;
//! }
//! ```
//!
//! and everything else of aya, from maps to loading, stays. The records of a section are those of `.BTF.ext`.
use leamugi::{Btf, Record, Refused};
use std::error::Error;
use std::fs;

/// `aya_obj::generated::bpf_insn`; its two registers are one byte here.
#[derive(Clone, Copy)]
#[allow(non_camel_case_types, reason = "aya's name")]
struct bpf_insn {
    code: u8,
    registers: u8,
    off: i16,
    imm: i32,
}

/// `aya_obj::Function`.
struct Function {
    section_offset: usize,
    instructions: Vec<bpf_insn>,
}

fn to_bytes(insn: &bpf_insn) -> [u8; 8] {
    let ([c, d], [e, f, g, h]) = (insn.off.to_le_bytes(), insn.imm.to_le_bytes());
    [insn.code, insn.registers, c, d, e, f, g, h]
}

fn from_bytes(bytes: &[u8]) -> bpf_insn {
    let &[code, registers, c, d, e, f, g, h] = bytes else { panic!("an instruction has 8 bytes") };
    bpf_insn { code, registers, off: i16::from_le_bytes([c, d]), imm: i32::from_le_bytes([e, f, g, h]) }
}

/// The records of a section that are of one of its functions.
fn inside(function: &Function, records: &[Record]) -> Vec<u8> {
    let end = function.section_offset + 8 * function.instructions.len();
    let own = records.iter().filter(|record| (function.section_offset..end).contains(&(record.insn_offset as usize)));
    own.flat_map(|record| record.to_bytes()).collect()
}

/// Fits a function to the target; what was refused leaves it as it was.
fn fit(function: &mut Function, local: &Btf, target: &Btf, records: &[Record]) -> Result<u64, Refused> {
    let mut insns: Vec<u8> = function.instructions.iter().flat_map(to_bytes).collect();
    let applied = leamugi::relocate(local, target, &mut insns, function.section_offset as u64, &inside(function, records))?;
    function.instructions = insns.chunks_exact(8).map(from_bytes).collect();
    Ok(applied)
}

fn main() -> Result<(), Box<dyn Error>> {
    let demo = |name: &str| fs::read(format!("{}/demo/{name}", env!("CARGO_MANIFEST_DIR")));
    let (local, target) = (Btf::parse(demo("local.btf")?)?, Btf::parse(demo("target.btf")?)?);
    let records: Vec<Record> = Record::list(&demo("records.bin")?).collect();
    let instructions = demo("insns.bin")?.chunks_exact(8).map(from_bytes).collect();
    let mut function = Function { section_offset: 0, instructions };
    let applied = fit(&mut function, &local, &target, &records)?;
    println!("{applied} records applied, the first load reads at {}", function.instructions[1].off);
    Ok(())
}

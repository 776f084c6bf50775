//! Stands in for `obj.rs` and a part of `lib.rs`: the fields of an object and of a function that the BTF files touch.

use std::collections::BTreeMap;

use object::SectionIndex;

use crate::{
    btf::{Btf, BtfExt},
    generated::bpf_insn,
    util::HashMap,
};

pub struct Object {
    pub btf: Option<Btf>,
    pub btf_ext: Option<BtfExt>,
    pub(crate) functions: BTreeMap<(usize, u64), Function>,
    pub(crate) section_infos: HashMap<String, (SectionIndex, u64)>,
    pub(crate) symbol_offset_by_name: HashMap<String, u64>,
}

#[derive(Clone, Debug)]
pub struct Function {
    pub section_index: SectionIndex,
    pub section_offset: usize,
    pub instructions: Vec<bpf_insn>,
}

#[derive(Debug)]
pub struct VerifierLog(String);

impl std::fmt::Display for VerifierLog {
    fn fmt(&self, f: &mut std::fmt::Formatter<'_>) -> std::fmt::Result {
        f.write_str(&self.0)
    }
}

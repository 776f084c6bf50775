//! The crate's files, compiled unchanged from the folder that build.rs found, and what they lean on.
//!
//! `btf::relocation` takes the crate's file by `include!`, so that `probe`, its child, reaches its private functions.
//! Everything else here stands in for files of the crate that are not there; docs/DIFFERENCES.md lists each.
#![allow(warnings)]

include!(concat!(env!("OUT_DIR"), "/root.rs"));

pub mod btf {
    include!(concat!(env!("OUT_DIR"), "/btf.rs"));
}

pub mod generated;
mod obj;

/// Stands in for `relocation.rs`, which is out of scope: the one constant that `info.rs` takes from it.
mod relocation {
    pub(crate) const INS_SIZE: usize = size_of::<crate::generated::bpf_insn>();
}

pub use btf::relocation::probe;
pub use obj::{Function, Object, VerifierLog};

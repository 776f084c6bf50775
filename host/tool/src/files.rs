//! Files, with errors of one line.
use std::ffi::OsStr;
use std::path::Path;

/// Where a running kernel keeps its BTF.
pub const RUNNING: &str = "/sys/kernel/btf/vmlinux";

/// A file's bytes.
pub fn bytes(path: &OsStr) -> Result<Vec<u8>, String> {
    std::fs::read(path).map_err(|error| format!("cannot read {}: {error}", Path::new(path).display()))
}

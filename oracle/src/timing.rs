//! The crate's public path, for timing: `Btf::parse`, and `Object::relocate_btf` on a whole list.
//!
//! Nothing here catches panics or counts; a benchmark links this library in a build of its own without overflow checks.

pub use under_test::probe::{Prepared, Read};

//! The crate as oracle: its own answers to made cases, in document 01's numbers. README.md tells the commands.

pub mod case;
pub mod checks;
pub mod compare;
pub mod differences;
pub mod fixed;
pub mod hand;
pub mod limits;
pub mod list;
pub mod made;
pub mod reading;
pub mod run;
pub mod section4;
pub mod section8;
pub mod stats;
pub mod timing;

pub use case::Case;
pub use run::{Run, run};

/// What the crate's own reader says of a BTF, in words.
pub fn crate_reads(bytes: &[u8]) -> String {
    under_test::probe::read(bytes).map_or_else(|e| e, |_| "accepts it".to_string())
}

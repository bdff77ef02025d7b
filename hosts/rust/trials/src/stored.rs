//! Where the stored files are.

use std::path::{Path, PathBuf};

/// A file of the repository.
fn file(name: &str) -> PathBuf {
    Path::new(env!("CARGO_MANIFEST_DIR")).join("../../..").join(name)
}

/// The published cases.
pub fn cases() -> PathBuf {
    file("hosts/rust/trials/cases.txt")
}

/// What the trials' program reads.
pub fn input() -> PathBuf {
    file("crates/trials/stdin")
}

/// What it must print.
pub fn output() -> PathBuf {
    file("crates/trials/stdout")
}

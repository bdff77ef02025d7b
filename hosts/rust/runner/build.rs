//! Links the proved archive: the one in RECIPE_RUNNER_DIR, or the one that `rt lib` writes in crates/recipe. The version
//! is that of the C header, where it stands once for all.
use std::path::{Path, PathBuf};
use std::{env, fs};

fn main() {
    println!("cargo:rerun-if-env-changed=RECIPE_RUNNER_DIR");
    let top = PathBuf::from(env::var_os("CARGO_MANIFEST_DIR").unwrap_or_default()).join("../../..");
    let dir = env::var_os("RECIPE_RUNNER_DIR").map_or(top.join("crates/recipe/out"), PathBuf::from);
    println!("cargo:rerun-if-changed={}", dir.join("librecipe.a").display());
    println!("cargo:rustc-link-search=native={}", dir.display());
    println!("cargo:rustc-link-lib=static=recipe");
    same_version(&top.join("include/recipe_runner.h"));
}

/// Holds the crates' version to the header's.
fn same_version(header: &Path) {
    println!("cargo:rerun-if-changed={}", header.display());
    let text = fs::read_to_string(header).expect("the C header is readable");
    let due = format!("#define RECIPE_RUNNER_VERSION \"{}\"", env!("CARGO_PKG_VERSION"));
    assert!(
        text.lines().any(|line| line == due),
        "the header's version is not that of hosts/rust/Cargo.toml: no \"{due}\""
    );
}

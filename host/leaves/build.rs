//! Links the archive of the leaf functions: libleaves.a in the folder M68K_LIB, or in crates/leaves/out of the repository.

use std::path::PathBuf;

fn main() {
    let here = PathBuf::from(std::env::var("CARGO_MANIFEST_DIR").unwrap());
    let dir = match std::env::var_os("M68K_LIB") {
        Some(dir) => PathBuf::from(dir),
        None => here.join("../../crates/leaves/out"),
    };
    let file = dir.join("libleaves.a");
    assert!(
        file.is_file(),
        "libleaves.a is not there: run `rt lib` in crates/leaves, or name its folder in M68K_LIB"
    );
    let dir = dir.canonicalize().unwrap();
    println!("cargo::rustc-link-search=native={}", dir.display());
    println!("cargo::rustc-link-lib=static=leaves");
    println!("cargo::rerun-if-env-changed=M68K_LIB");
    println!("cargo::rerun-if-changed={}", dir.join("libleaves.a").display());
}

//! Says where the lifted text is: ORACLE_LIFTED, or target/oracle/lifted of the repository.

use std::path::PathBuf;

fn main() {
    let here = PathBuf::from(std::env::var("CARGO_MANIFEST_DIR").unwrap());
    let dir = match std::env::var_os("ORACLE_LIFTED") {
        Some(dir) => PathBuf::from(dir),
        None => here.join("../target/oracle/lifted"),
    };
    let file = dir.join("lifted.rs");
    assert!(file.is_file(), "the lifted text is not there: run oracle/build.sh (or lift.py) first");
    let dir = dir.canonicalize().unwrap();
    println!("cargo::rustc-env=ORACLE_LIFTED={}", dir.display());
    println!("cargo::rerun-if-env-changed=ORACLE_LIFTED");
    println!("cargo::rerun-if-changed={}", dir.join("lifted.rs").display());
}

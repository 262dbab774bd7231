//! Links the archive of the proved code: liblent.a in the folder M68K_LIB, or in
//! crates/lent/out of the repository; with the feature `ways` also libways.a, there or
//! in crates/ways/out.

use std::path::PathBuf;

fn main() {
    let here = PathBuf::from(std::env::var("CARGO_MANIFEST_DIR").unwrap());
    let mut names = vec!["lent"];
    if std::env::var_os("CARGO_FEATURE_WAYS").is_some() {
        names.push("ways");
    }
    println!("cargo::rerun-if-env-changed=M68K_LIB");
    for name in names {
        let dir = match std::env::var_os("M68K_LIB") {
            Some(dir) => PathBuf::from(dir),
            None => here.join("../crates").join(name).join("out"),
        };
        assert!(
            dir.join(format!("lib{name}.a")).is_file(),
            "lib{name}.a is not there: run `rt lib` in crates/{name}, or name its folder in M68K_LIB"
        );
        let dir = dir.canonicalize().unwrap();
        println!("cargo::rustc-link-search=native={}", dir.display());
        println!("cargo::rustc-link-lib=static={name}");
        println!("cargo::rerun-if-changed={}", dir.join(format!("lib{name}.a")).display());
    }
}

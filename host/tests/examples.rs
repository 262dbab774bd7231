//! The examples run to their end: each looks at what it shows.

use std::path::PathBuf;
use std::process::Command;

/// Where cargo put them, beside the tests.
fn folder() -> PathBuf {
    let test = std::env::current_exe().unwrap();
    test.parent().and_then(|deps| deps.parent()).unwrap().join("examples")
}

#[test]
fn every_example_runs() {
    let sources = std::fs::read_dir(concat!(env!("CARGO_MANIFEST_DIR"), "/examples")).unwrap();
    let mut count = 0;
    for path in sources.map(|entry| entry.unwrap().path()) {
        if path.extension().is_some_and(|e| e == "rs") {
            let name = path.file_stem().unwrap();
            let done = Command::new(folder().join(name)).output().unwrap();
            let told = String::from_utf8_lossy(&done.stderr);
            assert!(done.status.success() && !done.stdout.is_empty(), "{}: {told}", name.display());
            count += 1;
        }
    }
    assert_eq!(count, 4);
}

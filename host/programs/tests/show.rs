//! The program `show`: it shows what was printed, and nothing where that is not what the calls give.

use std::path::PathBuf;
use std::process::{Command, Output};

const SESSION: &str = concat!(env!("CARGO_MANIFEST_DIR"), "/../afternoon/session.txt");

fn show(arguments: &[&str]) -> Output {
    Command::new(env!("CARGO_BIN_EXE_show")).args(arguments).output().unwrap()
}

/// A file of the test's own with these bytes.
fn file(name: &str, bytes: &[u8]) -> PathBuf {
    let path = PathBuf::from(env!("CARGO_TARGET_TMPDIR")).join(name);
    std::fs::write(&path, bytes).unwrap();
    path
}

fn predicted() -> Vec<u8> {
    let out = show(&["--predict", SESSION]);
    assert!(out.status.success());
    out.stdout
}

#[test]
fn what_was_printed_is_shown() {
    let printed = file("printed", &predicted());
    for option in [&[][..], &["--page"]] {
        let arguments = [&["--printed", printed.to_str().unwrap()], option, &[SESSION]].concat();
        let out = show(&arguments);
        assert!(out.status.success() && out.stderr.is_empty());
        let text = String::from_utf8(out.stdout).unwrap();
        assert!(text.contains("What the proved session program printed"));
        assert!(text.contains("00007FF8") && !text.contains("no session program"));
    }
    let text = String::from_utf8(show(&[SESSION]).stdout).unwrap();
    assert!(text.contains("no session program printed this"));
}

/// One byte changed, one line less, one more, nothing at all: nothing is shown.
#[test]
fn a_difference_is_told_and_nothing_is_shown() {
    let right = predicted();
    let mut spoiled = vec![vec![], [&right[..], b"\n"].concat(), right[..right.len() - 1].to_vec()];
    for place in [0, 30, right.len() / 2, right.len() - 2] {
        let mut other = right.clone();
        other[place] ^= 1;
        spoiled.push(other);
    }
    for (i, bytes) in spoiled.iter().enumerate() {
        let printed = file(&format!("spoiled{i}"), bytes);
        let out = show(&["--printed", printed.to_str().unwrap(), SESSION]);
        assert_eq!(out.status.code(), Some(1), "{i}");
        assert!(out.stdout.is_empty(), "{i}");
        assert!(String::from_utf8(out.stderr).unwrap().contains("do not agree"), "{i}");
    }
}

/// A program that prints something else, that ends early, that is not there.
#[test]
fn the_program_is_run_on_the_session() {
    let out = show(&["--program", "cat", SESSION]);
    assert_eq!((out.status.code(), out.stdout.is_empty()), (Some(1), true));
    let told = String::from_utf8(out.stderr).unwrap();
    assert!(told.contains("`kind 2`") && told.contains("`0 00001002 2004 00008000`"), "{told}");
    for program in ["true", "false", "/no/such/program"] {
        let out = show(&["--program", program, SESSION]);
        assert_eq!((out.status.code(), out.stdout.is_empty()), (Some(1), true), "{program}");
    }
    // Nothing is what is printed for a session that only sets something.
    let quiet = file("quiet", b"kind 2\npc 1000\n");
    assert!(show(&["--program", "true", quiet.to_str().unwrap()]).status.success());
}

#[test]
fn wrong_arguments() {
    for arguments in [&["--no"][..], &["--printed"], &["--words"], &["--program"]] {
        let out = show(arguments);
        assert_eq!((out.status.code(), out.stdout.is_empty()), (Some(2), true));
    }
    for arguments in [["--printed", "/no/such"], ["--words", "/no/such"]] {
        assert_eq!(show(&[&arguments[..], &[SESSION]].concat()).status.code(), Some(1));
    }
    assert_eq!(show(&["/no/such"]).status.code(), Some(1));
}

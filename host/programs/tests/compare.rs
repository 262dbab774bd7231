//! That the comparison notices what differs.

use m68k_programs::cases::Cases;
use std::io::Write;
use std::process::{Command, Stdio};

const INPUT: &str = "call=trap:f kind=2 a7=8000 pc=1000 ppc=ffe status=2700 patch=bc:00002000";

/// What the proved code answers.
fn answer(input: &str) -> String {
    let mut out = vec![];
    Cases::new().answer(input, &mut out);
    String::from_utf8(out).unwrap()
}

/// Whether the program finds that the recorded answer is that of the proved code.
fn is_same(input: &str, recorded: &str) -> bool {
    let mut child = Command::new(env!("CARGO_BIN_EXE_compare"))
        .args(["--file", "-"])
        .stdin(Stdio::piped())
        .stdout(Stdio::piped())
        .spawn()
        .unwrap();
    writeln!(child.stdin.take().unwrap(), "{input} => {recorded}").unwrap();
    let done = child.wait_with_output().unwrap();
    let text = String::from_utf8(done.stdout).unwrap();
    let differences = if done.status.success() { 0 } else { 1 };
    assert_eq!(done.status.code(), Some(differences), "{text}");
    assert!(text.contains(&format!("compare: 1 cases, {differences} differences, ")), "{text}");
    assert!(text.contains("compare: compared kinds: 2 1\n"), "{text}");
    done.status.success()
}

#[test]
fn every_part_of_an_answer_counts() {
    let right = answer(INPUT);
    assert!(is_same(INPUT, &right));
    let parts: Vec<&str> = right.split(' ').collect();
    assert!(parts.len() > 10, "{right}");
    for left_out in 0..parts.len() {
        let kept: Vec<&str> =
            (0..parts.len()).filter(|&i| i != left_out).map(|i| parts[i]).collect();
        assert!(!is_same(INPUT, &kept.join(" ")), "{}", parts[left_out]);
    }
}

/// Every word of every row, of a return and of a walk that was ended by a number.
#[test]
fn every_row_counts() {
    let frames = "kind=2 a7=8000 log=0 patch=8000:270000001000008020000000200000848000000030001000";
    for (call, rows) in [("return", 1), ("walk:3:d", 2)] {
        let input = format!("call={call} {frames}");
        let right = answer(&input);
        assert!(is_same(&input, &right));
        let shown = right.split(' ').find_map(|part| part.strip_prefix("rows=")).unwrap();
        let words: Vec<&str> = shown.split(['.', ',']).collect();
        assert_eq!(words.len(), rows * 4, "{right}");
        for at in 0..words.len() {
            let mut other = words.clone();
            other[at] = "77";
            let list: Vec<String> = other.chunks(4).map(|row| row.join(".")).collect();
            assert!(!is_same(&input, &right.replace(shown, &list.join(","))), "{right}");
        }
        assert!(!is_same(&input, &right.replace(shown, "-")));
        assert!(!is_same(&input, &right.replace(shown, &format!("{shown},0.0.0.0"))));
    }
}

#[test]
fn the_kind_counts() {
    let right = answer(INPUT);
    let other = right.replace(" status=2700 ", " status=2700 kind=3 ");
    assert_ne!(other, right);
    assert!(!is_same(INPUT, &other));
}

#[test]
fn errors_are_the_same_only_if_they_say_the_same() {
    let input = "call=nothing kind=2";
    assert_eq!(answer(input), "error: `nothing` is no call");
    assert!(is_same(input, "error: `nothing` is no call"));
    assert!(!is_same(input, "error: no kind"));
    assert!(!is_same(input, &answer(INPUT)));
    assert!(!is_same(INPUT, "error: `nothing` is no call"));
}

//! The recorded transcripts still hold, and the comparison of session programs finds programs that are not right.

use oracle::against::compare;
use oracle::transcript::answered;
use std::path::PathBuf;

const ORACLE: &str = env!("CARGO_BIN_EXE_oracle");

#[test]
fn transcripts_hold() {
    let text = include_str!("../sessions.txt");
    for (at, (written, found)) in text.lines().zip(answered(text).unwrap().lines()).enumerate() {
        assert_eq!(written, found, "sessions.txt, line {}", at + 1);
    }
    assert_eq!(text, answered(text).unwrap());
}

#[test]
fn the_program_is_as_itself() {
    let tally = compare(&format!("{ORACLE} session"), 1, 1000, true).unwrap();
    assert_eq!((tally.sessions, tally.differences), (1000, 0));
    assert!(tally.cut > 0);
    for number in [8, 9, 11, 12, 13, 14] {
        assert!(tally.refused[&number] > 50, "{number}: {:?}", tally.refused);
    }
}

const LAST: &str = r#"python3 -c 'import sys; a = sys.stdin.buffer.read(); sys.stdout.buffer.write(a[:a.rfind(b"\n") + 1])'"#;

/// A mistake, as a change of what the program reads and of what it prints.
const MISTAKES: [(&str, &str, &str); 22] = [
    ("either case of a command", "tr A-Z a-z", "cat"),
    ("a tab for a space", "tr '\\t' ' '", "cat"),
    ("a carriage return before the feed", "sed 's/\\r$//'", "cat"),
    ("two spaces", "sed 's/  */ /g'", "cat"),
    ("a space at the end", "sed 's/ *$//'", "cat"),
    ("a space at the start", "sed 's/^ *//'", "cat"),
    ("empty lines left out", "sed '/^$/d'", "cat"),
    ("comments left out", "sed '/^#/d'", "cat"),
    ("9 hexadecimal digits", "sed 's/ 0\\([0-9A-Fa-f]\\{8\\}\\)$/ \\1/'", "cat"),
    ("5 decimal digits", "sed 's/^\\(kind\\|irq\\|walk\\) 0\\([0-9]\\{4\\}\\)$/\\1 \\2/'", "cat"),
    ("walk 4097", "sed 's/^walk 4097$/walk 4096/'", "cat"),
    ("trap 100", "sed 's/^trap 100$/trap 0/'", "cat"),
    ("irq 256", "sed 's/^irq 256$/irq 0/'", "cat"),
    ("kind 256", "sed 's/^kind 256$/kind 0/'", "cat"),
    ("a long not served", "sed 's/^long 10000 0$/walk 0/'", "cat"),
    ("a long whose address is masked", "sed 's/^long FF00/long 0000/'", "cat"),
    ("kinds above 11 refused at once", "sed 's/^kind 2[0-9][0-9]$/kind 9999/'", "cat"),
    ("a long line as two", "fold -b -w 81", "cat"),
    ("a last line without its feed left out", LAST, "cat"),
    ("lower case", "cat", "tr A-F a-f"),
    ("46 cycles on every kind", "cat", "sed 's/^44 /46 /'"),
    ("no rows before a refusal", "cat", "sed '$!N;/\\nrefused 1[123]$/s/.*\\n//;P;D'"),
];

/// A program of a shell's pipe around this one.
fn script(name: &str, text: &str) -> PathBuf {
    let path = PathBuf::from(env!("CARGO_TARGET_TMPDIR")).join(name);
    std::fs::write(&path, text).unwrap();
    path
}

fn found(program: &str) -> bool {
    compare(program, 2, 1000, false).unwrap().differences > 0
}

/// The program with a command of the shell before and behind it.
fn piped(name: &str, before: &str, after: &str) -> String {
    let text = format!("export LC_ALL=C\n{before} | {ORACLE} session | {after}\n");
    format!("sh {}", script(name, &text).display())
}

/// The commands alone change nothing.
#[test]
fn mistakes_are_found() {
    assert!(!found(&piped("none.sh", "sed ''", "sed '$!N;P;D'")));
    for (at, (name, before, after)) in MISTAKES.iter().enumerate() {
        assert!(found(&piped(&format!("mistake-{at}.sh"), before, after)), "{name}");
    }
}

/// A read that ends inside a line makes two of it: only input that is cut shows that.
#[test]
fn a_line_cut_by_a_read_is_found() {
    let text = format!(
        "import os, subprocess\n\
         pipe = subprocess.Popen(['{ORACLE}', 'session'], stdin=subprocess.PIPE)\n\
         while block := os.read(0, 1 << 20):\n    \
             pipe.stdin.write(block if block.endswith(b'\\n') else block + b'\\n')\n\
         pipe.stdin.close()\n\
         pipe.wait()\n"
    );
    let path = script("cut.py", &text);
    assert!(found(&format!("python3 {}", path.display())));
}

//! Sessions as paper 01 has them: what is printed, which lines are understood.

use m68k_programs::session::{COMMANDS, Command, Session, Wrong, lines, parse, predict};

fn printed(input: &str) -> String {
    String::from_utf8(predict(input.as_bytes())).unwrap()
}

/// The last line that is printed.
fn last(input: &str) -> String {
    printed(input).lines().last().unwrap_or("").into()
}

#[test]
fn the_papers_example() {
    let input = "kind 2\na7 8000\npc 1000\nppc FFE\nlong BC 2000\ntrap F\nwalk 1\nret\n";
    let expected = "34 00002000 2700 00007FF8\n0 2700 00001000 0BC\n0 00001000 2700 00008000\n";
    assert_eq!(printed(input), expected);
    assert_eq!(printed(input.trim_end()), expected, "the last line ends with the input");
}

/// The sessions that the oracle recorded for the session program.
#[test]
fn the_recorded_sessions() {
    let expected = include_bytes!("../../../crates/session/stdout");
    assert!(predict(include_bytes!("../../../crates/session/stdin")) == expected);
}

/// As the real Rust answered it.
#[test]
fn the_afternoon() {
    let expected = "0 00001002 2004 00008000\n46 00003000 2204 00007FF8\n46 00004000 2404 00007FF0\n\
        0 00004000 2404 00007FF0\n0 2204 00003000 070\n0 2004 00001002 068\n\
        0 00003000 2204 00007FF8\n0 00001002 2004 00008000\n";
    assert_eq!(printed(include_str!("../../afternoon/session.txt")), expected);
}

#[test]
fn lines_end_with_a_feed_or_with_the_input() {
    let all = |input: &'static str| lines(input.as_bytes()).collect::<Vec<_>>();
    assert!(all("").is_empty());
    assert_eq!(all("a"), [b"a"]);
    assert_eq!(all("a\n"), [b"a"]);
    assert_eq!(all("a\n\nb"), [&b"a"[..], b"", b"b"]);
    assert_eq!(printed(""), "");
    assert_eq!(printed("\n"), "refused 14\n");
    assert_eq!(printed("kind 2\nfoo\nret"), "refused 14\n0 00000000 0000 00000000\n");
}

#[test]
fn commands_and_numbers() {
    let right = [
        ("kind 2", Command::Kind(2)),
        ("kind 0255", Command::Kind(255)),
        ("pc 1", Command::Pc(1)),
        ("ppc ffe", Command::Ppc(0xFFE)),
        ("a7 FFFFFFFF", Command::A7(0xFFFF_FFFF)),
        ("a7 00000001", Command::A7(1)),
        ("long aB Cd", Command::Long(0xAB, 0xCD)),
        ("exc 100", Command::Exc(256)),
        ("trap FF", Command::Trap(255)),
        ("trap 000000ff", Command::Trap(255)),
        ("irq 255", Command::Irq(255)),
        ("walk 4096", Command::Walk(4096)),
        ("walk 0", Command::Walk(0)),
        ("ret", Command::Ret),
    ];
    for (line, command) in right {
        assert_eq!(parse(line.as_bytes()), Ok(command), "{line}");
    }
}

/// A line for every reason, and the reasons are all there.
#[test]
fn lines_that_are_not_understood() {
    let long = "a".repeat(81);
    let wrong = [
        (long.as_str(), Wrong::TooLong),
        ("", Wrong::Empty),
        ("ret\r", Wrong::CarriageReturn),
        ("kind\t2", Wrong::Tab),
        (" ret", Wrong::Spaces),
        ("ret ", Wrong::Spaces),
        ("kind  2", Wrong::Spaces),
        ("kind ", Wrong::Spaces),
        ("KIND 2", Wrong::Capital),
        ("Ret", Wrong::Capital),
        ("rte", Wrong::Unknown),
        ("kind2", Wrong::Unknown),
        ("kind", Wrong::Fields),
        ("ret 1", Wrong::Fields),
        ("long 1", Wrong::Fields),
        ("pc 1 2", Wrong::Fields),
        ("kind A", Wrong::Decimal),
        ("walk 00001", Wrong::Decimal),
        ("irq -1", Wrong::Decimal),
        ("pc 0x1", Wrong::Hexadecimal),
        ("a7 000000001", Wrong::Hexadecimal),
        ("long G 1", Wrong::Hexadecimal),
        ("kind 256", Wrong::Limit),
        ("irq 256", Wrong::Limit),
        ("trap 100", Wrong::Limit),
        ("walk 4097", Wrong::Limit),
    ];
    for (line, reason) in wrong {
        assert_eq!(parse(line.as_bytes()), Err(reason), "{line:?}");
        assert_eq!(printed(line), if line.is_empty() { "" } else { "refused 14\n" });
    }
    let met = |reason: &Wrong| wrong.iter().any(|(_, met)| met == reason);
    assert!(Wrong::ALL.iter().all(|reason| met(reason) || *reason == Wrong::NotStored));
    for name in COMMANDS {
        assert_ne!(parse(name.as_bytes()), Err(Wrong::Unknown), "{name}");
    }
}

#[test]
fn longs_at_the_end_of_the_store() {
    assert_eq!(printed("long FFFC 1"), "");
    assert_eq!(printed("long FFFD 1"), "refused 14\n");
    assert_eq!(printed("long FFFFFFFF 1"), "refused 14\n");
    // On kind 1 address 01000000 would be 0 on the bus; a `long` is not masked.
    assert_eq!(printed("long 1000000 1"), "refused 14\n");
    let mut session = Session::default();
    session.step(b"long FFFC 01020304");
    assert_eq!(session.store[0xFFFC..], [1, 2, 3, 4]);
}

#[test]
fn refusals_that_a_session_can_meet() {
    assert_eq!(last("exc 100"), "refused 8");
    for command in ["exc 1", "trap 1", "irq 1", "walk 1", "walk 0", "ret"] {
        assert_eq!(last(&format!("kind 12\n{command}")), "refused 9", "{command}");
    }
    assert_eq!(last("kind 2\na7 7000\nret\nret"), "refused 11");
    assert_eq!(last("kind 2\na7 7001\nret"), "refused 12");
    assert_eq!(last("kind 4\na7 FFFA\nret"), "refused 12");
    assert_eq!(last("kind 2\na7 7000\nlong 7004 1000\nret"), "refused 13");
}

/// A refused line changes nothing, and rows before a refusal are kept.
#[test]
fn a_refusal_keeps_rows_and_changes_nothing() {
    let input = "kind 2\na7 7000\nlong 7000 27000000\nlong 7004 12340000\nlong 700C F000\nwalk 3";
    assert_eq!(printed(input), "0 2700 00001234 000\nrefused 13\n");
    let mut session = Session::default();
    for line in lines(input.as_bytes()) {
        session.step(line);
    }
    let (core, store) = (session.core.clone(), session.store.clone());
    for line in ["walk 3", "ret ", "walk 4097", "long FFFD 0", "exc 100"] {
        session.step(line.as_bytes());
        assert!(session.core == core && session.store == store, "{line}");
    }
}

#[test]
fn interrupts_are_charged_44_or_46() {
    for (kind, cycles) in [(0, 44), (1, 44), (2, 46), (4, 44), (10, 44), (11, 44)] {
        let line = last(&format!("kind {kind}\na7 8000\nirq 7"));
        assert!(line.starts_with(&format!("{cycles} 00000000 2700 ")), "kind {kind}: {line}");
        assert_eq!(last(&format!("kind {kind}\na7 8000\nirq 6")), "0 00000000 2700 00008000");
    }
}

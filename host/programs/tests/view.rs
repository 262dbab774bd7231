//! What is shown of a session, in full: each session of tests/sessions and the afternoon, as text.
//! `WRITE_VIEWS=1` writes the texts anew; read what changed.

use m68k_programs::session::lines;
use m68k_programs::view::{Names, Part, View, page, text};
use std::path::{Path, PathBuf};

fn folder() -> PathBuf {
    Path::new(env!("CARGO_MANIFEST_DIR")).join("tests/sessions")
}

fn shown(input: &[u8], names: &Names) -> String {
    let mut out = vec![];
    text(input, names, "From a test.", &mut out).unwrap();
    String::from_utf8(out).unwrap()
}

fn paged(input: &[u8], names: &Names) -> String {
    let mut out = vec![];
    page(input, names, "From a test.", &mut out).unwrap();
    String::from_utf8(out).unwrap()
}

fn afternoon() -> (Vec<u8>, Names) {
    let read = |name: &str| {
        std::fs::read(Path::new(env!("CARGO_MANIFEST_DIR")).join("../afternoon").join(name))
            .unwrap()
    };
    let names = Names::read(std::str::from_utf8(&read("words.txt")).unwrap()).unwrap();
    (read("session.txt"), names)
}

fn same(file: &Path, got: &str) {
    if std::env::var_os("WRITE_VIEWS").is_some() {
        std::fs::write(file, got).unwrap();
    }
    let expected = std::fs::read_to_string(file).unwrap();
    for (line, (got, expected)) in got.lines().zip(expected.lines()).enumerate() {
        assert_eq!(got, expected, "{}, line {}", file.display(), line + 1);
    }
    assert_eq!(got, expected, "{}", file.display());
}

#[test]
fn sessions_are_shown_as_recorded() {
    let mut count = 0;
    for entry in std::fs::read_dir(folder()).unwrap() {
        let path = entry.unwrap().path();
        if path.extension().is_some_and(|e| e == "txt") {
            let input = std::fs::read(&path).unwrap();
            same(&path.with_extension("shown"), &shown(&input, &Names::default()));
            count += 1;
        }
    }
    assert_eq!(count, 9);
}

#[test]
fn the_afternoon_is_shown_as_recorded() {
    let (input, names) = afternoon();
    same(&folder().join("afternoon.shown"), &shown(&input, &names));
}

/// Every line of the afternoon has its words, and every name is used.
#[test]
fn the_afternoon_has_words_for_every_line() {
    let (input, names) = afternoon();
    let text = shown(&input, &names);
    let words = include_str!("../../afternoon/words.txt");
    let (said, named) = words.split_once("\n\n").unwrap();
    assert_eq!(said.lines().count(), lines(&input).count());
    let flat: String = text.split_whitespace().collect::<Vec<_>>().join(" ");
    assert!(said.lines().all(|line| flat.contains(line)));
    for line in named.lines() {
        let name = line.splitn(if line.starts_with("title") { 2 } else { 3 }, ' ').last().unwrap();
        assert!(flat.contains(name), "{name}");
    }
}

#[test]
fn words_that_are_not_understood() {
    assert!(Names::read("a\n\naddress 10 x\nvector 26 y\nstatus 2004 z\ntitle t\n").is_ok());
    for wrong in ["colour 1 x", "address G x", "vector 1A x", "status 2004"] {
        assert!(Names::read(&format!("a\n\n{wrong}\n")).is_err(), "{wrong}");
    }
}

/// The frames drawn for an entry, and the number of bytes in each.
fn drawn(input: &str) -> Vec<usize> {
    let (names, mut out) = (Names::default(), vec![]);
    let mut view = View::new(&names);
    for line in lines(input.as_bytes()) {
        for part in view.show(line).parts {
            if let Part::Drawn(drawing) = part {
                let first = drawing.cells[0].address;
                let last = drawing.cells.last().unwrap();
                let bytes = match last.bytes.split_once(" (") {
                    Some((_, times)) => times.split(' ').next().unwrap().parse().unwrap(),
                    None => last.bytes.split(' ').count(),
                };
                out.push((last.address - first) as usize + bytes);
            }
        }
    }
    out
}

/// An entry on every kind is drawn, by each command, with as many bytes as A7 fell.
#[test]
fn entries_are_drawn_on_every_kind() {
    for kind in 0..12 {
        let bytes = if kind == 1 { 6 } else { 8 };
        for entry in ["trap 3", "exc 5", "exc FF", "irq 7"] {
            assert_eq!(drawn(&format!("kind {kind}\na7 8000\n{entry}")), [bytes], "{kind} {entry}");
        }
        // Nothing is drawn where nothing is stacked: a pointer outside the store.
        assert_eq!(drawn(&format!("kind {kind}\na7 200000\ntrap 3\ntrap 4")), [], "{kind}");
    }
}

/// With M set an interrupt stacks two frames on kinds 3 to 9.
#[test]
fn two_frames_are_drawn_where_two_are_stacked() {
    for kind in 0..12 {
        let status = "long 7FF8 30000000\nlong 7FFC 10000000\na7 7FF8";
        let input = format!("kind {kind}\n{status}\nret\na7 6000\nirq 7");
        let entry = match kind {
            1 => vec![6, 6],
            3..=9 => vec![8, 8, 8],
            _ => vec![8, 8],
        };
        assert_eq!(drawn(&input), entry, "kind {kind}: the frame of the return, then the entry's");
    }
}

/// A page is whole: what is opened is closed, nothing of a line is markup, nothing is fetched.
#[test]
fn pages_are_whole() {
    let (input, names) = afternoon();
    for (input, names) in [(input, names), (refused(), Names::default())] {
        let page = paged(&input, &names);
        assert!(page.starts_with("<!DOCTYPE html>\n<html lang=\"en\">"));
        let mut open: Vec<&str> = vec![];
        for tag in page.split('<').skip(2).map(|rest| rest.split_once('>').unwrap().0) {
            let name = tag.split(' ').next().unwrap();
            if let Some(closed) = name.strip_prefix('/') {
                assert_eq!(open.pop(), Some(closed));
            } else if !tag.ends_with('/') {
                open.push(name);
            }
        }
        assert!(open.is_empty());
        for absent in ["http", "src=", "href=", "@import", "url(", "<script"] {
            assert!(!page.contains(absent), "{absent}");
        }
        for line in lines(&input).filter(|line| line.iter().all(u8::is_ascii_alphanumeric)) {
            assert!(page.contains(std::str::from_utf8(line).unwrap()));
        }
    }
    let page = paged(&refused(), &Names::default());
    assert!(page.contains("rte &lt;b&gt;&amp;&quot;") && !page.contains("<b>"));
}

fn refused() -> Vec<u8> {
    std::fs::read(folder().join("refused.txt")).unwrap()
}

/// What the manual quotes of the afternoon is what is shown, and what it says comes is what is printed.
#[test]
fn the_manual_shows_what_is_shown() {
    let manual = include_str!("../../../docs/SESSION.md");
    let (input, names) = afternoon();
    let text = shown(&input, &names);
    let tick = manual.split("## The tick").nth(1).unwrap().split("\n## ").next().unwrap();
    let quoted: Vec<&str> = tick.lines().filter_map(|line| line.strip_prefix("    ")).collect();
    assert_eq!(quoted.len(), 8);
    assert!(quoted.iter().all(|quoted| text.lines().any(|line| line == *quoted)), "{quoted:?}");

    let cells = |row: &'static str, n: usize| row.split(" | ").nth(n).unwrap_or("").trim();
    let bare = |cell: &str| cell.trim_matches(|c| c == '|' || c == ' ' || c == '`').to_string();
    let rows: Vec<&str> = tick.lines().filter(|line| line.starts_with('|')).skip(2).collect();
    let given: Vec<String> = rows.iter().map(|row| bare(cells(row, 0))).collect();
    let given: Vec<String> = given.into_iter().filter(|line| !line.is_empty()).collect();
    assert_eq!(given.join("\n") + "\n", String::from_utf8(input.clone()).unwrap());
    let comes: Vec<String> = rows.iter().map(|row| bare(cells(row, 2))).collect();
    let comes: Vec<String> = comes.into_iter().filter(|line| !line.is_empty()).collect();
    let printed = m68k_programs::session::predict(&input);
    assert_eq!(comes.join("\n") + "\n", String::from_utf8(printed).unwrap());
}

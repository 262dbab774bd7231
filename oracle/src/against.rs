//! Another session program held to this one: both play the same random batches, and what they print must be the same bytes.

use crate::rng::Rng;
use crate::session::{self, Session};
use crate::sessions;
use std::collections::BTreeMap;
use std::io::{self, Read, Write};
use std::os::fd::OwnedFd;
use std::os::unix::net::UnixDatagram;
use std::process::{Command, Stdio};
use std::thread;

/// Most sessions of a batch.
const BATCH: u32 = 40;
/// One batch in so many is fed in pieces too.
const PIECED: u64 = 8;
/// Longest input that is fed byte by byte.
const BYTEWISE: usize = 20_000;

/// What was compared.
#[derive(Default)]
pub struct Tally {
    pub sessions: u64,
    pub batches: u64,
    /// Batches that were fed cut into pieces as well.
    pub cut: u64,
    pub lines: u64,
    /// Lines printed that are no refusals.
    pub answers: u64,
    pub refused: BTreeMap<u8, u64>,
    pub differences: u64,
    /// The first difference, told.
    pub first: String,
}

impl Tally {
    fn count(&mut self, input: &[u8], printed: &[u8]) {
        self.batches += 1;
        self.lines += lines(input).count() as u64;
        for line in lines(printed) {
            match line.strip_prefix(b"refused ") {
                Some(n) => *self.refused.entry(number(n)).or_default() += 1,
                None => self.answers += 1,
            }
        }
    }
}

fn number(digits: &[u8]) -> u8 {
    str::from_utf8(digits).ok().and_then(|n| n.parse().ok()).expect("our own number")
}

/// The lines of an input: a last one without its feed is one, nothing behind the last feed is none.
fn lines(text: &[u8]) -> impl Iterator<Item = &[u8]> {
    text.split_inclusive(|&b| b == b'\n').map(|l| l.strip_suffix(b"\n").unwrap_or(l))
}

/// What this program prints.
pub fn printed(input: &[u8]) -> Vec<u8> {
    let mut out = vec![];
    session::play(input, &mut out).expect("memory takes every byte");
    out
}

/// Compares on `count` random sessions, all of them or up to the first difference.
pub fn compare(program: &str, seed: u64, count: u64, all: bool) -> Result<Tally, String> {
    let mut rng = Rng::new(seed);
    let mut tally = Tally::default();
    while tally.sessions < count && (all || tally.differences == 0) {
        let sessions = u64::from(1 + rng.below(BATCH)).min(count - tally.sessions);
        let input = sessions::batch(&mut rng, sessions);
        let expected = printed(&input);
        tally.sessions += sessions;
        tally.count(&input, &expected);
        let mut hold = |how: &str, found: Result<Vec<u8>, String>| {
            let found = found?;
            if found != expected {
                tally.differences += 1;
                if tally.differences == 1 {
                    let told = difference(&input, &expected, &found);
                    tally.first = format!("batch {}, {how}:\n{told}", tally.batches);
                }
            }
            Ok::<(), String>(())
        };
        hold("fed whole", whole(program, &input))?;
        if tally.batches % PIECED == 1 {
            let pieces = cuts(&mut rng, &input);
            hold("fed in pieces", pieced(program, &pieces))?;
            tally.cut += 1;
        }
    }
    Ok(tally)
}

/// Bytes, or pieces of odd lengths.
fn cuts<'a>(rng: &mut Rng, input: &'a [u8]) -> Vec<&'a [u8]> {
    let longest = rng.pick(&[1, 1, 2, 7, 30, 81, 500]);
    let longest = if input.len() > BYTEWISE { longest.max(30) } else { longest };
    let mut rest = input;
    let mut pieces = vec![];
    while !rest.is_empty() {
        let (piece, behind) = rest.split_at(rest.len().min(1 + rng.below(longest) as usize));
        pieces.push(piece);
        rest = behind;
    }
    pieces
}

fn command(program: &str) -> Command {
    let mut words = program.split_whitespace();
    let mut command = Command::new(words.next().unwrap_or_default());
    command.args(words).stdout(Stdio::piped());
    command
}

/// What a program prints while `feed` gives it its input.
fn output(
    program: &str,
    stdin: Stdio,
    feed: impl FnOnce(Option<std::process::ChildStdin>) -> io::Result<()> + Send,
) -> Result<Vec<u8>, String> {
    let text = |e: io::Error| format!("{program}: {e}");
    let mut child = command(program).stdin(stdin).spawn().map_err(text)?;
    let (pipe, mut out) = (child.stdin.take(), child.stdout.take().unwrap());
    let mut found = vec![];
    thread::scope(|s| {
        // A program that ends early shows in what it printed.
        s.spawn(|| feed(pipe).is_ok());
        out.read_to_end(&mut found)
    })
    .map_err(text)?;
    let status = child.wait().map_err(text)?;
    if !status.success() {
        found.extend_from_slice(format!("({status})\n").as_bytes());
    }
    Ok(found)
}

fn whole(program: &str, input: &[u8]) -> Result<Vec<u8>, String> {
    output(program, Stdio::piped(), |pipe| pipe.unwrap().write_all(input))
}

/// Each piece is a datagram, and one read takes one datagram: the cuts are where they are meant. An empty one is the end.
fn pieced(program: &str, pieces: &[&[u8]]) -> Result<Vec<u8>, String> {
    let (ours, theirs) = UnixDatagram::pair().map_err(|e| e.to_string())?;
    output(program, Stdio::from(OwnedFd::from(theirs)), move |_| {
        for piece in pieces {
            ours.send(piece)?;
        }
        ours.send(&[]).map(|_| ())
    })
}

/// Bytes as text that shows what is not printable, cut where it is long.
fn show(bytes: &[u8]) -> String {
    let shown: String =
        bytes.iter().take(100).flat_map(|b| b.escape_ascii()).map(char::from).collect();
    if bytes.len() > 100 { format!("{shown}.. ({} bytes)", bytes.len()) } else { shown }
}

/// The line of a text that has the byte at `place`.
fn line_at(text: &[u8], place: usize) -> String {
    let place = place.min(text.len());
    let start = text[..place].iter().rposition(|&b| b == b'\n').map_or(0, |i| i + 1);
    lines(&text[start..]).next().map_or("(nothing)".into(), show)
}

/// The first line printed that differs, with the session that led to it.
fn difference(input: &[u8], expected: &[u8], found: &[u8]) -> String {
    let place = expected.iter().zip(found).take_while(|(a, b)| a == b).count();
    let mut state = Session::new(1);
    let mut printed = vec![];
    let mut played: Vec<String> = vec![];
    let mut at = 0;
    for line in lines(input) {
        if matches!(session::parse(line), Some(session::Command::Kind(_))) {
            played.clear();
        }
        at += 1;
        played.push(show(line));
        state.line(line, &mut printed);
        if printed.len() > place {
            break;
        }
    }
    format!(
        "  session: {}\n  line {at}: {}\n  oracle  {}\n  program {}",
        played.join(" / "),
        played.last().map_or("", String::as_str),
        line_at(expected, place),
        line_at(found, place)
    )
}

#[cfg(test)]
mod tests {
    use super::*;

    #[test]
    fn the_line_that_differs_is_named() {
        let input = b"kind 2\na7 8000\ntrap F\nwalk 1\nret\nx";
        let expected = printed(input);
        let altered =
            String::from_utf8(expected.clone()).unwrap().replace("0BC", "0bC").into_bytes();
        let told = difference(input, &expected, &altered);
        assert!(told.contains("line 4: walk 1\n  oracle  0 2700 00000000 0BC\n"), "{told}");
        let short = &expected[..expected.len() - 11];
        let told = difference(input, &expected, short);
        assert!(told.contains("line 6: x\n  oracle  refused 14\n  program (nothing)"), "{told}");
    }
}

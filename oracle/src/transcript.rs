//! Transcripts of sessions, as people write them: `> ` and a line of the input (`>` alone is an empty one), under it what it prints;
//! `#` begins a comment and an empty line is one. `N> ` is the same line N times. In a line `\t`, `\r`, `\s` (a space that
//! ends it) and `\xHH` are bytes, and `\{N}` is the byte before it, N times in all. Long answers are shortened when they are written.

use crate::session::Session;

/// Lines of an answer that are written in full.
const SHOWN: usize = 12;

/// A line of the input and how often it comes; nothing where a line is no input.
fn input_line(text: &str) -> Result<Option<(Vec<u8>, u32)>, String> {
    let Some((times, line)) = text.split_once('>') else { return Ok(None) };
    let times = if times.is_empty() { Some(1) } else { times.parse().ok() };
    let line = if line.is_empty() { Some(line) } else { line.strip_prefix(' ') };
    let (Some(times), Some(line)) = (times, line) else { return Ok(None) };
    match bytes(line) {
        Some(bytes) if !bytes.contains(&b'\n') => Ok(Some((bytes, times))),
        _ => Err(format!("not understood: {text}")),
    }
}

/// The bytes that a line stands for.
fn bytes(text: &str) -> Option<Vec<u8>> {
    let mut bytes = vec![];
    let mut rest = text;
    while let Some((plain, escape)) = rest.split_once('\\') {
        bytes.extend_from_slice(plain.as_bytes());
        rest = escape.get(1..)?;
        match escape.as_bytes()[0] {
            b't' => bytes.push(b'\t'),
            b'r' => bytes.push(b'\r'),
            b's' => bytes.push(b' '),
            b'x' => {
                bytes.push(u8::from_str_radix(rest.get(..2)?, 16).ok()?);
                rest = &rest[2..];
            }
            b'{' => {
                let (times, behind) = rest.split_once('}')?;
                let (last, times): (u8, usize) = (bytes.pop()?, times.parse().ok()?);
                bytes.resize(bytes.len() + times, last);
                rest = behind;
            }
            _ => return None,
        }
    }
    bytes.extend_from_slice(rest.as_bytes());
    Some(bytes)
}

/// The input of a transcript, each line with its feed.
pub fn input(transcript: &str) -> Result<Vec<u8>, String> {
    let mut input = vec![];
    for text in transcript.lines() {
        if let Some((line, times)) = input_line(text)? {
            for _ in 0..times {
                input.extend_from_slice(&line);
                input.push(b'\n');
            }
        }
    }
    Ok(input)
}

/// The transcript with the answers that this program gives.
pub fn answered(transcript: &str) -> Result<String, String> {
    let mut session = Session::new(1);
    let mut out = String::new();
    for text in transcript.lines() {
        if text.is_empty() || text.starts_with('#') {
            out += &format!("{text}\n");
        } else if let Some((line, times)) = input_line(text)? {
            let mut printed = vec![];
            for _ in 0..times {
                session.line(&line, &mut printed);
            }
            out += &format!("{text}\n{}", shortened(&String::from_utf8_lossy(&printed)));
        }
    }
    Ok(out)
}

/// The first two and the last two lines of an answer that is long.
fn shortened(printed: &str) -> String {
    let lines: Vec<&str> = printed.lines().collect();
    let n = lines.len();
    if n <= SHOWN {
        return printed.into();
    }
    let (first, last) = (&lines[..2], &lines[n - 2..]);
    format!("{}\n.. {n} lines ..\n{}\n", first.join("\n"), last.join("\n"))
}

//! Answers test cases: reads inputs from standard input, a line each, and prints a line for each.

use m68k_programs::cases::Cases;
use std::io::{BufRead, BufReader, BufWriter, Write};

fn main() -> std::io::Result<()> {
    let mut input = BufReader::with_capacity(1 << 18, std::io::stdin().lock());
    let mut output = BufWriter::with_capacity(1 << 18, std::io::stdout().lock());
    let (mut cases, mut line, mut answer) = (Cases::new(), vec![], vec![]);
    while input.read_until(b'\n', &mut line)? > 0 {
        let bytes = line.strip_suffix(b"\n").unwrap_or(&line);
        let bytes = bytes.strip_suffix(b"\r").unwrap_or(bytes);
        if !bytes.is_empty() && !bytes.starts_with(b"#") {
            match std::str::from_utf8(bytes) {
                Ok(text) => cases.answer(text, &mut answer),
                Err(_) => answer = b"error: no text".to_vec(),
            }
            answer.push(b'\n');
            output.write_all(&answer)?;
        }
        line.clear();
    }
    output.flush()
}

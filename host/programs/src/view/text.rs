//! A session as text.

use super::{Block, Cell, Drawing, Names, Part, View, short};
use crate::session::lines;
use crate::words::LEGEND;
use std::fmt::Write;

/// The most columns of a line of text, where it has spaces to be cut at.
const COLUMNS: usize = 120;
/// What stands in front of what came.
const INDENT: &str = "             ";

/// Writes a session as text. `source` says where what is shown comes from.
pub fn text(
    input: &[u8],
    names: &Names,
    source: &str,
    out: &mut impl std::io::Write,
) -> std::io::Result<()> {
    let mut view = View::new(names);
    if let Some(title) = &names.title {
        out.write_all(wrapped(title, "", "").as_bytes())?;
    }
    out.write_all(wrapped(source, "", "").as_bytes())?;
    out.write_all((wrapped(LEGEND, "", "") + "\n").as_bytes())?;
    let widest = lines(input).take(1000).map(<[u8]>::len).max().unwrap_or(0).clamp(6, 24);
    for line in lines(input) {
        out.write_all(block(&view.show(line), widest).as_bytes())?;
    }
    writeln!(out)?;
    for said in view.summary() {
        out.write_all(wrapped(&said, "", "").as_bytes())?;
    }
    Ok(())
}

/// A sentence in lines of at most 120 columns, the first after `first`, the others after `rest`.
fn wrapped(said: &str, first: &str, rest: &str) -> String {
    let mut out = String::new();
    let mut line = first.to_string();
    let mut empty = true;
    for word in said.split(' ') {
        if !empty && line.chars().count() + 1 + word.chars().count() > COLUMNS {
            out.push_str(line.trim_end());
            out.push('\n');
            line = rest.to_string();
            empty = true;
        }
        if !empty {
            line.push(' ');
        }
        line.push_str(word);
        empty = false;
    }
    out.push_str(line.trim_end());
    out.push('\n');
    out
}

fn block(block: &Block, widest: usize) -> String {
    let head = format!("{:3}  {:widest$}  ", block.number, block.line);
    let mut out = wrapped(&block.words, &head, &" ".repeat(widest + 7));
    let indent = INDENT;
    for part in &block.parts {
        match part {
            Part::Said(said) => out.push_str(&wrapped(said, indent, &format!("{indent}    "))),
            Part::Drawn(drawing) => self::drawing(drawing, indent, &mut out),
        }
    }
    out
}

fn drawing(drawing: &Drawing, indent: &str, out: &mut String) {
    if !drawing.title.is_empty() {
        writeln!(out, "{indent}{}:", drawing.title).unwrap();
    }
    let wide = |length: fn(&Cell) -> usize, least: usize| {
        drawing.cells.iter().map(length).max().unwrap_or(0).max(least)
    };
    let (bytes, name) = (wide(|cell| cell.bytes.len(), 11), wide(|cell| cell.name.len(), 0));
    for cell in &drawing.cells {
        let address = short(cell.address);
        let row =
            format!("{address}  {:bytes$}   {:name$}   {}", cell.bytes, cell.name, cell.value);
        writeln!(out, "{indent}{}", row.trim_end()).unwrap();
    }
}

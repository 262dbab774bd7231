//! A session as one page that needs nothing else: no script, no file beside it, no network.

use super::{Block, Drawing, Names, Part, View, short};
use crate::session::lines;
use crate::words::LEGEND;
use std::fmt::Write;

const STYLE: &str = include_str!("page.css");

/// Writes a session as a page. `source` says where what is shown comes from.
pub fn page(
    input: &[u8],
    names: &Names,
    source: &str,
    out: &mut impl std::io::Write,
) -> std::io::Result<()> {
    let mut view = View::new(names);
    write!(
        out,
        "<!DOCTYPE html>\n<html lang=\"en\">\n<head>\n<meta charset=\"utf-8\"/>\n\
         <meta name=\"viewport\" content=\"width=device-width, initial-scale=1\"/>\n\
         <title>A session</title>\n<style>\n{STYLE}</style>\n</head>\n<body>\n<h1>{}</h1>\n\
         <p class=\"source\">{}</p>\n<p class=\"source\">{}</p>\n<main>\n",
        escaped(names.title.as_deref().unwrap_or("A session")),
        escaped(source),
        escaped(LEGEND)
    )?;
    for line in lines(input) {
        out.write_all(section(&view.show(line)).as_bytes())?;
    }
    out.write_all(b"</main>\n<footer>\n")?;
    for said in view.summary() {
        writeln!(out, "<p>{}</p>", escaped(&said))?;
    }
    out.write_all(b"</footer>\n</body>\n</html>\n")
}

fn escaped(text: &str) -> String {
    let mut out = String::with_capacity(text.len());
    for letter in text.chars() {
        match letter {
            '&' => out.push_str("&amp;"),
            '<' => out.push_str("&lt;"),
            '>' => out.push_str("&gt;"),
            '"' => out.push_str("&quot;"),
            '\'' => out.push_str("&#39;"),
            _ => out.push(letter),
        }
    }
    out
}

fn section(block: &Block) -> String {
    let mut out = String::from("<section>\n<div class=\"said\">\n");
    let (line, words) = (escaped(&block.line), escaped(&block.words));
    let number = block.number;
    writeln!(
        out,
        "<h2><span>{number}</span> <code>{line}</code></h2>\n<p class=\"why\">{words}</p>"
    )
    .unwrap();
    if !block.printed.is_empty() {
        writeln!(out, "<pre>{}</pre>", escaped(block.printed.trim_end())).unwrap();
    }
    for part in &block.parts {
        if let Part::Said(said) = part {
            writeln!(out, "<p>{}</p>", escaped(said.trim_start())).unwrap();
        }
    }
    out.push_str("</div>\n");
    stack(block, &mut out);
    out + "</section>\n"
}

/// The stack beside the line: its frames, and below them the entries that were open before.
fn stack(block: &Block, out: &mut String) {
    let earlier: Vec<&str> = block
        .open
        .iter()
        .filter(|(number, _)| *number != block.number)
        .map(|(_, text)| text.as_str())
        .collect();
    let drawings: Vec<&Drawing> = block
        .parts
        .iter()
        .filter_map(|part| if let Part::Drawn(drawing) = part { Some(drawing) } else { None })
        .collect();
    if block.parts.is_empty() || drawings.is_empty() && earlier.is_empty() {
        return;
    }
    out.push_str("<div class=\"stack\">\n");
    for drawing in drawings {
        frame(drawing, out);
    }
    for text in earlier {
        writeln!(out, "<p class=\"open\">{}</p>", escaped(text)).unwrap();
    }
    out.push_str("</div>\n");
}

fn frame(drawing: &Drawing, out: &mut String) {
    out.push_str("<table>\n");
    if !drawing.title.is_empty() {
        writeln!(out, "<caption>{}</caption>", escaped(&drawing.title)).unwrap();
    }
    out.push_str("<tbody>\n");
    for (i, cell) in drawing.cells.iter().enumerate() {
        let pointer = if i == 0 && drawing.top { "<span>A7</span> " } else { "" };
        let (address, value) = (short(cell.address), escaped(&cell.value));
        writeln!(
            out,
            "<tr><th scope=\"row\">{pointer}{address}</th><td class=\"bytes\">{}</td>\
             <td class=\"name\">{}</td><td class=\"value\">{value}</td></tr>",
            cell.bytes, cell.name
        )
        .unwrap();
    }
    out.push_str("</tbody>\n</table>\n");
}

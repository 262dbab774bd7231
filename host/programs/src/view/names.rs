//! Words of somebody's own for a session: why each line is there, and names of numbers.

use crate::words;

/// Words of somebody's own for a session: a line for each of its lines, then, after an empty line,
/// names, `address 1002 the branch`, `status 2004 ..`, `vector 26 ..`, and `title ..` for the whole.
#[derive(Debug, Clone, Default, PartialEq, Eq)]
pub struct Names {
    /// What the session is about.
    pub(crate) title: Option<String>,
    pub(crate) lines: Vec<String>,
    /// What is named (address, status or vector), its number, its name.
    names: Vec<(String, u32, String)>,
}

impl Names {
    /// Reads the words; an error says which line is not understood.
    pub fn read(text: &str) -> Result<Names, String> {
        let mut names = Names::default();
        let mut rest = text.lines();
        names.lines.extend(rest.by_ref().take_while(|line| !line.is_empty()).map(String::from));
        for line in rest.filter(|line| !line.is_empty()) {
            if let Some(title) = line.strip_prefix("title ") {
                names.title = Some(title.into());
                continue;
            }
            let wrong = || format!("words: not understood: {line}");
            let mut fields = line.splitn(3, ' ');
            let (Some(what), Some(number), Some(name)) =
                (fields.next(), fields.next(), fields.next())
            else {
                return Err(wrong());
            };
            let base = match what {
                "address" | "status" => 16,
                "vector" => 10,
                _ => return Err(wrong()),
            };
            let number = u32::from_str_radix(number, base).map_err(|_| wrong())?;
            names.names.push((what.into(), number, name.into()));
        }
        Ok(names)
    }

    /// The name of a number, with something before it where there is one.
    fn of(&self, what: &str, number: u32, before: &str, after: &str) -> String {
        let found = self.names.iter().find(|(w, n, _)| w == what && *n == number);
        found.map_or(String::new(), |(_, _, name)| format!("{before}{name}{after}"))
    }

    pub(crate) fn address(&self, address: u32) -> String {
        format!("{address:08X}{}", self.of("address", address, " (", ")"))
    }

    pub(crate) fn status(&self, status: u32, kept: u16) -> String {
        let name = self.of("status", status, ": ", "");
        format!("{status:04X} ({}{name})", words::status(status as u16, kept))
    }

    pub(crate) fn vector(&self, offset: u32) -> String {
        words::offset(offset, &self.of("vector", offset / 4, ": ", ""))
    }
}

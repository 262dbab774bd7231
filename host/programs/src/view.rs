//! What a person is shown of a session: for each line its command, a few words, what came, and the
//! frames as they lie on the stack.

mod names;
mod page;
mod text;

pub use names::Names;
pub use page::page;
pub use text::text;

use crate::session::{Command, LINE, LINE_REFUSED, Outcome, Session, Step};
use crate::stack::{self, Fault, Placed, Stacked};
use crate::words::{self, ERROR_68000, FRAME_68000, Sort};
use m68k_host::{Core, Row};

/// A field of a frame that is drawn.
#[derive(Debug, Clone, PartialEq, Eq)]
pub struct Cell {
    /// The address of its first byte.
    pub address: u32,
    /// Its bytes, in hexadecimal.
    pub bytes: String,
    /// Its name.
    pub name: &'static str,
    /// What it says.
    pub value: String,
}

/// A frame that is drawn.
#[derive(Debug, Clone, PartialEq, Eq)]
pub struct Drawing {
    /// What it is, where that is not plain.
    pub title: String,
    /// Whether A7 is on it after the line.
    pub top: bool,
    /// Its fields upward from its first address.
    pub cells: Vec<Cell>,
}

/// What is shown below a line.
#[derive(Debug, Clone, PartialEq, Eq)]
pub enum Part {
    /// A sentence.
    Said(String),
    /// A frame.
    Drawn(Drawing),
}

/// A line of a session as it is shown.
#[derive(Debug, Clone, PartialEq, Eq)]
pub struct Block {
    /// The number of the line.
    pub number: usize,
    /// The line as it was given, what cannot be shown of it escaped.
    pub line: String,
    /// A few words of why.
    pub words: String,
    /// What the session program printed for it.
    pub printed: String,
    /// What came.
    pub parts: Vec<Part>,
    /// The latest entries that are open after it, the latest first: the number of the line, and a few words.
    pub open: Vec<(usize, String)>,
}

/// So many open entries are told of beside a line.
const OPEN: usize = 8;

/// An entry that is open: its line, its frames and their bytes as they were stacked, the address to go
/// back to, and the status that the entry met; none for an error raised inside, which stacks another.
#[derive(Debug, Clone)]
struct Open {
    number: usize,
    line: String,
    frames: Vec<(Placed, Vec<u8>)>,
    address: u32,
    status: Option<u16>,
}

/// How many entries and returns there were, and how the returns went.
#[derive(Debug, Clone, Copy, Default, PartialEq, Eq)]
struct Counts {
    entries: u32,
    returns: u32,
    /// Returns that took a frame that an entry of this session stacked, as it was stacked, and gave back
    /// its address and its status.
    exact: u32,
    /// Returns that took a frame that no entry of this session stacked.
    others: u32,
    refused: u32,
}

/// A session that is shown line by line.
#[derive(Debug)]
pub struct View<'a> {
    session: Session,
    names: &'a Names,
    line: usize,
    open: Vec<Open>,
    counts: Counts,
    faulted: Option<usize>,
}

/// The bytes of a line as text: what is not a visible letter of ASCII or a space is escaped, and of a line
/// that is too long only its start is there.
fn visible(line: &[u8]) -> String {
    let letter = |byte: &u8| match byte {
        b'"' | b'\'' => char::from(*byte).to_string(),
        _ => byte.escape_ascii().to_string(),
    };
    let shown: String = line.iter().take(LINE).map(letter).collect();
    if line.len() > LINE { format!("{shown}.. ({} bytes)", line.len()) } else { shown }
}

fn short(address: u32) -> String {
    if address < 0x10000 { format!("{address:04X}") } else { format!("{address:08X}") }
}

fn is_uniform(bytes: &[u8]) -> bool {
    bytes.iter().all(|byte| *byte == bytes[0])
}

fn hex(bytes: &[u8]) -> String {
    if bytes.len() > 8 && is_uniform(bytes) {
        return format!("{:02X} ({} times)", bytes[0], bytes.len());
    }
    let all: Vec<String> = bytes.iter().map(|byte| format!("{byte:02X}")).collect();
    all.join(" ")
}

/// The bits of a status that a kind keeps.
fn kept(core: &Core) -> u16 {
    let mut all = core.clone();
    all.set_sr(0xFFFF);
    all.get_sr()
}

impl<'a> View<'a> {
    /// A view with words of somebody's own.
    pub fn new(names: &'a Names) -> View<'a> {
        View {
            session: Session::default(),
            names,
            line: 0,
            open: vec![],
            counts: Counts::default(),
            faulted: None,
        }
    }

    /// Does a line and says what is shown of it.
    pub fn show(&mut self, line: &[u8]) -> Block {
        self.line += 1;
        let step = self.session.step(line);
        let general = step.command.map_or(words::NO_COMMAND.into(), words::command);
        let words = self.names.lines.get(self.line - 1).cloned().unwrap_or(general);
        let line = visible(line);
        let parts = self.parts(&step, &line);
        let latest = self.open.iter().rev().take(OPEN);
        let open = latest.map(|open| self.open_line(open)).collect();
        Block { number: self.line, line, words, printed: step.printed(), parts, open }
    }

    fn parts(&mut self, step: &Step, text: &str) -> Vec<Part> {
        match &step.outcome {
            Outcome::Set => {
                if let Ok(Command::Kind(_)) = step.command {
                    self.open.clear();
                    self.faulted = None;
                }
                vec![]
            }
            Outcome::Entered(cycles) => self.entry(step, text, "taken", *cycles),
            Outcome::Interrupt(Some(cycles)) => {
                let level = asked_level(step);
                self.entry(step, text, &format!("taken at level {level}"), *cycles)
            }
            Outcome::Interrupt(None) => self.held_back(step),
            Outcome::Returned(row) => self.returned(step, row),
            Outcome::Walked(rows, refused) => self.walked(step, rows, *refused),
            Outcome::Refused(number) => self.refused(step, *number, words::refusal(*number)),
            Outcome::Wrong(wrong) => self.refused(step, LINE_REFUSED, words::wrong(*wrong)),
        }
    }

    fn refused(&mut self, step: &Step, number: u32, (what, advice): (&str, &str)) -> Vec<Part> {
        self.counts.refused += 1;
        let but = if step.before == step.after { "" } else { " but the level that is asked for" };
        vec![
            Part::Said(format!("refused {number}: {what}")),
            Part::Said(format!("nothing is changed{but}; {advice}")),
        ]
    }

    /// Where the processor goes on, its status and A7.
    fn state(&self, core: &Core) -> String {
        let status = u32::from(core.get_sr());
        format!(
            "on at {}, status {}, A7 {:08X}",
            self.names.address(core.pc()),
            self.names.status(status, kept(core)),
            core.dar()[15]
        )
    }

    fn held_back(&self, step: &Step) -> Vec<Part> {
        let (level, mask) = (asked_level(step), step.after.int_mask() >> 8 & 7);
        let why = match level {
            0 => "not taken: level 0 asks for nothing".into(),
            _ => format!("not taken: level {level} is held back by the mask, which is {mask}"),
        };
        vec![Part::Said(why), Part::Said(format!("0 cycles, {}", self.state(&step.after)))]
    }

    fn entry(&mut self, step: &Step, text: &str, how: &str, cycles: u32) -> Vec<Part> {
        self.counts.entries += 1;
        let stacked = stack::stacked(step, &self.session.store);
        let state = self.state(&step.after);
        let mut parts = vec![Part::Said(format!("{how}: {cycles} cycles, {state}"))];
        self.fault_parts(&stacked, &mut parts);
        for (frame, title) in stacked.frames.iter().zip(frame_titles(&stacked.frames)) {
            parts.push(self.draw(&step.after, frame, title, Some(step)));
        }
        for (vector, frame) in &stacked.errors {
            let title = format!("the frame of the {} raised inside", words::vector(*vector as u8));
            parts.push(self.draw(&step.after, frame, title, Some(step)));
        }
        self.note(step, text, stacked);
        parts
    }

    /// What went wrong inside an entry.
    fn fault_parts(&mut self, stacked: &Stacked, parts: &mut Vec<Part>) {
        let mut say = |text: String| parts.push(Part::Said(text));
        match stacked.fault {
            None => return,
            Some(Fault::Earlier) => {
                let line = self.faulted.map_or(String::new(), |line| format!(" since line {line}"));
                return say(format!(
                    "the processor has faulted{line}: A7 is lowered, nothing is stacked, the vector reads \
                     as 0; `kind` starts anew"
                ));
            }
            Some(Fault::Odd(pointer)) => {
                say(format!("a fault inside the entry: the stack pointer {pointer:08X} is odd"));
            }
            Some(Fault::NotServed([code, address, _])) => {
                let what = if matches!(code % 16, 3 | 4) { "write" } else { "read" };
                let bytes = if matches!(code % 16, 1 | 3) { 2 } else { 4 };
                say(format!(
                    "a fault inside the entry: the {what} of {bytes} bytes at {} is not served, it lies \
                     outside the store",
                    short(address)
                ));
            }
        }
        self.faulted.get_or_insert(self.line);
        if stacked.errors.is_empty() {
            say("the processor stops: no frame is stacked for the fault".into());
        }
        say("from here on it counts as faulted: entries stack nothing until `kind` starts anew"
            .into());
    }

    /// Keeps what an entry stacked, to know it again.
    fn note(&mut self, step: &Step, text: &str, stacked: Stacked) {
        let own = (stacked.frames, Some(step.before.get_sr()));
        let errors = stacked.errors.into_iter().map(|(_, frame)| (vec![frame], None));
        for (group, status) in std::iter::once(own).chain(errors) {
            let store = &self.session.store;
            let kept = |frame: Placed| Some((frame, frame.bytes(store)?.to_vec()));
            let frames: Vec<(Placed, Vec<u8>)> = group.into_iter().filter_map(kept).collect();
            let Some(first) = frames.first() else { continue };
            let address = first_address(first);
            let line = format!("line {} ({text})", self.line);
            self.open.push(Open { number: self.line, line, frames, address, status });
        }
    }

    /// The latest open entry whose frame begins there, by its place among them.
    fn opened(&self, frames: &[Placed]) -> Option<usize> {
        let start = frames.first()?.start;
        self.open.iter().rposition(|open| open.frames[0].0.start == start)
    }

    fn is_unchanged(&self, open: &Open) -> bool {
        open.frames.iter().all(|(frame, bytes)| frame.bytes(&self.session.store) == Some(bytes))
    }

    fn open_line(&self, open: &Open) -> (usize, String) {
        let (start, address) = (short(open.frames[0].0.start), self.names.address(open.address));
        (open.number, format!("{start}  frame of {}, back to {address}", open.line))
    }

    fn returned(&mut self, step: &Step, row: &Row) -> Vec<Part> {
        self.counts.returns += 1;
        let frames = stack::taken(&step.before, &self.session.store);
        let (gave, keeps) = (u32::from(step.after.get_sr()), kept(&step.after));
        let same = step.after.pc() == row.address && gave == row.status;
        let what = if same { "address and status are those" } else { "the address is the one" };
        let mut parts = vec![Part::Said(self.state(&step.after))];
        match self.opened(&frames) {
            Some(place) => {
                let said = self.stacked_earlier(place, row, same, what);
                parts.push(Part::Said(said));
                self.open.truncate(place);
            }
            None => {
                self.counts.others += 1;
                parts.push(Part::Said(format!("{what} of the frame that A7 was on")));
                parts.extend(self.unknown(&step.before, &frames));
            }
        }
        if !same {
            let status = row.status;
            let said =
                format!("of the stacked status {status:04X} this kind keeps the bits {keeps:04X}");
            parts.push(Part::Said(said));
        }
        parts
    }

    /// Why a frame that an entry of this session stacked does not give back what was stacked, if so.
    fn flaw(&self, open: &Open) -> Option<String> {
        if !self.is_unchanged(open) {
            return Some("changed since: what is read is what lies there now".into());
        }
        // The frame of a 68000's error has another order; a return reads it like any other frame.
        (open.frames[0].0.fields == ERROR_68000).then(|| {
            let (all, read) = (words::length(ERROR_68000), words::length(FRAME_68000));
            format!("{all} bytes of an error frame: the first {read} that are read are no status and address")
        })
    }

    /// What a return gave back of a frame that an entry of this session stacked.
    fn stacked_earlier(&mut self, place: usize, row: &Row, same: bool, what: &str) -> String {
        let open = &self.open[place];
        let line = open.line.clone();
        if let Some(flaw) = self.flaw(open) {
            return format!("the frame was stacked by {line}, {flaw}");
        }
        // Two frames of one entry may share bytes: then the second has spoiled the first.
        let met = open.status.is_none_or(|status| u32::from(status) == row.status);
        if !met || open.address != row.address {
            return format!(
                "not the address and the status that {line} met: its two frames overlap"
            );
        }
        self.counts.exact += u32::from(same);
        format!("{what} stacked by {line}")
    }

    /// Frames that no entry of this session stacked.
    fn unknown(&self, core: &Core, frames: &[Placed]) -> Vec<Part> {
        let titles = frame_titles(frames).into_iter().map(|title| match title.as_str() {
            "" => "the frame, which no entry of this session stacked".to_string(),
            _ => format!("{title}, which no entry of this session stacked"),
        });
        frames.iter().zip(titles).map(|(f, title)| self.draw(core, f, title, None)).collect()
    }

    fn walked(&mut self, step: &Step, rows: &[Row], refused: Option<u32>) -> Vec<Part> {
        let mut parts = vec![];
        let mut core = self.session.core.clone();
        for (i, row) in rows.iter().enumerate() {
            let frames = stack::taken(&core, &self.session.store);
            parts.extend(self.row(i + 1, row, &core, &frames));
            // The rows were read by returns that were not refused.
            let _ = core.return_from(&self.session.store);
        }
        if rows.is_empty() && refused.is_none() {
            parts.push(Part::Said("no rows".into()));
        }
        parts.extend(refused.into_iter().flat_map(|n| self.refused(step, n, words::refusal(n))));
        parts
    }

    fn row(&self, number: usize, row: &Row, core: &Core, frames: &[Placed]) -> Vec<Part> {
        let (address, status) =
            (self.names.address(row.address), self.names.status(row.status, kept(core)));
        let mut parts = vec![Part::Said(format!("{number}. back to {address}, status {status}"))];
        let what = match core.cpu_type() {
            1 => String::new(),
            _ => format!("format {}, {}, ", row.format, self.names.vector(row.offset)),
        };
        match self.opened(frames).map(|place| &self.open[place]) {
            Some(open) => {
                let flaw = self.flaw(open).map_or(String::new(), |flaw| format!(", {flaw}"));
                parts.push(Part::Said(format!("   {what}stacked by {}{flaw}", open.line)));
            }
            None => parts.extend(self.unknown(core, frames)),
        }
        parts
    }

    /// Draws a frame. Of one that a line stacked it says which fields were not written.
    fn draw(&self, core: &Core, frame: &Placed, title: String, step: Option<&Step>) -> Part {
        let mut cells = vec![];
        let mut at = frame.start;
        for &(name, length, sort) in frame.fields {
            let address = stack::address(core, at);
            at = at.wrapping_add(length as u32);
            let place = address as usize;
            let bytes = self.session.store.get(place..place.saturating_add(length));
            let written = step.is_none_or(|s| stack::was_written(&s.events, address, length));
            let value = match bytes {
                None => "outside the store: not stored".into(),
                Some(_) if !written => "not written, as it was before".into(),
                Some(bytes) => self.value(core, bytes, sort),
            };
            cells.extend(cells_of(address, bytes.unwrap_or(&[]), name, value));
        }
        let top = step.is_some_and(|s| stack::address(core, s.after.dar()[15]) == frame.start);
        Part::Drawn(Drawing { title, top, cells })
    }

    fn value(&self, core: &Core, bytes: &[u8], sort: Sort) -> String {
        let number = bytes.iter().fold(0u32, |n, byte| n << 8 | u32::from(*byte));
        let digits = 2 * bytes.len();
        match sort {
            Sort::Status => self.names.status(number, kept(core)),
            Sort::Address => self.names.address(number),
            Sort::Format => {
                format!("format {}, {}", number >> 12, self.names.vector(number & 0xFFF))
            }
            Sort::Number => format!("{number:0digits$X}"),
            Sort::Bits(bits) => format!("{number:0digits$X} ({})", words::bits(number, bits)),
            Sort::Internal => String::new(),
        }
    }

    /// The last sentences: what the session was as a whole.
    pub fn summary(&self) -> Vec<String> {
        let Counts { entries, returns, exact, others, refused } = self.counts;
        let many =
            |n: u32, one: &str, more: &str| format!("{n} {}", if n == 1 { one } else { more });
        let mut said = vec![format!(
            "{}: {}, {}, {} refused, {} still open at the end.",
            many(self.line as u32, "line", "lines"),
            many(entries, "entry", "entries"),
            many(returns, "return", "returns"),
            refused,
            self.open.len()
        )];
        if returns > 0 {
            let mut text = format!(
                "Of the returns {exact} gave back exactly the address and the status that an entry of \
                 this session stacked; {others} took a frame that no entry of this session stacked"
            );
            match returns - exact - others {
                0 => text.push('.'),
                n => text.push_str(&format!(
                    "; {n} took one that was changed since, that overlaps another or that is a 68000's error frame."
                )),
            }
            said.push(text);
        }
        said
    }
}

/// The level that an `irq` asked for.
fn asked_level(step: &Step) -> u8 {
    match step.command {
        Ok(Command::Irq(n)) => n % 8,
        _ => 0,
    }
}

/// A field as one cell, or, where it is long and its bytes differ, as one for each 8 bytes.
fn cells_of(address: u32, bytes: &[u8], name: &'static str, value: String) -> Vec<Cell> {
    if bytes.len() <= 8 || is_uniform(bytes) {
        return vec![Cell { address, bytes: hex(bytes), name, value }];
    }
    let parts = bytes.chunks(8).zip(0u32..);
    let cell = |(part, i): (&[u8], u32)| Cell {
        address: address + 8 * i,
        bytes: hex(part),
        name: if i == 0 { name } else { "" },
        value: if i == 0 { value.clone() } else { String::new() },
    };
    parts.map(cell).collect()
}

/// What the frames of one entry are called where there are two: with M set an interrupt stacks two.
fn frame_titles(frames: &[Placed]) -> Vec<String> {
    match frames.len() {
        2 => {
            vec!["the frame on the interrupt stack".into(), "the frame on the master stack".into()]
        }
        n => vec![String::new(); n],
    }
}

/// The first address that a frame gives a program to go on at.
fn first_address((frame, bytes): &(Placed, Vec<u8>)) -> u32 {
    let mut at = 0;
    for (_, length, sort) in frame.fields {
        if *sort == Sort::Address {
            return bytes[at..at + length].iter().fold(0, |n, byte| n << 8 | u32::from(*byte));
        }
        at += length;
    }
    0
}

//! A session: lines of commands, and what the session program prints for them.
//!
//! Written from paper 01, "The session program", over the calls of `m68k_host`. A view compares what is predicted here with what the proved program printed, and takes
//! from here what that program does not print: the record, the store and the events of each line.
//!
//! ```
//! let input = b"kind 2\na7 8000\npc 1000\nlong BC 2000\ntrap F\nwalk 1\nret\n";
//! let printed = "34 00002000 2700 00007FF8\n0 2700 00001000 0BC\n0 00001000 2700 00008000\n";
//! assert_eq!(m68k_programs::session::predict(input), printed.as_bytes());
//! ```

use m68k_host::{Answer, Call, Core, Kind, Row};
use std::fmt::Write;

/// Bytes of the store, from address 0 on.
pub const STORE: usize = 65_536;
/// The most rows of a walk.
pub const ROWS: u32 = 4096;
/// The most bytes of a line.
pub const LINE: usize = 80;
/// The refusal of a line.
pub const LINE_REFUSED: u32 = 14;

/// The names of the commands.
pub const COMMANDS: [&str; 10] =
    ["kind", "pc", "ppc", "a7", "long", "exc", "trap", "irq", "walk", "ret"];

/// A line that is understood.
#[derive(Debug, Clone, Copy, PartialEq, Eq)]
pub enum Command {
    /// A fresh record of a kind, an empty store.
    Kind(u8),
    /// The program counter.
    Pc(u32),
    /// The program counter before the instruction.
    Ppc(u32),
    /// The stack pointer.
    A7(u32),
    /// A long word of the store: address, value.
    Long(u32, u32),
    /// `take_exception` by a vector.
    Exc(u32),
    /// TRAP by its number.
    Trap(u8),
    /// `set_irq` by a level, then the interrupt call.
    Irq(u8),
    /// The latest frames, so many.
    Walk(u32),
    /// A return.
    Ret,
}

/// Why a line is refused with 14.
#[derive(Debug, Clone, Copy, PartialEq, Eq)]
pub enum Wrong {
    /// More than 80 bytes.
    TooLong,
    /// No byte.
    Empty,
    /// A carriage return.
    CarriageReturn,
    /// A tab.
    Tab,
    /// A space in front, at the end, or next to another.
    Spaces,
    /// The name of a command with a capital letter.
    Capital,
    /// No command has that name.
    Unknown,
    /// Too few or too many fields.
    Fields,
    /// Not a decimal number of 1 to 4 digits.
    Decimal,
    /// Not a hexadecimal number of 1 to 8 digits.
    Hexadecimal,
    /// A number above what the command takes.
    Limit,
    /// The bytes of a `long` are not all in the store.
    NotStored,
}

impl Wrong {
    /// All of them.
    pub const ALL: [Wrong; 12] = [
        Wrong::TooLong,
        Wrong::Empty,
        Wrong::CarriageReturn,
        Wrong::Tab,
        Wrong::Spaces,
        Wrong::Capital,
        Wrong::Unknown,
        Wrong::Fields,
        Wrong::Decimal,
        Wrong::Hexadecimal,
        Wrong::Limit,
        Wrong::NotStored,
    ];
}

/// The number that all bytes of a field are, 1 to `most` digits.
fn number(field: &[u8], base: u32, most: usize) -> Option<u32> {
    if field.is_empty() || field.len() > most {
        return None;
    }
    field.iter().try_fold(0u32, |value, byte| {
        let digit = char::from(*byte).to_digit(base)?;
        value.checked_mul(base)?.checked_add(digit)
    })
}

fn hexadecimal(field: &[u8]) -> Result<u32, Wrong> {
    number(field, 16, 8).ok_or(Wrong::Hexadecimal)
}

fn decimal(field: &[u8]) -> Result<u32, Wrong> {
    number(field, 10, 4).ok_or(Wrong::Decimal)
}

fn byte(number: u32) -> Result<u8, Wrong> {
    u8::try_from(number).map_err(|_| Wrong::Limit)
}

fn command(fields: &[&[u8]]) -> Result<Command, Wrong> {
    Ok(match *fields {
        [b"kind", n] => Command::Kind(byte(decimal(n)?)?),
        [b"pc", h] => Command::Pc(hexadecimal(h)?),
        [b"ppc", h] => Command::Ppc(hexadecimal(h)?),
        [b"a7", h] => Command::A7(hexadecimal(h)?),
        [b"long", a, v] => Command::Long(hexadecimal(a)?, hexadecimal(v)?),
        [b"exc", h] => Command::Exc(hexadecimal(h)?),
        [b"trap", h] => Command::Trap(byte(hexadecimal(h)?)?),
        [b"irq", n] => Command::Irq(byte(decimal(n)?)?),
        [b"walk", n] => match decimal(n)? {
            n if n > ROWS => return Err(Wrong::Limit),
            n => Command::Walk(n),
        },
        [b"ret"] => Command::Ret,
        _ => return Err(name_wrong(fields[0])),
    })
}

/// What is wrong where no command has that name with that many fields.
fn name_wrong(name: &[u8]) -> Wrong {
    let known = |name: &[u8]| COMMANDS.iter().any(|c| c.as_bytes() == name);
    if known(name) {
        Wrong::Fields
    } else if known(&name.to_ascii_lowercase()) {
        Wrong::Capital
    } else {
        Wrong::Unknown
    }
}

/// A byte that no line has, or a space too many: said rather than what follows from it.
fn blank_wrong(line: &[u8], fields: &[&[u8]]) -> Option<Wrong> {
    if line.is_empty() {
        Some(Wrong::Empty)
    } else if line.contains(&b'\r') {
        Some(Wrong::CarriageReturn)
    } else if line.contains(&b'\t') {
        Some(Wrong::Tab)
    } else if fields.iter().any(|field| field.is_empty()) {
        Some(Wrong::Spaces)
    } else {
        None
    }
}

/// A line, without its line feed, to a command.
pub fn parse(line: &[u8]) -> Result<Command, Wrong> {
    if line.len() > LINE {
        return Err(Wrong::TooLong);
    }
    let fields: Vec<&[u8]> = line.split(|byte| *byte == b' ').collect();
    command(&fields).map_err(|wrong| blank_wrong(line, &fields).unwrap_or(wrong))
}

/// What a line did.
#[derive(Debug, Clone, PartialEq, Eq)]
pub enum Outcome {
    /// It set something; nothing is printed.
    Set,
    /// An entry, with its cycles.
    Entered(u32),
    /// An interrupt taken, with its cycles; none: held back.
    Interrupt(Option<u32>),
    /// A return, with what it read.
    Returned(Row),
    /// The rows of a walk, and the number that ended it early.
    Walked(Vec<Row>, Option<u32>),
    /// Refused by a number; nothing changed, but the level of an `irq` stays set.
    Refused(u32),
    /// Not understood: refused with 14.
    Wrong(Wrong),
}

/// An event of the bus: code, address, value.
pub type Event = [u32; 3];

/// One line of a session, done.
#[derive(Debug, Clone)]
pub struct Step {
    /// The command, or why there is none.
    pub command: Result<Command, Wrong>,
    /// What came.
    pub outcome: Outcome,
    /// The core before the line.
    pub before: Core,
    /// The core after it.
    pub after: Core,
    /// The events of its call, if it made one that was accepted.
    pub events: Vec<Event>,
}

impl Step {
    /// What the session program prints for the line.
    pub fn printed(&self) -> String {
        let refused = |number: u32| format!("refused {number}\n");
        match &self.outcome {
            Outcome::Set => String::new(),
            Outcome::Entered(cycles) => self.state(*cycles),
            Outcome::Interrupt(cycles) => self.state(cycles.unwrap_or(0)),
            Outcome::Returned(_) => self.state(0),
            Outcome::Walked(rows, end) => {
                let mut out = String::new();
                for row in rows {
                    writeln!(out, "{row}").unwrap();
                }
                out + &end.map_or(String::new(), refused)
            }
            Outcome::Refused(number) => refused(*number),
            Outcome::Wrong(_) => refused(LINE_REFUSED),
        }
    }

    fn state(&self, cycles: u32) -> String {
        let (pc, status, a7) = (self.after.pc(), self.after.get_sr(), self.after.dar()[15]);
        format!("{cycles} {pc:08X} {status:04X} {a7:08X}\n")
    }
}

/// Core, store and buffers of a session.
#[derive(Debug, Clone)]
pub struct Session {
    /// The core: a store at 0, no windows, no device that gives a vector.
    pub core: Core,
    /// The store.
    pub store: Vec<u8>,
    log: Vec<u32>,
    rows: Vec<u32>,
}

impl Default for Session {
    /// Before any `kind`: kind 1.
    fn default() -> Session {
        Session {
            core: Core::fresh(Kind::M68000),
            store: vec![0; STORE],
            log: vec![0; 192],
            rows: vec![0; 4 * ROWS as usize],
        }
    }
}

impl Session {
    /// Does a line.
    pub fn step(&mut self, line: &[u8]) -> Step {
        let before = self.core.clone();
        let command = parse(line);
        let (outcome, events) = match command {
            Ok(command) => self.act(command),
            Err(wrong) => (Outcome::Wrong(wrong), 0),
        };
        let words = &self.log[..3 * events as usize];
        let events = words.chunks_exact(3).map(|e| [e[0], e[1], e[2]]).collect();
        Step { command, outcome, before, after: self.core.clone(), events }
    }

    fn act(&mut self, command: Command) -> (Outcome, u32) {
        match command {
            Command::Kind(kind) => {
                self.core = Core::fresh(kind);
                self.store.fill(0);
            }
            Command::Pc(pc) => self.core.set_pc(pc),
            Command::Ppc(ppc) => self.core.set_ppc(ppc),
            Command::A7(a7) => self.core.dar_mut()[15] = a7,
            Command::Long(address, value) => return (self.long(address, value), 0),
            Command::Exc(vector) => return self.enter(Call::TakeException(vector)),
            Command::Trap(n) => return self.enter(Call::Trap(n)),
            Command::Irq(level) => return self.interrupt(level),
            Command::Walk(n) => return (self.walk(n), 0),
            Command::Ret => return (self.give_back(), 0),
        }
        (Outcome::Set, 0)
    }

    fn long(&mut self, address: u32, value: u32) -> Outcome {
        let start = address as usize;
        match self.store.get_mut(start..start.saturating_add(4)) {
            Some(bytes) => {
                bytes.copy_from_slice(&value.to_be_bytes());
                Outcome::Set
            }
            None => Outcome::Wrong(Wrong::NotStored),
        }
    }

    fn call(&mut self, wanted: Call) -> Result<Answer, u32> {
        let done = self.core.call(wanted, &mut self.store, &mut self.log);
        done.map_err(|refusal| refusal.number())
    }

    fn enter(&mut self, wanted: Call) -> (Outcome, u32) {
        match self.call(wanted) {
            Ok(answer) => (Outcome::Entered(answer.number()), answer.count()),
            Err(number) => (Outcome::Refused(number), 0),
        }
    }

    /// `set_irq` is refused only where the interrupt call then is.
    fn interrupt(&mut self, level: u8) -> (Outcome, u32) {
        let _ = self.call(Call::SetIrq(level));
        let before = self.core.cycles_remaining();
        match self.call(Call::CheckAndServiceInterrupts) {
            Ok(answer) => {
                let cycles = before.abs_diff(self.core.cycles_remaining());
                (Outcome::Interrupt((answer.number() != 0).then_some(cycles)), answer.count())
            }
            Err(number) => (Outcome::Refused(number), 0),
        }
    }

    fn walk(&mut self, n: u32) -> Outcome {
        let walked = self.core.walk(n, &self.store, &mut self.rows);
        Outcome::Walked(
            walked.rows(&self.rows).collect(),
            walked.refused.map(|refusal| refusal.number()),
        )
    }

    fn give_back(&mut self) -> Outcome {
        match self.core.return_from(&self.store) {
            Ok(row) => Outcome::Returned(row),
            Err(refusal) => Outcome::Refused(refusal.number()),
        }
    }
}

/// The lines of a session: each ends with a line feed, not counted, or with the input.
pub fn lines(input: &[u8]) -> impl Iterator<Item = &[u8]> {
    input
        .split_inclusive(|byte| *byte == b'\n')
        .map(|line| line.strip_suffix(b"\n").unwrap_or(line))
}

/// What the session program prints for an input.
pub fn predict(input: &[u8]) -> Vec<u8> {
    let mut session = Session::default();
    lines(input).flat_map(|line| session.step(line).printed().into_bytes()).collect()
}

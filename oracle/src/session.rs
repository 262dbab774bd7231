//! The session program over the lifted Rust, written from the scope alone: lines in, lines out.

use crate::bus::Bus;
use crate::calls::{perform, refusal};
use crate::case::{Call, Case, Store};
use crate::core::cpu::CpuCore;
use crate::record::Record;
use crate::unwind;
use std::io::{self, BufRead, BufWriter, ErrorKind, Write};

/// A line not understood or over its limit, a number over its limit, a `long` not served.
pub const WRONG: u8 = 14;
/// Most bytes of a line.
pub const LINE_LIMIT: usize = 80;
/// Most rows that a `walk` may ask for.
pub const WALK_LIMIT: u32 = 4096;
const LOG_WORDS: u32 = 192;

#[derive(Debug, Clone, Copy, PartialEq, Eq)]
pub enum Command {
    Kind(u8),
    Pc(u32),
    Ppc(u32),
    A7(u32),
    Long(u32, u32),
    Exc(u32),
    Trap(u8),
    Irq(u8),
    Walk(u32),
    Ret,
}

/// A number of 1 to `most` digits.
fn number(digits: &[u8], base: u32, most: usize) -> Option<u32> {
    if digits.is_empty() || digits.len() > most {
        return None;
    }
    digits.iter().try_fold(0, |n, &b| Some(n * base + char::from(b).to_digit(base)?))
}

fn decimal(digits: &[u8]) -> Option<u32> {
    number(digits, 10, 4)
}

fn hexadecimal(digits: &[u8]) -> Option<u32> {
    number(digits, 16, 8)
}

fn byte(n: u32) -> Option<u8> {
    u8::try_from(n).ok()
}

/// The command of a line, its feed left off. One space stands between fields and nowhere else.
pub fn parse(line: &[u8]) -> Option<Command> {
    if line.len() > LINE_LIMIT {
        return None;
    }
    let fields: Vec<&[u8]> = line.split(|&b| b == b' ').collect();
    Some(match fields[..] {
        [b"kind", n] => Command::Kind(byte(decimal(n)?)?),
        [b"pc", h] => Command::Pc(hexadecimal(h)?),
        [b"ppc", h] => Command::Ppc(hexadecimal(h)?),
        [b"a7", h] => Command::A7(hexadecimal(h)?),
        [b"long", a, v] => Command::Long(hexadecimal(a)?, hexadecimal(v)?),
        [b"exc", h] => Command::Exc(hexadecimal(h)?),
        [b"trap", h] => Command::Trap(byte(hexadecimal(h)?)?),
        [b"irq", n] => Command::Irq(byte(decimal(n)?)?),
        [b"walk", n] => Command::Walk(decimal(n).filter(|&n| n <= WALK_LIMIT)?),
        [b"ret"] => Command::Ret,
        _ => return None,
    })
}

/// The kind, the record in its core, the store.
pub struct Session {
    pub kind: u8,
    pub core: CpuCore,
    pub bus: Bus,
}

impl Session {
    /// What `kind` leaves: a fresh record, 65,536 zero bytes at 0, no windows, no response.
    pub fn new(kind: u8) -> Session {
        let store = Store::fresh();
        let bus = store.bus(store.bytes(), LOG_WORDS);
        Session { kind, core: Record::fresh(kind).to_core(kind), bus }
    }

    /// One line, its feed left off; what it prints is put behind `out`.
    pub fn line(&mut self, line: &[u8], out: &mut Vec<u8>) {
        let done = match parse(line) {
            Some(command) => self.act(command, out),
            None => Err(WRONG),
        };
        if let Err(number) = done {
            print(out, format_args!("refused {number}"));
        }
    }

    fn act(&mut self, command: Command, out: &mut Vec<u8>) -> Result<(), u8> {
        match command {
            Command::Kind(n) => *self = Session::new(n),
            Command::Pc(h) => self.core.pc = h,
            Command::Ppc(h) => self.core.ppc = h,
            Command::A7(h) => self.core.dar[15] = h,
            Command::Long(a, v) => {
                let at = self.bus.served(a, 4).ok_or(WRONG)?;
                self.bus.bytes[at..at + 4].copy_from_slice(&v.to_be_bytes());
            }
            Command::Exc(h) => self.enter(Call::TakeException(h), out)?,
            Command::Trap(n) => self.enter(Call::Trap(n), out)?,
            Command::Irq(n) => self.interrupt(n, out)?,
            Command::Walk(n) => self.walk(n, out)?,
            Command::Ret => self.give_back(out)?,
        }
        Ok(())
    }

    /// Refusals 1 to 10 of a call on what the session has; the store is always the fresh one by its sizes.
    fn check(&self, call: Call) -> Result<(), u8> {
        let record = Record::from_core(&self.core);
        let case = Case { call, kind: self.kind, record, store: Store::fresh(), log: LOG_WORDS };
        match refusal(&case) {
            0 => Ok(()),
            number => Err(number),
        }
    }

    /// A call of the lifted Rust, unless a number refuses it.
    fn perform(&mut self, call: Call) -> Result<i64, u8> {
        self.check(call)?;
        self.bus.events.clear();
        Ok(perform(&mut self.core, &mut self.bus, call))
    }

    fn enter(&mut self, call: Call, out: &mut Vec<u8>) -> Result<(), u8> {
        let cycles = self.perform(call)?;
        self.report(cycles, out);
        Ok(())
    }

    /// The level is set by a call of its own, so it stays if the interrupt call is refused. The cycles are what it charges.
    fn interrupt(&mut self, level: u8, out: &mut Vec<u8>) -> Result<(), u8> {
        self.perform(Call::SetIrq(level))?;
        let before = self.core.cycles_remaining;
        self.perform(Call::CheckAndServiceInterrupts)?;
        self.report(i64::from(before) - i64::from(self.core.cycles_remaining), out);
        Ok(())
    }

    fn give_back(&mut self, out: &mut Vec<u8>) -> Result<(), u8> {
        self.check(Call::Return)?;
        let mut record = Record::from_core(&self.core);
        unwind::back(self.kind, &mut record, &self.bus)?;
        record.put(&mut self.core);
        self.report(0, out);
        Ok(())
    }

    fn walk(&self, n: u32, out: &mut Vec<u8>) -> Result<(), u8> {
        self.check(Call::Walk { n, words: 4 * n })?;
        let record = Record::from_core(&self.core);
        let (rows, refused) = unwind::walk(self.kind, &record, &self.bus, n);
        for [format, status, address, offset] in rows {
            print(out, format_args!("{format:X} {status:04X} {address:08X} {offset:03X}"));
        }
        if refused == 0 { Ok(()) } else { Err(refused) }
    }

    fn report(&self, cycles: i64, out: &mut Vec<u8>) {
        let (pc, status, a7) = (self.core.pc, self.core.get_sr(), self.core.dar[15]);
        print(out, format_args!("{cycles} {pc:08X} {status:04X} {a7:08X}"));
    }
}

fn print(out: &mut Vec<u8>, line: std::fmt::Arguments) {
    writeln!(out, "{line}").expect("memory takes every byte");
}

/// The program: input to its end, in memory that does not grow with it.
pub fn play(mut input: impl BufRead, out: impl Write) -> io::Result<()> {
    let mut out = BufWriter::with_capacity(1 << 16, out);
    let mut session = Session::new(1);
    let (mut line, mut printed) = (vec![], vec![]);
    loop {
        let block = match input.fill_buf() {
            Err(e) if e.kind() == ErrorKind::Interrupted => continue,
            block => block?,
        };
        let length = block.len();
        for &byte in block {
            if byte == b'\n' {
                session.line(&line, &mut printed);
                out.write_all(&printed)?;
                line.clear();
                printed.clear();
            } else if line.len() <= LINE_LIMIT {
                line.push(byte);
            }
        }
        if length == 0 {
            break;
        }
        input.consume(length);
        out.flush()?;
    }
    if !line.is_empty() {
        session.line(&line, &mut printed);
        out.write_all(&printed)?;
    }
    out.flush()
}

#[cfg(test)]
mod tests {
    use super::*;
    use std::io::Read;

    fn printed(input: &str) -> String {
        let mut out = vec![];
        play(input.as_bytes(), &mut out).unwrap();
        String::from_utf8(out).unwrap()
    }

    #[test]
    fn no_byte_prints_nothing_and_an_empty_line_is_wrong() {
        assert_eq!(printed(""), "");
        assert_eq!(printed("\n"), "refused 14\n");
        assert_eq!(printed("pc 1\n"), "");
        assert_eq!(printed("pc 1\n\n"), "refused 14\n");
    }

    #[test]
    fn before_any_kind_it_is_kind_1() {
        let rest = "a7 8000\nirq 7\ntrap 0\nwalk 3\n";
        assert_eq!(printed(rest), printed(&format!("kind 1\n{rest}")));
        assert_ne!(printed(rest), printed(&format!("kind 0\n{rest}")));
    }

    #[test]
    fn a_last_line_without_its_feed_is_a_line() {
        assert_eq!(printed("a7 8000\npc 1000\ntrap F"), printed("a7 8000\npc 1000\ntrap F\n"));
        assert_eq!(printed("x"), "refused 14\n");
    }

    /// No right line has more than 22 bytes, so what is printed cannot tell 80 from 81: `parse` can.
    #[test]
    fn a_line_over_its_limit_is_one_wrong_line() {
        for n in [23, 79, 80, 81, 82, 200, 100_000] {
            assert_eq!(
                printed(&format!("{}\nret\n", "a".repeat(n))),
                "refused 14\n0 00000000 0000 00000000\n"
            );
        }
    }

    /// No session of a length that could be played reaches number 3: the clocks are set by hand.
    #[test]
    fn the_level_stays_if_the_interrupt_call_is_refused() {
        let mut session = Session::new(2);
        session.core.cycles_remaining = i32::MIN;
        let mut out = vec![];
        session.line(b"irq 7", &mut out);
        assert_eq!((out.as_slice(), session.core.int_level), (&b"refused 3\n"[..], 7));
    }

    #[test]
    fn the_answer_does_not_depend_on_the_cuts() {
        let input = "kind 2\na7 8000\nlong BC 2000\ntrap F\nwalk 1\nret\nwalk 9\n\nret";
        for cut in 0..=input.len() {
            let (first, rest) = input.as_bytes().split_at(cut);
            let mut out = vec![];
            play(io::BufReader::with_capacity(cut.max(1), first.chain(rest)), &mut out).unwrap();
            assert_eq!(String::from_utf8(out).unwrap(), printed(input), "cut at {cut}");
        }
    }
}

//! Random sessions for the session program: right and wrong lines, nests, frames written by `long`, numbers at their limits.

use crate::record::Record;
use crate::rng::Rng;
use crate::session::Session;
use crate::unwind::{LENGTHS, address_mask, put_status};

const STORE: u32 = 0x1_0000;

/// Sessions one after another, each from its `kind` on.
pub fn list(rng: &mut Rng, sessions: u64) -> Vec<u8> {
    input(rng, sessions, false)
}

/// An input of its own: its first session may begin without a `kind`, its last line may lack its feed.
pub fn batch(rng: &mut Rng, sessions: u64) -> Vec<u8> {
    let bare = rng.percent(30);
    let mut input = input(rng, sessions, bare);
    if rng.flag() {
        input.pop();
    }
    input
}

fn input(rng: &mut Rng, sessions: u64, bare: bool) -> Vec<u8> {
    let mut maker = Maker { rng, session: Session::new(1), input: vec![], depth: 0 };
    for number in 0..sessions {
        maker.session(bare && number == 0);
    }
    maker.input
}

/// The input so far, and where it has brought the session: what comes next is chosen by that.
struct Maker<'a> {
    rng: &'a mut Rng,
    session: Session,
    input: Vec<u8>,
    /// Entries taken less returns made.
    depth: u32,
}

impl Maker<'_> {
    /// Adds a line and plays it.
    fn add(&mut self, line: impl AsRef<[u8]>) {
        let line = line.as_ref();
        let mut printed = vec![];
        self.session.line(line, &mut printed);
        let done = !printed.is_empty() && !printed.starts_with(b"refused");
        if line == b"ret" {
            self.depth = self.depth.saturating_sub(done as u32);
        } else if !line.starts_with(b"walk") {
            self.depth += u32::from(done && !printed.starts_with(b"0 "));
        }
        self.input.extend_from_slice(line);
        self.input.push(b'\n');
    }

    /// Either case of digits, up to 8 of them.
    fn hex(&mut self, value: u32) -> String {
        let least = format!("{value:X}").len();
        let width = match self.rng.below(4) {
            0 => least + self.rng.below(9 - least as u32) as usize,
            1 => 8,
            _ => least,
        };
        let text = format!("{value:0width$X}");
        match self.rng.below(4) {
            0 => text.to_lowercase(),
            1 => text
                .chars()
                .map(|c| if self.rng.flag() { c } else { c.to_ascii_lowercase() })
                .collect(),
            _ => text,
        }
    }

    /// Up to 4 digits.
    fn decimal(&mut self, value: u32) -> String {
        let width = if self.rng.percent(20) { 1 + self.rng.below(4) as usize } else { 1 };
        format!("{value:0width$}")
    }

    fn session(&mut self, bare: bool) {
        self.depth = 0;
        if !bare {
            let kind =
                if self.rng.percent(4) { 12 + self.rng.below(244) } else { self.rng.below(12) };
            let kind = self.decimal(kind);
            self.add(format!("kind {kind}"));
        }
        self.set_up();
        match self.rng.below(6000) {
            0 => self.deep(4100),
            1..60 => self.deep(150),
            _ => {}
        }
        for _ in 0..2 + self.rng.below(20) {
            self.step();
        }
        if self.rng.percent(70) {
            self.unwind();
        }
    }

    fn set_up(&mut self) {
        if self.rng.percent(90) {
            self.a7();
        }
        if self.rng.percent(70) {
            self.counters();
        }
        for _ in 0..self.rng.below(5) {
            self.vector();
        }
        if self.rng.percent(65) {
            self.start();
        }
    }

    /// A place for a stack with room on both sides.
    fn a7_inside(&mut self) {
        let at = 0x1000 + 2 * self.rng.below(0x7000);
        let at = self.hex(at);
        self.add(format!("a7 {at}"));
    }

    /// Returns to any status from frames written for them; the stack that each brings is placed. Entries then run far.
    fn start(&mut self) {
        self.a7_inside();
        for _ in 0..1 + self.rng.below(2) {
            let mut status = self.status();
            if self.rng.percent(30) {
                status |= 0x3000;
            }
            self.write_frame(self.session.core.dar[15], status, 0);
            self.add("ret");
            self.a7_inside();
            if self.session.core.s_flag == 0 {
                return;
            }
        }
    }

    fn step(&mut self) {
        match self.rng.below(100) {
            0..40 => self.entry(),
            40..50 => self.add("ret"),
            50..60 => self.walk(),
            60..72 => self.frame(),
            72..77 => self.a7(),
            77..82 => self.counters(),
            82..88 => self.vector(),
            88..91 => self.long(),
            91..94 => self.limit(),
            _ => self.wrong(),
        }
    }

    /// Many entries; stacks from the top of the store down.
    fn deep(&mut self, entries: u32) {
        self.add("a7 10000");
        for _ in 0..entries {
            let n = self.rng.below(16);
            self.add(format!("trap {n:X}"));
        }
        let n = entries.min(4096) - self.rng.below(3);
        self.add(format!("walk {n}"));
    }

    /// Walks of the depth and around it, and returns until one is refused or enough.
    fn unwind(&mut self) {
        let depth = self.depth.min(40);
        if self.rng.flag() {
            let n = depth + self.rng.below(2);
            self.add(format!("walk {n}"));
        }
        for _ in 0..depth + self.rng.below(3) {
            self.add("ret");
            if self.session.core.s_flag == 0 && self.rng.flag() {
                return;
            }
            if self.rng.percent(10) {
                self.walk();
            }
        }
    }

    /// A place for a stack: mostly even and inside, else towards a limit.
    fn pointer(&mut self) -> u32 {
        let inside = 0x200 + 2 * self.rng.below(0x7F00);
        match self.rng.below(100) {
            0..68 => inside,
            68..75 => STORE - self.rng.below(0x68),
            75..80 => self.rng.below(0x68),
            80..86 => inside | 1,
            86..89 => STORE + self.rng.below(16),
            89..92 => 0xFFFF_FFF0 + self.rng.below(16),
            92..97 => inside ^ self.rng.word() << 24,
            _ => self.rng.word(),
        }
    }

    fn a7(&mut self) {
        let at = self.pointer();
        let at = self.hex(at);
        self.add(format!("a7 {at}"));
    }

    fn program(&mut self) -> u32 {
        match self.rng.below(8) {
            0 => self.rng.pick(&[0, 1, 2, 0xFFFF, 0x1_0000, 0x7FFF_FFFF, 0xFFFF_FFFE, 0xFFFF_FFFF]),
            1 => self.rng.word(),
            2 => self.rng.below(STORE) | 1,
            _ => 2 * self.rng.below(STORE / 2),
        }
    }

    fn counters(&mut self) {
        for name in ["pc", "ppc"] {
            if self.rng.percent(75) {
                let at = self.program();
                let at = self.hex(at);
                self.add(format!("{name} {at}"));
            }
        }
    }

    /// Where a handler lies, for a vector that an entry may take; 2 and 3 are those of faults.
    fn vector(&mut self) {
        let vector = match self.rng.below(10) {
            0 | 1 => 2 + self.rng.below(2),
            2..5 => 24 + self.rng.below(8),
            5..8 => 32 + self.rng.below(16),
            _ => self.rng.below(256),
        };
        let handler = self.program();
        self.put(4 * vector, handler);
    }

    fn put(&mut self, address: u32, value: u32) {
        let (address, value) = (self.hex(address), self.hex(value));
        self.add(format!("long {address} {value}"));
    }

    /// A `long` anywhere, served or not.
    fn long(&mut self) {
        let address = match self.rng.below(6) {
            0 => self.rng.pick(&[0, 1, 0xFFFA, 0xFFFB, 0xFFFC, 0xFFFD, 0xFFFE, 0xFFFF, 0x1_0000]),
            1 => self.rng.pick(&[0x0100_0000, 0xFF00_8000, 0xFFFF_FFFC, 0xFFFF_FFFF]),
            2 => self.session.core.dar[15].wrapping_add(self.rng.below(16)),
            _ => self.rng.below(STORE),
        };
        let value = self.rng.word();
        self.put(address, value);
    }

    fn entry(&mut self) {
        let line = match self.rng.below(10) {
            0..3 => {
                let n = if self.rng.percent(90) { self.rng.below(16) } else { self.rng.below(256) };
                format!("trap {}", self.hex(n))
            }
            3..6 => {
                let v = match self.rng.below(20) {
                    0 => self.rng.pick(&[0x100, 0x101, 0xFFFF, 0xFFFF_FFFF]),
                    1..8 => self.rng.pick(&[2, 3, 4, 5, 6, 7, 8, 9, 10, 11]),
                    _ => self.rng.below(256),
                };
                format!("exc {}", self.hex(v))
            }
            _ => {
                let above = (self.session.core.int_mask >> 8 & 7) + 1;
                let level = match self.rng.below(10) {
                    0..5 => (above + self.rng.below(2)).min(7),
                    5 | 6 => 7,
                    7 | 8 => self.rng.below(8),
                    _ => self.rng.below(256),
                };
                format!("irq {}", self.decimal(level))
            }
        };
        self.add(line);
    }

    fn walk(&mut self) {
        let n = match self.rng.below(10) {
            0..5 => self.depth,
            5 | 6 => self.depth + 1,
            7 | 8 => self.rng.below(6),
            _ => self.rng.pick(&[0, 4096, 4095, 100]),
        };
        let n = self.decimal(n.min(4096));
        self.add(format!("walk {n}"));
    }

    /// A status to return to: mostly supervisor, with any mask and flags.
    fn status(&mut self) -> u32 {
        let mut status = self.rng.word() & 0x071F;
        for (bit, chance) in [(0x8000, 10), (0x4000, 10), (0x2000, 80), (0x1000, 30), (0x08E0, 10)]
        {
            if self.rng.percent(chance) {
                status |= bit;
            }
        }
        status
    }

    fn format(&mut self) -> u32 {
        let lengths = LENGTHS[usize::from(self.session.kind.min(11))];
        let taken: Vec<u32> = (0..16).filter(|&f| lengths[f as usize] != 0).collect();
        match self.rng.below(10) {
            0 | 1 => 1,
            2 => self.rng.below(16),
            _ if taken.is_empty() => 0,
            _ => self.rng.pick(&taken),
        }
    }

    /// The first 8 bytes of a frame. `long` does not mask its address; the return does.
    fn write_frame(&mut self, at: u32, status: u32, format: u32) {
        let address = self.program();
        let offset =
            if self.rng.percent(80) { 4 * self.rng.below(256) } else { self.rng.below(0x1000) };
        let at = if self.rng.percent(95) { at & address_mask(self.session.kind) } else { at };
        self.put(at, status << 16 | address >> 16);
        self.put(at.wrapping_add(4), address << 16 | format << 12 | offset);
    }

    /// A frame at A7, there or at a new place, with its second one behind format 1; then often a return or a walk.
    fn frame(&mut self) {
        if self.rng.flag() {
            self.a7();
        }
        let at = self.session.core.dar[15];
        let (status, format) = (self.status(), self.format());
        self.write_frame(at, status, format);
        if format == 1 && self.rng.percent(90) {
            let next = self.after(at, status);
            let (status, mut format) = (self.status(), self.format());
            if format == 1 && self.rng.percent(80) {
                format = 0;
            }
            self.write_frame(next, status, format);
        }
        match self.rng.below(10) {
            0..5 => self.give_back(),
            5..7 => self.walk(),
            _ => {}
        }
    }

    /// Where A7 is after a frame of 8 bytes that sets a status.
    fn after(&self, at: u32, status: u32) -> u32 {
        let mut record = Record::from_core(&self.session.core);
        record.dar[15] = at.wrapping_add(8);
        put_status(self.session.kind, &mut record, status as u16);
        record.dar[15]
    }

    /// A return; the stack that it brings may still lie at 0.
    fn give_back(&mut self) {
        self.add("ret");
        if self.session.core.dar[15] == 0 && self.rng.percent(80) {
            self.a7();
        }
    }

    fn one_of(&mut self, list: &str) -> Vec<u8> {
        let lines: Vec<&str> = list.split('|').collect();
        self.rng.pick(&lines).into()
    }

    /// A line at the limit of its number.
    fn limit(&mut self) {
        let line = self.one_of(LIMITS);
        self.add(line);
    }

    /// A line that is right, of any command.
    fn right(&mut self) -> String {
        let h = self.rng.word() >> (4 * self.rng.below(8));
        let h = self.hex(h);
        let n = self.rng.below(12);
        match self.rng.below(10) {
            0 => format!("kind {n}"),
            1 => format!("pc {h}"),
            2 => format!("ppc {h}"),
            3 => format!("a7 {h}"),
            4 => format!("long {:X} {h}", 2 * n),
            5 => format!("exc {n:X}"),
            6 => format!("trap {n:x}"),
            7 => format!("irq {n}"),
            8 => format!("walk {n}"),
            _ => "ret".into(),
        }
    }

    fn wrong(&mut self) {
        let line = match self.rng.below(20) {
            0 => vec![],
            1..5 => self.one_of(WRONG_LINES),
            5..9 => self.one_of(OVER),
            9..13 => self.padded(),
            _ => self.spoiled(),
        };
        self.add(line);
    }

    /// A line brought to a length around the limit, or far over it.
    fn padded(&mut self) -> Vec<u8> {
        let length = match self.rng.below(400) {
            0 => 100_000,
            _ => self.rng.pick(&[22, 23, 79, 80, 81, 82, 160, 161, 162, 200]),
        };
        let mut line = self.right().into_bytes();
        let pad = self.rng.pick(b" 0aF\tk\r\0");
        if self.rng.flag() {
            line.resize(length.max(line.len()), pad);
        } else {
            let at = line.iter().position(|&b| b == b' ').map_or(0, |i| i + 1);
            let more = length.saturating_sub(line.len());
            line.splice(at..at, vec![pad; more]);
        }
        line
    }

    /// A right line with one thing wrong.
    fn spoiled(&mut self) -> Vec<u8> {
        let mut line = self.right().into_bytes();
        let space = line.iter().position(|&b| b == b' ');
        let at = self.rng.below(line.len() as u32) as usize;
        match self.rng.below(11) {
            0 => line[at.min(2)].make_ascii_uppercase(),
            1 => line.make_ascii_uppercase(),
            2 => line[space.unwrap_or(0)] = b'\t',
            3 => line.push(b'\r'),
            4 => line.insert(space.unwrap_or(0), b' '),
            5 => line.push(b' '),
            6 => line.insert(0, b' '),
            7 => line.truncate(space.map_or(2, |i| i + self.rng.below(2) as usize)),
            8 => line.extend_from_slice(b" 1"),
            9 => line[at] = self.rng.pick(b"gGxX-+./:@`_,;\0\x7F\x80\xFF \t\r"),
            _ => {
                let at = space.map_or(0, |i| i + 1);
                line.splice(at..at, b"00000000".iter().copied());
            }
        }
        line
    }
}

/// Lines at the limits of their numbers; `|` stands between two.
const LIMITS: &str = "walk 0|walk 0000|walk 4096|irq 255|irq 0255|irq 0|trap FF|trap 000000ff|trap 0|exc FF|\
    exc 000000Ff|exc 100|exc FFFFFFFF|exc 0|long FFFC 20002700|long 0000fffc FFFFFFFF|long 0 0|pc FFFFFFFF|\
    ppc ffffffff|pc 0|pc 00000000|a7 0|a7 1|a7 8|a7 fffa|a7 FFFE|a7 10000|a7 FFFFFFFF";

/// Numbers and digits over their limits, and places that are not served.
const OVER: &str = "kind 256|kind 999|kind 9999|kind 00001|irq 256|irq 9999|irq 00007|trap 100|trap 1FF|\
    trap FFFFFFFF|trap 00000000F|walk 4097|walk 9999|walk 04096|long FFFD 0|long FFFF 0|long 10000 0|\
    long FF000000 0|long FFFFFFFF 0|long 0 000000001|pc 123456789|exc 100000000";

/// What a person may write.
const WRONG_LINES: &str = " |\t|\r|#|# a comment|kind|kind |kind -1|kind 2.|kind A|kind2|KIND 2|Kind 2|irq F|trap g|\
    walk|walk F|long 0|long 0 0 0|pc 0x10|pc $10|ret |ret 1|RET|rte|ret\r|re|rets|ret ret|a7|trap 0;ret";

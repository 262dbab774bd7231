//! Nests: lists of direct entries, returns and handlers that meet the premises of rule 3, with the book kept from the calls' arguments
//! alone. At the end of a list the walk of the depth and as many returns must give what the book holds.

use crate::calls::run;
use crate::case::{Call, Case, Outcome, Row, Store};
use crate::leaf;
use crate::record::Record;
use crate::rng::Rng;
use crate::text::set_status;
use crate::unwind::{LENGTHS, address_mask, status_mask};

/// Bytes that the vectors 0 to 63 take at the start of the store.
const VECTORS: u32 = 256;

/// A frame of the book: its first byte, unmasked, and its length.
#[derive(Clone, Copy)]
struct Frame {
    at: u32,
    length: u32,
}

/// A line of the book: the row, the A7 met, the frames.
struct Line {
    row: Row,
    a7: u32,
    frames: Vec<Frame>,
}

/// A list as far as it has come. The store is held as bytes; a case gets it as patches over zeros.
struct Nest {
    kind: u8,
    record: Record,
    base: u32,
    bytes: Vec<u8>,
    /// Offset of the vectors, which grows and falls as handlers move the base.
    lead: u32,
    win: Vec<(u32, u32)>,
    ack: [u32; 8],
    book: Vec<Line>,
    cases: Vec<(Case, Outcome)>,
}

/// The cases of one list with their answers, or what went against rule 3.
pub fn list(rng: &mut Rng) -> Result<Vec<(Case, Outcome)>, String> {
    let mut nest = start(rng);
    nest.unfit(rng)?;
    let deep = rng.below(200) == 0;
    let steps = if deep { 120 } else { 2 + rng.below(9) };
    for _ in 0..steps {
        match rng.below(100) {
            0..60 => nest.entry(rng, deep),
            60..75 if !deep => nest.give_back()?,
            75..82 => nest.refused(rng)?,
            _ => nest.handlers(rng),
        }
    }
    nest.end(rng)?;
    Ok(nest.cases)
}

/// Even places for the three stacks, from the top of the store down; they may touch.
fn start(rng: &mut Rng) -> Nest {
    let kind = rng.below(12) as u8;
    let size = rng.pick(&[1024, 2048, 4096, 6144]);
    let top = if address_mask(kind) == u32::MAX { 1 << 32 } else { 1u64 << 24 };
    let base = match rng.below(4) {
        0 => (top - u64::from(size)) as u32,
        1 => 2 * rng.below(0x4000),
        _ => 0,
    };
    let mut record = Record::fresh(kind);
    let third = (size - VECTORS) / 3 & !1;
    let mut places = [0, third, 2 * third];
    places.rotate_left(rng.below(3) as usize);
    let end = base.wrapping_add(size);
    for (bank, place) in [0, 4, 6].into_iter().zip(places) {
        record.sp[bank] = end.wrapping_sub(place);
    }
    let mut nest = Nest {
        kind,
        record,
        base,
        bytes: vec![0; size as usize],
        lead: 0,
        win: vec![],
        ack: [u32::MAX; 8],
        book: vec![],
        cases: vec![],
    };
    nest.record.vbr = base & !1;
    nest.status(rng, None);
    nest.record.dar[15] = nest.record.sp[nest.bank()];
    for vector in 0..VECTORS / 4 {
        let at = nest.handler(rng);
        nest.put(4 * vector, &at.to_be_bytes());
    }
    nest.shuffle(rng);
    nest
}

impl Nest {
    fn put(&mut self, at: u32, data: &[u8]) {
        self.bytes[at as usize..at as usize + data.len()].copy_from_slice(data);
    }

    /// Where a handler lies: in the store, so that its prefetch is served; sometimes odd, and nothing is prefetched.
    fn handler(&self, rng: &mut Rng) -> u32 {
        let at = self.base.wrapping_add(self.lead + 2 * rng.below(VECTORS / 2));
        if rng.percent(10) { at | 1 } else { at }
    }

    fn bank(&self) -> usize {
        let r = &self.record;
        match (r.s_flag != 0, r.m_flag != 0 && self.kind != 11) {
            (false, _) => 0,
            (true, false) => 4,
            (true, true) => 6,
        }
    }

    /// The pointer in force of a bank.
    fn pointer(&self, bank: usize) -> u32 {
        if bank == self.bank() { self.record.dar[15] } else { self.record.sp[bank] }
    }

    /// A status inside the kind's mask, with S and M as given or any.
    fn status(&mut self, rng: &mut Rng, keep: Option<u16>) {
        let bits = (rng.word() & 0xFFFF) as u16 & status_mask(self.kind);
        let sr = keep.map_or(bits, |sm| bits & !0x3000 | sm & 0x3000);
        set_status(&mut self.record, sr);
    }

    /// What rule 3 does not speak of, at will.
    fn shuffle(&mut self, rng: &mut Rng) {
        let r = &mut self.record;
        (r.pc, r.ppc, r.ir) = (rng.word(), rng.word(), rng.word());
        r.int_level = rng.pick(&[0, 1, 2, 3, 4, 5, 6, 7, 7, 7, 8, 15]);
        r.precise_bus = rng.flag();
        r.pending_sync_clocks = rng.below(9);
        r.cycles_remaining = rng.below(1000) as i32 - 500;
        r.run_mode = 0;
        r.stopped = rng.below(2);
        r.exception_processing = false;
        r.pending_fault_cause = rng.below(9) as u8;
        r.pending_fault_wdata = rng.word();
        r.mmu_fc_override = rng.flag().then(|| rng.below(8) as u8);
        let register = rng.below(15) as usize;
        r.dar[register] = rng.word();
    }

    fn case(&self, call: Call, log: u32) -> Case {
        let mut patch: Vec<(u32, Vec<u8>)> = vec![];
        for (at, &byte) in self.bytes.iter().enumerate().filter(|(_, b)| **b != 0) {
            match patch.last_mut() {
                Some((start, run)) if *start as usize + run.len() == at => run.push(byte),
                _ => patch.push((at as u32, vec![byte])),
            }
        }
        let len = self.bytes.len() as u64;
        let store =
            Store { base: self.base, len, fill: 0, patch, win: self.win.clone(), ack: self.ack };
        Case { call, kind: self.kind, record: self.record.clone(), store, log }
    }

    /// Record and store as the call left them.
    fn adopt(&mut self, case: Case, out: Outcome) {
        self.record = out.record.clone();
        for (at, run) in &out.changes {
            self.put(*at, run);
        }
        self.cases.push((case, out));
    }

    fn sound(&self) -> bool {
        let r = &self.record;
        let sr = leaf::get_sr(r);
        let even = [r.dar[15], r.sp[0], r.sp[4], r.sp[6]].iter().all(|p| p % 2 == 0);
        let own = (sr & 0x2000 != 0) == (r.s_flag != 0) && (sr & 0x1000 != 0) == (r.m_flag != 0);
        r.run_mode != 1
            && !r.exception_processing
            && even
            && sr & !status_mask(self.kind) == 0
            && own
    }

    fn masked(&self, address: u32) -> u32 {
        address & address_mask(self.kind)
    }

    /// The bytes of a frame are served, do not cross the top and lie in no live frame.
    fn fits(&self, frame: Frame, others: &[Frame]) -> bool {
        let first = u64::from(self.masked(frame.at));
        let end = first + u64::from(frame.length);
        let bus = self.case(Call::Return, 0).store.bus(self.bytes.clone(), 0);
        let served =
            (0..frame.length).all(|i| bus.byte(self.masked(frame.at.wrapping_add(i))).is_some());
        let apart = |f: &Frame| {
            let other = u64::from(self.masked(f.at));
            end <= other || other + u64::from(f.length) <= first
        };
        served && end <= u64::from(address_mask(self.kind)) + 1 && others.iter().all(apart)
    }

    /// An entry whose premises hold; another that was drawn is left out.
    fn entry(&mut self, rng: &mut Rng, small: bool) {
        let call = direct(rng, self.kind, small);
        let Some((row, frames)) = self.stacked(call) else {
            let case = self.case(call, 192);
            let out = run(&case);
            return self.adopt(case, out);
        };
        let mut live: Vec<Frame> = self.book.iter().flat_map(|line| line.frames.clone()).collect();
        let error =
            matches!(call, Call::ExceptionAddressError { .. } | Call::ExceptionBusError { .. });
        if !self.sound() || self.kind == 1 && error {
            return;
        }
        for &frame in &frames {
            if !self.fits(frame, &live) {
                return;
            }
            live.push(frame);
        }
        let case = self.case(call, 192);
        let out = run(&case);
        let clean = out.record.run_mode != 1 && out.events.iter().all(|e| e[0] < 16);
        if out.refused != 0 || !clean {
            return;
        }
        self.book.push(Line { row, a7: self.record.dar[15], frames });
        self.adopt(case, out);
    }

    /// The row and the frames that a direct entry makes, from the scope's "Frames" and "One interrupt"; none where it is not taken.
    fn stacked(&self, call: Call) -> Option<(Row, Vec<Frame>)> {
        let r = &self.record;
        let k = self.kind;
        let early = matches!(k, 2 | 10);
        let forty = matches!(k, 7..=9);
        let next = |v: u32| matches!(v, 5 | 7 | 9 | 24..=47);
        let exception = |v: u32| (0, v, if next(v) { r.pc } else { r.ppc });
        let group = |v: u32| (if early || k == 1 { 0 } else { 2 }, v, r.pc);
        let held = |x| if r.exception_processing { None } else { Some(x) };
        let (format, vector, address) = match call {
            Call::TakeException(v) => held(exception(v))?,
            Call::Trap(n) | Call::TakeTrapException(n) => held(exception(32 + u32::from(n) % 16))?,
            Call::ExceptionPrivilege => held(exception(8))?,
            // PC goes back to the instruction first.
            Call::TakeAlineException => held((0, 10, r.ppc))?,
            Call::TakeFlineException => held((0, 11, r.ppc))?,
            Call::TakeBkptException | Call::TakeIllegalException => held((0, 4, r.ppc))?,
            Call::TakeGroup2Exception(v) => group(v),
            Call::ExceptionChk => group(6),
            Call::ExceptionZeroDivide => group(5),
            Call::ExceptionTrace => group(9),
            Call::ExceptionAddressError { .. } => (
                if early {
                    8
                } else if forty {
                    2
                } else {
                    0
                },
                3,
                r.ppc,
            ),
            Call::ExceptionBusError { .. } => (
                if early {
                    8
                } else if k == 11 {
                    4
                } else if forty {
                    7
                } else {
                    11
                },
                2,
                r.ppc,
            ),
            Call::TakeFpUnimp060(_) => (2, 11, r.pc),
            Call::TakeFpDisabled060 => (4, 11, r.ppc),
            Call::CheckAndServiceInterrupts => {
                let level = r.int_level & 7;
                if level != 7 && level <= r.int_mask >> 8 & 7 {
                    return None;
                }
                let response = self.ack[level as usize];
                (0, if response == u32::MAX { 24 + level } else { response & 0xFF }, r.pc)
            }
            _ => return None,
        };
        let length = if k == 1 { 6 } else { u32::from(LENGTHS[k as usize][format as usize]) };
        let master = r.m_flag != 0 && k != 11;
        let under =
            Frame { at: self.pointer(if master { 6 } else { 4 }).wrapping_sub(length), length };
        let status = u32::from(leaf::get_sr(r));
        let offset = if k == 1 { 0 } else { vector * 4 };
        let interrupt = call == Call::CheckAndServiceInterrupts;
        if interrupt && r.m_flag != 0 && matches!(k, 3..=9) {
            let upper = Frame { at: self.pointer(4).wrapping_sub(8), length: 8 };
            return Some(([1, status, address, offset], vec![under, upper]));
        }
        Some(([if k == 1 { 0 } else { format }, status, address, offset], vec![under]))
    }

    /// A return. While one is open it must give back what the latest line of the book holds; else it may do anything.
    fn give_back(&mut self) -> Result<(), String> {
        let case = self.case(Call::Return, 0);
        let out = run(&case);
        let Some(line) = self.book.last() else {
            self.adopt(case, out);
            return Ok(());
        };
        let (row, a7) = (line.row, line.a7);
        let gives = (u32::from(out.status), out.record.pc, out.record.dar[15]);
        if out.refused != 0 || out.rows != [row] || gives != (row[1], row[2], a7) {
            return Err(format!(
                "a return gives {gives:x?}, {:x?}; the book {row:x?}, A7 {a7:x}",
                out.rows
            ));
        }
        self.book.pop();
        self.adopt(case, out);
        Ok(())
    }

    /// A start that a number refuses, with none open: calls change nothing until handlers leave it fit.
    fn unfit(&mut self, rng: &mut Rng) -> Result<(), String> {
        let kept = (self.record.clone(), self.base, self.win.clone());
        let number = match rng.below(50) {
            0 => {
                self.record.s_flag = rng.pick(&[1, 2, 3, 5, u32::MAX]);
                1
            }
            1 if matches!(self.kind, 1 | 2 | 10) => {
                self.record.vbr |= 1;
                2
            }
            2 => {
                self.record.mmu_fc_override = Some(8);
                4
            }
            3 => {
                self.base = u32::MAX;
                5
            }
            4 => {
                self.win = vec![(1, 0); 9];
                6
            }
            5 => {
                self.win = vec![(u32::MAX, 2)];
                6
            }
            _ => return Ok(()),
        };
        let call = direct(rng, self.kind, true);
        self.expect(call, 192, number)?;
        self.expect(Call::Return, 0, number)?;
        (self.record, self.base, self.win) = kept;
        Ok(())
    }

    /// A call that this number refuses, with nothing changed.
    fn expect(&mut self, call: Call, log: u32, number: u8) -> Result<(), String> {
        let case = self.case(call, log);
        let out = run(&case);
        if out.refused != number || out.record != self.record || !out.changes.is_empty() {
            return Err(format!("{call:?} is refused by {}, not {number}", out.refused));
        }
        self.cases.push((case, out));
        Ok(())
    }

    /// A call that a number refuses: nothing changes.
    fn refused(&mut self, rng: &mut Rng) -> Result<(), String> {
        let depth = self.book.len() as u32;
        if rng.below(6) == 0 {
            self.record.cycles_remaining = i32::MIN + rng.below(46) as i32;
            return self.expect(Call::CheckAndServiceInterrupts, 192, 3);
        }
        let case = match rng.below(5) {
            0 => self.case(Call::TakeException(256 + rng.below(1000)), 192),
            1 => self.case(Call::TakeGroup2Exception(u32::MAX), 192),
            2 => self.case(Call::Trap(1), 191),
            3 if self.kind != 11 => self.case(Call::TakeFpDisabled060, 192),
            _ => self.case(Call::Walk { n: depth + 1, words: 4 * depth + 3 }, 0),
        };
        let out = run(&case);
        if out.refused == 0 || out.record != self.record || !out.changes.is_empty() {
            return Err(format!("{:?} is not refused, or changes something", case.call));
        }
        self.cases.push((case, out));
        Ok(())
    }

    /// Handlers: kind, S, M, pointers and live frames stay, everything else may change, the store's base and end too.
    fn handlers(&mut self, rng: &mut Rng) {
        let sr = leaf::get_sr(&self.record);
        self.status(rng, Some(sr));
        self.shuffle(rng);
        self.ack = std::array::from_fn(|_| if rng.flag() { u32::MAX } else { rng.below(64) });
        // A stale copy of the pointer in use is no pointer.
        let bank = self.bank();
        self.record.sp[bank] = rng.word() & !1;
        self.move_base(rng);
        let live: Vec<Frame> = self.book.iter().flat_map(|line| line.frames.clone()).collect();
        let (base, kind, first) = (self.base, self.kind, self.lead + VECTORS);
        let inside = |at: u32| {
            let a = base.wrapping_add(at) & address_mask(kind);
            live.iter()
                .any(|f| (0..f.length).any(|i| f.at.wrapping_add(i) & address_mask(kind) == a))
        };
        for _ in 0..rng.below(4) {
            let at = first + rng.below(self.bytes.len() as u32 - first);
            if !inside(at) {
                self.bytes[at as usize] = rng.word() as u8;
            }
        }
        self.win = vec![];
        if rng.percent(30) {
            let at = first + rng.below(self.bytes.len() as u32 - first - 8);
            if !(at..at + 4).any(inside) {
                self.win.push((base.wrapping_add(at), 4));
            }
            self.win.push((rng.word() >> 8, 0));
        }
        // A new handler for one vector, unless a frame lies on it.
        let (at, handler) = (self.lead + 4 * rng.below(VECTORS / 4), self.handler(rng));
        if !(at..at + 4).any(inside) {
            self.put(at, &handler.to_be_bytes());
        }
    }

    /// 32 bytes more or less in front of the store; what lies behind them keeps its addresses.
    fn move_base(&mut self, rng: &mut Rng) {
        match rng.below(6) {
            0 if self.base >= 32 && self.bytes.len() < 8192 => {
                self.base -= 32;
                self.lead += 32;
                self.bytes.splice(0..0, [0x5A; 32]);
            }
            1 if self.lead >= 32 && !self.lies_in_front() => {
                self.base += 32;
                self.lead -= 32;
                self.bytes.drain(0..32);
            }
            _ => {}
        }
    }

    /// A live frame has one of the store's first 32 bytes.
    fn lies_in_front(&self) -> bool {
        let front = |a: u32| a.wrapping_sub(self.base) < 32;
        let frames = self.book.iter().flat_map(|line| &line.frames);
        frames.into_iter().any(|f| (0..f.length).any(|i| front(self.masked(f.at.wrapping_add(i)))))
    }

    /// The walk of the depth, in a buffer just large enough or larger, then as many returns.
    fn end(&mut self, rng: &mut Rng) -> Result<(), String> {
        let n = self.book.len() as u32;
        if n == 0 {
            return Ok(());
        }
        let case = self.case(Call::Walk { n, words: 4 * n + rng.below(3) }, 0);
        let out = run(&case);
        let rows: Vec<Row> = self.book.iter().rev().map(|line| line.row).collect();
        if out.refused != 0 || out.rows != rows || out.answer != i64::from(n) {
            return Err(format!("the walk gives {:x?}; the book {rows:x?}", out.rows));
        }
        self.cases.push((case, out));
        while !self.book.is_empty() {
            self.give_back()?;
        }
        Ok(())
    }
}

/// A direct entry with arguments; in a deep list one with a small frame.
fn direct(rng: &mut Rng, kind: u8, small: bool) -> Call {
    let (address, write, instruction) = (rng.word(), rng.flag(), rng.flag());
    match rng.below(if small { 11 } else { 18 }) {
        0 => Call::TakeException(rng.below(64)),
        1 => Call::Trap(rng.below(256) as u8),
        2 => Call::TakeTrapException(rng.below(16) as u8),
        3 => Call::ExceptionPrivilege,
        4 => Call::TakeAlineException,
        5 => Call::TakeFlineException,
        6 => Call::TakeBkptException,
        7 => Call::TakeIllegalException,
        8..=10 => Call::CheckAndServiceInterrupts,
        11 => Call::TakeGroup2Exception(rng.below(64)),
        12 => Call::ExceptionChk,
        13 => Call::ExceptionZeroDivide,
        14 => Call::ExceptionTrace,
        15 => Call::ExceptionAddressError { address, write, instruction },
        16 if kind == 11 && rng.flag() => Call::TakeFpUnimp060(address),
        17 if kind == 11 && rng.flag() => Call::TakeFpDisabled060,
        _ => {
            let (size, cause) = (rng.pick(&[1, 2, 4]), rng.below(9) as u8);
            Call::ExceptionBusError { address, write, instruction, size, cause }
        }
    }
}

//! Memory over 65,536 bytes: the part that a call needs is lent, and the outcome is exact or there is none.
//!
//! A store has at most 65,536 bytes in one piece. An emulator has megabytes. [`Core::call_large`] lends a part of
//! them, 65,536 bytes long, and looks at the log: every access of a call is an event there. Where each access that
//! the part did not serve is one that the whole memory would not serve either (no such address, or a fault window),
//! the call went as over the whole memory, for each access read and wrote the same bytes. Else core, memory and
//! log are put back, and the call is made again over a part that also holds the first access that went wrong; up to
//! there the call had gone as over the whole memory, so that access is one of the whole call. If no part of 65,536
//! bytes holds all of these, the answer is [`Apart`], and nothing has changed.
//!
//! So an outcome is that of the proved definitions over a store that is the whole memory, as if
//! [`Refusal::Store`] had no limit but the end at 2^32; and [`Apart`] is answered by a call exactly where its accesses that
//! the memory serves do not lie in one part, by a return only where bytes that it looks at, all of them served, do not. What an
//! emulator does then: have the entry made by other code, or move the guest's stack, vectors or handlers together.
//!
//! This search is Rust and tested, not proved; each attempt is a proved call. An attempt copies the part, so that it
//! can be put back.
//!
//! ```
//! use m68k_host::large::LargeError;
//! use m68k_host::{Call, Core, Kind};
//!
//! // A megabyte at 0; vectors at 0xF0000, the stack below the handler at 0xF8000.
//! let mut memory = vec![0; 0x10_0000];
//! memory[0xF_0080..0xF_0084].copy_from_slice(&0xF_8000_u32.to_be_bytes());
//! let (mut core, mut log) = (Core::fresh(Kind::M68010), [0; 192]);
//! core.set_vbr(0xF_0000);
//! core.dar_mut()[15] = 0xF_8000;
//!
//! core.call_large(Call::TakeException(32), &mut memory, &mut log)?;
//!
//! assert_eq!((core.pc(), core.dar()[15]), (0xF_8000, 0xF_7FF8));
//!
//! // With the vectors at 0 no part holds them and the stack: nothing is done.
//! core.set_vbr(0);
//! let before = (core.clone(), memory.clone());
//! let Err(LargeError::Apart(apart)) = core.call_large(Call::TakeException(32), &mut memory, &mut log)
//!     else { panic!() };
//! assert_eq!((apart.lowest, apart.highest), (0x80, 0xF_7FF7));
//! assert!(before == (core, memory));
//! # Ok::<(), LargeError>(())
//! ```

use crate::core::{Core, Window};
use crate::{Answer, Call, Refusal, Row, Walked};
use std::fmt;
use std::ops::Range;

/// The most bytes of a store.
pub const STORE_LIMIT: usize = 65_536;
/// The most events of a call.
const EVENTS: usize = 64;
/// The longest frame.
const FRAME_BYTES: usize = 92;
/// The end of all addresses.
const ADDRESSES: u64 = 1 << 32;

/// Bytes that are needed together and lie too far apart for one store.
#[derive(Debug, Clone, Copy, PartialEq, Eq, Hash)]
pub struct Apart {
    /// The lowest address of them.
    pub lowest: u32,
    /// The highest address of them.
    pub highest: u32,
}

impl fmt::Display for Apart {
    fn fmt(&self, f: &mut fmt::Formatter<'_>) -> fmt::Result {
        let Apart { lowest, highest } = self;
        write!(
            f,
            "{lowest:08X} and {highest:08X} are needed and lie in no store of {STORE_LIMIT} bytes"
        )
    }
}

impl std::error::Error for Apart {}

/// Why there is no outcome over a large memory; core, memory and log are as they came.
#[derive(Debug, Clone, Copy, PartialEq, Eq, Hash)]
#[non_exhaustive]
pub enum LargeError {
    /// Refused by number, as over the whole memory.
    Refused(Refusal),
    /// What is needed lies too far apart.
    Apart(Apart),
}

impl fmt::Display for LargeError {
    fn fmt(&self, f: &mut fmt::Formatter<'_>) -> fmt::Result {
        match self {
            LargeError::Refused(refusal) => refusal.fmt(f),
            LargeError::Apart(apart) => apart.fmt(f),
        }
    }
}

impl std::error::Error for LargeError {}

impl From<Refusal> for LargeError {
    fn from(refusal: Refusal) -> LargeError {
        LargeError::Refused(refusal)
    }
}

impl From<Apart> for LargeError {
    fn from(apart: Apart) -> LargeError {
        LargeError::Apart(apart)
    }
}

/// A walk over a large memory that met a return whose frames lie too far apart.
#[derive(Debug, Clone, Copy, PartialEq, Eq, Hash)]
pub struct WalkApart {
    /// The returns before it, whose rows are in the buffer.
    pub walked: Walked,
    /// What that return needs.
    pub apart: Apart,
}

impl fmt::Display for WalkApart {
    fn fmt(&self, f: &mut fmt::Formatter<'_>) -> fmt::Result {
        write!(f, "after {} rows: {}", self.walked.count, self.apart)
    }
}

impl std::error::Error for WalkApart {}

impl From<WalkApart> for LargeError {
    fn from(stopped: WalkApart) -> LargeError {
        LargeError::Apart(stopped.apart)
    }
}

impl Core {
    /// [`Core::call`] over a memory of any length from [`Core::base`] on. See [`large`](crate::large) for what holds of
    /// the outcome.
    ///
    /// # Errors
    ///
    /// Refused by number, or what the call needs lies too far apart. Core, memory and log are then as they came.
    pub fn call_large(
        &mut self,
        call: Call,
        memory: &mut [u8],
        log: &mut [u32],
    ) -> Result<Answer, LargeError> {
        call_within(self, call, memory, log, STORE_LIMIT)
    }

    /// [`Core::return_from`] over a memory of any length from [`Core::base`] on.
    ///
    /// # Errors
    ///
    /// Refused by number, as over the whole memory; or the frames lie too far apart. The core is then as it came.
    pub fn return_large(&mut self, memory: &[u8]) -> Result<Row, LargeError> {
        return_within(self, memory, STORE_LIMIT)
    }

    /// [`Core::walk`] over a memory of any length from [`Core::base`] on: as many returns on a copy.
    ///
    /// # Errors
    ///
    /// The frames of a return lie too far apart. Rows before it are in the buffer, and the error says how many.
    pub fn walk_large(&self, n: u32, memory: &[u8], rows: &mut [u32]) -> Result<Walked, WalkApart> {
        walk_within(self, n, memory, rows, STORE_LIMIT)
    }
}

/// Addresses from the first to the one behind the last.
type Span = Range<u64>;

fn hull(a: &Span, b: &Span) -> Span {
    a.start.min(b.start)..a.end.max(b.end)
}

fn length(span: &Span) -> u64 {
    span.end - span.start
}

fn apart(span: &Span) -> Apart {
    Apart { lowest: span.start as u32, highest: (span.end - 1) as u32 }
}

/// The whole memory, as accesses see it.
struct Whole {
    span: Span,
    windows: Vec<Window>,
}

impl Whole {
    fn of(core: &Core, memory: &[u8]) -> Whole {
        let base = u64::from(core.base());
        Whole { span: base..base + memory.len() as u64, windows: core.windows().collect() }
    }

    /// Whether all bytes are in the memory and none in a window: `served_of` of crates/memory.
    fn serves(&self, access: &Span) -> bool {
        let faults = |window: &Window| {
            let start = u64::from(window.start);
            let end = start + u64::from(window.length);
            window.length != 0 && access.start < end && start < access.end
        };
        let inside = self.span.start <= access.start && access.end <= self.span.end;
        inside && !self.windows.iter().any(faults)
    }

    /// So many bytes of the memory that hold a span of no more; as far as they can around its middle.
    fn part(&self, span: &Span, most: usize) -> Range<usize> {
        let most = most as u64;
        let start = (span.start + length(span) / 2).saturating_sub(most / 2);
        let start = start.clamp(self.span.start, self.span.end - most) - self.span.start;
        start as usize..(start + most) as usize
    }
}

/// Where to begin: around the stack in supervisor mode, with the vectors if they are near.
fn guess(core: &Core, most: usize) -> Span {
    let pointer = if core.s_flag() == 0 { core.sp()[4] } else { core.dar()[15] };
    let stack = u64::from(pointer & core.address_mask());
    let vectors = u64::from(core.vbr() & core.address_mask());
    let both = hull(&(stack.saturating_sub(0x80)..stack), &(vectors..vectors + 0x400));
    if length(&both) <= most as u64 { both } else { stack..stack }
}

/// Whether a memory is lent as it is: it is short, or ends past all addresses and is refused for it.
fn lent_whole(core: &Core, memory: &[u8], most: usize) -> bool {
    memory.len() <= most || u64::from(core.base()) + memory.len() as u64 > ADDRESSES
}

fn call_within(
    core: &mut Core,
    call: Call,
    memory: &mut [u8],
    log: &mut [u32],
    most: usize,
) -> Result<Answer, LargeError> {
    if lent_whole(core, memory, most) {
        return Ok(core.call(call, memory, log)?);
    }
    let (whole, before) = (Whole::of(core, memory), core.clone());
    let words = log[..log.len().min(3 * EVENTS)].to_vec();
    let mut span = guess(core, most);
    for _ in 0..=EVENTS {
        let range = whole.part(&span, most);
        let part = &mut memory[range.clone()];
        let bytes = part.to_vec();
        core.set_base((whole.span.start + range.start as u64) as u32);
        let done = core.call(call, part, log);
        core.set_base(before.base());
        let answer = done?;
        let Some(needed) = missed(&whole, answer, log) else { return Ok(answer) };
        part.copy_from_slice(&bytes);
        log[..words.len()].copy_from_slice(&words);
        *core = before.clone();
        if length(&needed) > most as u64 {
            return Err(LargeError::Apart(apart(&needed)));
        }
        span = needed;
    }
    unreachable!("each attempt knows one access more of the call")
}

/// If an access was not served that the whole memory would serve: the span of all accesses that it serves, up to the
/// first such. Until then the call went as over the whole memory.
fn missed(whole: &Whole, answer: Answer, log: &[u32]) -> Option<Span> {
    let mut needed: Option<Span> = None;
    for (address, size, served) in answer.events(log).filter_map(|event| event.access()) {
        let access = u64::from(address)..u64::from(address) + u64::from(size.bytes());
        if served || whole.serves(&access) {
            needed = Some(needed.map_or(access.clone(), |span| hull(&span, &access)));
            if !served {
                return needed;
            }
        }
    }
    None
}

/// The bytes of a frame that a return looks at: so many from a pointer on, each at its address modulo 2^32, masked.
#[derive(Clone, Copy)]
struct Piece {
    pointer: u32,
    bytes: u32,
}

impl Piece {
    fn address(self, core: &Core, byte: u32) -> u64 {
        u64::from(self.pointer.wrapping_add(byte) & core.address_mask())
    }

    fn addresses(self, core: &Core) -> impl Iterator<Item = u64> + '_ {
        (0..self.bytes).map(move |byte| self.address(core, byte))
    }
}

/// A return looks at the head of its frame, then at the rest, or at the head of a second frame and its rest. A part that
/// holds all known of these bytes gives the outcome, or 12 for bytes that it does not hold: then more is known.
fn return_within(core: &mut Core, memory: &[u8], most: usize) -> Result<Row, LargeError> {
    if lent_whole(core, memory, most) {
        return Ok(core.return_from(memory)?);
    }
    let (whole, first) = (Whole::of(core, memory), core.dar()[15]);
    let odd = first % 2 == 1 && matches!(core.cpu_type(), 1 | 2 | 10);
    let mut pieces =
        vec![Piece { pointer: first, bytes: if core.cpu_type() == 1 { 6 } else { 8 } }];
    for _ in 0..3 {
        let bytes = || pieces.iter().flat_map(|piece| piece.addresses(core)).map(|at| at..at + 1);
        let span = bytes().reduce(|a, b| hull(&a, &b)).expect("a frame has a head");
        let refused = odd || !bytes().all(|byte| whole.serves(&byte));
        let done = return_over(core, &whole, memory, whole.part(&span, most));
        // All that a return has read was served, but where it is refused for its frame.
        if done != Err(Refusal::Frame) || refused {
            return Ok(done?);
        }
        if length(&span) > most as u64 {
            return Err(LargeError::Apart(apart(&span)));
        }
        look_further(core, &whole, memory, &mut pieces);
    }
    unreachable!("two heads and the rest of a frame are all that a return looks at")
}

/// What a return looks at after these bytes, which are all there, and whose formats the kind takes.
fn look_further(core: &Core, whole: &Whole, memory: &[u8], pieces: &mut Vec<Piece>) {
    let last = pieces.last_mut().expect("a frame has a head");
    let byte = |i| memory[(last.address(core, i) - whole.span.start) as usize];
    let format = byte(6) >> 4;
    if format != 1 {
        last.bytes = frame_bytes(core, format);
        return;
    }
    // The second frame lies where the stacked status selects a stack.
    let mut after = core.clone();
    after.dar_mut()[15] = last.pointer.wrapping_add(8);
    after.set_sr(u16::from_be_bytes([byte(0), byte(1)]));
    pieces.push(Piece { pointer: after.dar()[15], bytes: 8 });
}

/// The length of a frame of a format that the kind takes: what a return from one at 0 leaves in A7.
fn frame_bytes(core: &Core, format: u8) -> u32 {
    let (mut alone, mut store) = (Core::fresh(core.cpu_type()), [0; FRAME_BYTES]);
    alone.dar_mut()[15] = 0;
    (store[0], store[6]) = (0x20, format << 4);
    alone.return_from(&store).expect("a format that the kind takes");
    alone.dar()[15]
}

/// A return over a part of the memory.
fn return_over(
    core: &mut Core,
    whole: &Whole,
    memory: &[u8],
    range: Range<usize>,
) -> Result<Row, Refusal> {
    let base = core.base();
    core.set_base((whole.span.start + range.start as u64) as u32);
    let done = core.return_from(&memory[range]);
    core.set_base(base);
    done
}

fn walk_within(
    core: &Core,
    n: u32,
    memory: &[u8],
    rows: &mut [u32],
    most: usize,
) -> Result<Walked, WalkApart> {
    if lent_whole(core, memory, most) {
        return Ok(core.walk(n, memory, rows));
    }
    // What a walk refuses before it looks at a frame; no frame is in an empty store.
    let begun = core.walk(n, &[], rows);
    if begun.refused != Some(Refusal::Frame) {
        return Ok(begun);
    }
    let mut copy = core.clone();
    for count in 0..n {
        match return_within(&mut copy, memory, most) {
            Ok(row) => {
                let at = count as usize * 4;
                rows[at..at + 4].copy_from_slice(&<[u32; 4]>::from(row));
            }
            Err(LargeError::Refused(refusal)) => {
                return Ok(Walked { count, refused: Some(refusal) });
            }
            Err(LargeError::Apart(apart)) => {
                return Err(WalkApart { walked: Walked { count, refused: None }, apart });
            }
        }
    }
    Ok(Walked { count: n, refused: None })
}

#[cfg(test)]
mod tests {
    use super::*;
    use crate::Kind;
    use crate::random::{Numbers, any_call, likely_core};

    /// Memory of a length that a store may have, so that the proved call over all of it says what is right; parts of
    /// it that are much shorter.
    const MOSTS: [usize; 6] = [16, 64, 80, 128, 512, 4096];

    fn memory(n: &mut Numbers, core: &Core, len: u32) -> Vec<u8> {
        let mut memory: Vec<u8> = (0..len).map(|_| n.of(&[0, 0, 0, 0, 0x20, 0x10, 0x80])).collect();
        // Vectors that point into the memory, half of them near the stack.
        for place in 0..(len / 4).min(256) {
            let at = if n.percent(50) { core.dar()[15] } else { core.base() + n.below(len) };
            let at = at.wrapping_add(n.below(64)) & !1;
            memory[place as usize * 4..][..4].copy_from_slice(&at.to_be_bytes());
        }
        memory
    }

    /// What came over parts is what comes over the whole, or what the whole call needs is too far apart for any part.
    #[test]
    fn a_call_over_parts_is_the_call_over_the_whole() {
        let mut n = Numbers(1);
        let (mut same, mut apart, mut refused) = (0, 0, 0);
        for turn in 0..60_000 {
            let (base, len) = (n.of(&[0, 0x4000, 0xFF_E000, 0xFFFF_E000]), 0x2000);
            let mut core = likely_core(&mut n, base, len);
            if n.percent(50) {
                // All near each other.
                core.set_vbr(core.dar()[15].wrapping_sub(n.below(0x400)) & !1);
                *core.sp_mut() = [core.dar()[15].wrapping_add(n.below(0x80) & !1); 8];
            }
            let memory = memory(&mut n, &core, len);
            let (call, most) = (any_call(&mut n), n.of(&MOSTS));
            let (mut whole, mut by_part) =
                ((core.clone(), memory.clone(), [9; 200]), (core, memory, [9; 200]));
            let before = by_part.clone();
            let right = whole.0.call(call, &mut whole.1, &mut whole.2);
            let got = call_within(&mut by_part.0, call, &mut by_part.1, &mut by_part.2, most);
            match got {
                Err(LargeError::Apart(told)) => {
                    let answer = right.unwrap();
                    let served =
                        answer.events(&whole.2).filter_map(|event| event.access()).filter(|a| a.2);
                    let spans = served.map(|(at, size, _)| {
                        u64::from(at)..u64::from(at) + u64::from(size.bytes())
                    });
                    let needed = spans.reduce(|a, b| hull(&a, &b)).unwrap();
                    assert!(length(&needed) > most as u64, "turn {turn}: {call:?} fits");
                    assert!(
                        needed.start <= told.lowest.into() && u64::from(told.highest) < needed.end
                    );
                    assert!(by_part == before, "turn {turn}: {call:?} was not put back");
                    apart += 1;
                }
                other => {
                    assert_eq!(
                        other,
                        right.map_err(LargeError::Refused),
                        "turn {turn}: {call:?}, {most}"
                    );
                    assert!(by_part == whole, "turn {turn}: {call:?}, parts of {most}");
                    *if other.is_ok() { &mut same } else { &mut refused } += 1;
                }
            }
        }
        assert!(same > 20_000 && apart > 5_000 && refused > 2_000, "{same} {apart} {refused}");
    }

    /// A core on frames of every format, on one stack or several.
    fn framed(n: &mut Numbers, len: u32) -> (Core, Vec<u8>) {
        let base = n.of(&[0, 0x4000, 0xFF_E000, 0xFFFF_E000]);
        let (mut core, mut memory) = (likely_core(n, base, len), vec![0; len as usize]);
        for _ in 0..40 {
            let at = (n.below(len - 8) & !1) as usize;
            let format = n.of(&[0x00, 0x00, 0x10, 0x10, 0x20, 0x40, 0x70, 0x80, 0xB0, 0x30]);
            memory[at] = n.of(&[0x20, 0x27, 0x30, 0x37, 0x00]);
            memory[at + 6] = format;
            // On 24-bit kinds the highest byte counts for nothing.
            let high = n.of(&[0, 0, 0x5500_0000]) & !core.address_mask();
            let pointer = core.base().wrapping_add(at as u32 + n.below(20) / 19) | high;
            match n.below(4) {
                0 => core.sp_mut()[4] = pointer,
                1 => core.sp_mut()[6] = pointer,
                _ => core.dar_mut()[15] = pointer,
            }
        }
        core.set_sr(core.get_sr() | 0x2000);
        if n.percent(40) {
            *core.sp_mut() = [core.dar()[15]; 8];
        }
        (core, memory)
    }

    #[test]
    fn returns_and_walks_over_parts_are_those_over_the_whole() {
        let mut n = Numbers(2);
        let (mut same, mut apart, mut refused, mut later) = (0, 0, 0, 0);
        for turn in 0..60_000 {
            let (core, memory) = framed(&mut n, 0x2000);
            let most = n.of(&MOSTS);
            let (mut whole, mut by_part) = (core.clone(), core.clone());
            let right = whole.return_from(&memory).map_err(LargeError::Refused);
            match return_within(&mut by_part, &memory, most) {
                Err(LargeError::Apart(told)) => {
                    assert!(by_part == core, "turn {turn}");
                    assert!(told.highest - told.lowest >= most as u32, "turn {turn}: it fits");
                    assert!(looks_at(&core, &memory, told), "turn {turn}: {told} are not needed");
                    apart += 1;
                }
                other => {
                    assert_eq!(other, right, "turn {turn}, parts of {most}");
                    assert!(by_part == whole, "turn {turn}, parts of {most}");
                    *if other.is_ok() { &mut same } else { &mut refused } += 1;
                }
            }
            let (mut rows, mut by_part) = ([7; 16], [7; 16]);
            let (steps, room) = (n.below(5), n.of(&[16, 16, 16, 8, 0]));
            let walked = core.walk(steps, &memory, &mut rows[..room]);
            match walk_within(&core, steps, &memory, &mut by_part[..room], most) {
                Ok(other) => {
                    assert_eq!((other, by_part), (walked, rows), "turn {turn}, parts of {most}");
                }
                Err(stopped) => {
                    let words = stopped.walked.count as usize * 4;
                    assert!(stopped.walked.refused.is_none() && stopped.walked.count < steps);
                    assert_eq!(by_part[..words], rows[..words], "turn {turn}, parts of {most}");
                    assert!(by_part[words..].iter().all(|word| *word == 7), "turn {turn}");
                    later += u32::from(words > 0);
                }
            }
        }
        assert!(same > 10_000 && apart > 3_000 && refused > 5_000, "{same} {apart} {refused}");
        assert!(later > 100, "{later} walks stopped behind a row");
    }

    /// Whether the return over the whole memory looks at both bytes: the memory serves them, and where one faults the return
    /// is refused for its frame. Where it is refused so anyway, both are of the heads of two frames.
    fn looks_at(core: &Core, memory: &[u8], told: Apart) -> bool {
        let whole = Whole::of(core, memory);
        let refuses = |windows: &[Window]| {
            let mut core = core.clone();
            core.set_windows(windows);
            core.return_from(memory) == Err(Refusal::Frame)
        };
        [told.lowest, told.highest].into_iter().all(|at| {
            let faults = Window { start: at, length: 1 };
            let windows: Vec<Window> = core.windows().chain([faults]).collect();
            let looked_at = whole.serves(&(at.into()..u64::from(at) + 1)) && refuses(&windows);
            looked_at && (!refuses(&whole.windows) || in_heads(core, memory, at))
        })
    }

    /// Whether the frame has format 1 and the byte is one of its head or of that of the second frame.
    fn in_heads(core: &Core, memory: &[u8], at: u32) -> bool {
        let first = core.dar()[15];
        let byte = |i| memory[first.wrapping_add(i).wrapping_sub(core.base()) as usize];
        let stack = |s: bool, m: bool| if s { 4 + 2 * usize::from(m) } else { 0 };
        let in_use = stack(core.s_flag() != 0, core.m_flag() != 0);
        let selected = stack(byte(0) & 0x20 != 0, byte(0) & 0x10 != 0);
        let second = if selected == in_use { first.wrapping_add(8) } else { core.sp()[selected] };
        let two = (3..=9).contains(&core.cpu_type()) && byte(6) >> 4 == 1;
        two && [first, second].into_iter().any(|frame| at.wrapping_sub(frame) < 8)
    }

    /// A core in 4 MiB of memory, on a frame with that status and format word.
    fn on_frame(kind: Kind, at: u32, status: u16, format: u16) -> (Core, Vec<u8>) {
        let (mut core, mut memory) = (Core::fresh(kind), vec![0; 0x40_0000]);
        lay(&mut memory, at, status, format);
        core.dar_mut()[15] = at;
        (core, memory)
    }

    fn lay(memory: &mut [u8], at: u32, status: u16, format: u16) {
        let at = at as usize;
        memory[at..at + 2].copy_from_slice(&status.to_be_bytes());
        memory[at + 6..at + 8].copy_from_slice(&format.to_be_bytes());
    }

    /// The pointer that the stacked status does not select counts for nothing, wherever it is.
    #[test]
    fn the_second_frame_lies_where_the_stacked_status_selects() {
        let (mut core, mut memory) = on_frame(Kind::M68020, 0x10_0000, 0x2000, 0x1064);
        core.set_m_flag(2);
        lay(&mut memory, 0x20_0000, 0x2000, 0x0064);
        (core.sp_mut()[4], core.sp_mut()[6]) = (0x20_0000, 0x3F_0000);
        let far = Apart { lowest: 0x10_0000, highest: 0x20_0007 };
        assert_eq!(core.return_large(&memory), Err(far.into()));
        // A walk that comes to it tells of the row before.
        lay(&mut memory, 0xF_FFF8, 0x3000, 0x0064);
        core.dar_mut()[15] = 0xF_FFF8;
        let mut rows = [7; 8];
        let stopped = core.walk_large(2, &memory, &mut rows).unwrap_err();
        let walked = Walked { count: 1, refused: None };
        assert_eq!(stopped, WalkApart { walked, apart: far });
        assert_eq!(rows, [0, 0x3000, 0, 0x64, 7, 7, 7, 7]);
        assert_eq!(LargeError::from(stopped), far.into());
        // With the second frame near it is made.
        core.dar_mut()[15] = 0x10_0000;
        core.sp_mut()[4] = 0x10_8000;
        lay(&mut memory, 0x10_8000, 0x2000, 0x0064);
        assert_eq!(core.return_large(&memory).map(|row| row.format), Ok(1));
        assert_eq!((core.dar()[15], core.sp()[6]), (0x10_8008, 0x10_0008));
    }

    /// Saved pointers count for nothing either.
    #[test]
    fn a_frame_that_runs_off_the_end_is_refused() {
        let (mut core, memory) = on_frame(Kind::M68010, 0x3F_FFF0, 0x2000, 0x8008);
        core.sp_mut()[0] = 0x1000;
        assert_eq!(core.return_large(&memory), Err(Refusal::Frame.into()));
    }

    #[test]
    fn a_frame_around_the_end_of_the_addresses_is_apart() {
        let (mut core, mut memory) = (Core::fresh(Kind::M68010), vec![0; 0x100_0000]);
        lay(&mut memory, 0xFF_FFF0, 0x2000, 0x8008);
        core.dar_mut()[15] = 0xFF_FFF0;
        let told = Apart { lowest: 0, highest: 0xFF_FFFF };
        assert_eq!(core.return_large(&memory), Err(told.into()));
        core.set_windows(&[Window { start: 0x29, length: 1 }]);
        assert_eq!(core.return_large(&memory), Err(Refusal::Frame.into()));
    }

    /// Megabytes: the outcome is that of a store that holds everything the call needs, wherever it lies.
    #[test]
    fn a_call_in_megabytes_is_the_call_over_a_store_that_holds_all() {
        let mut n = Numbers(3);
        let mut memory = vec![0; 0x40_0000];
        let (mut same, mut apart) = (0, 0);
        for turn in 0..3_000 {
            let start = (n.below(0x3F_0000) & !1) as usize;
            let mut core = likely_core(&mut n, start as u32, 0x1_0000);
            let vbr = core.base();
            core.set_vbr(vbr & !1);
            for byte in memory[start..start + 0x400].chunks_exact_mut(4) {
                let handler = (start as u32 + n.below(0x1_0000)) & !1;
                byte.copy_from_slice(&handler.to_be_bytes());
            }
            let call = any_call(&mut n);
            let (mut whole, mut log, mut other_log) = (core.clone(), [0; 192], [0; 192]);
            let mut store = memory[start..start + 0x1_0000].to_vec();
            let right = core.call(call, &mut store, &mut log);
            whole.set_base(0);
            let got = whole.call_large(call, &mut memory, &mut other_log);
            // A store that holds everything: no access outside it is one that the memory serves.
            let seen = Whole::of(&whole, &memory);
            let holds = right.is_err() || missed(&seen, right.unwrap(), &log).is_none();
            match got {
                Err(LargeError::Apart(_)) => {
                    assert!(!holds, "turn {turn}: {call:?}");
                    apart += 1;
                }
                got if holds => {
                    core.set_base(0);
                    assert_eq!(got, right.map_err(LargeError::Refused), "turn {turn}: {call:?}");
                    assert!(core == whole && log == other_log, "turn {turn}: {call:?}");
                    assert!(memory[start..start + 0x1_0000] == store, "turn {turn}: {call:?}");
                    same += 1;
                }
                _ => {}
            }
            if turn % 64 == 0 {
                memory.fill(0);
            }
        }
        assert!(same > 1_500 && apart > 20, "{same} {apart}");
    }

    #[test]
    fn a_memory_that_ends_past_the_addresses_is_refused() {
        let (mut core, mut memory) = (Core::fresh(Kind::M68020), vec![0; 0x2_0000]);
        core.set_base(0xFFFE_0001);
        let refused = LargeError::Refused(Refusal::Store);
        assert_eq!(core.call_large(Call::ExceptionChk, &mut memory, &mut [0; 192]), Err(refused));
        assert_eq!(core.return_large(&memory), Err(refused));
        let walked = core.walk_large(1, &memory, &mut [0; 4]).unwrap();
        assert_eq!(walked.refused, Some(Refusal::Store));
        core.set_base(0xFFFE_0000);
        assert!(core.call_large(Call::ExceptionChk, &mut memory, &mut [0; 192]).is_ok());
    }
}

//! The frames of a session: which an entry stacked and which a return takes, from the core, the
//! store and the events.

use crate::session::{Event, Outcome, Step};
use crate::words::{self, ERROR_68000, FRAME_68000, Field};
use m68k_host::Core;

/// A frame where it lies: its first address as it goes on the bus, and its fields.
#[derive(Debug, Clone, Copy, PartialEq, Eq)]
pub struct Placed {
    /// The address of its first byte.
    pub start: u32,
    /// Its fields upward from there.
    pub fields: &'static [Field],
}

impl Placed {
    /// How many bytes it has.
    pub fn length(&self) -> usize {
        words::length(self.fields)
    }

    /// Its bytes, none where they are not all in the store.
    pub fn bytes<'a>(&self, store: &'a [u8]) -> Option<&'a [u8]> {
        let start = self.start as usize;
        store.get(start..start.checked_add(self.length())?)
    }
}

/// A big-endian word of the store.
fn word(store: &[u8], address: u32) -> Option<u32> {
    let start = address as usize;
    let bytes = store.get(start..start.checked_add(2)?)?;
    Some(u32::from(bytes[0]) << 8 | u32::from(bytes[1]))
}

/// An address as the kind puts it on the bus.
pub fn address(core: &Core, address: u32) -> u32 {
    address & core.address_mask()
}

/// The frame at a stack pointer, by its format word; none where that is not in the store or names no
/// format.
fn placed(core: &Core, store: &[u8], pointer: u32) -> Option<Placed> {
    let start = address(core, pointer);
    let fields = match core.cpu_type() {
        1 => FRAME_68000,
        _ => words::layout(word(store, address(core, pointer.wrapping_add(6)))?)?,
    };
    Some(Placed { start, fields })
}

fn is_throwaway(store: &[u8], frame: &Placed) -> bool {
    frame.fields != FRAME_68000
        && word(store, frame.start.wrapping_add(6)).is_some_and(|w| w >> 12 == 1)
}

/// The frames that a return takes off the stack, first the one that A7 is on.
pub fn taken(core: &Core, store: &[u8]) -> Vec<Placed> {
    let Some(first) = placed(core, store, core.dar()[15]) else { return vec![] };
    if !is_throwaway(store, &first) {
        return vec![first];
    }
    // The stack that its status selects; without S it is the user's, with M or not.
    let mut next = core.clone();
    next.dar_mut()[15] = next.dar()[15].wrapping_add(8);
    next.set_sr(word(store, first.start).unwrap_or(0) as u16);
    std::iter::once(first).chain(placed(&next, store, next.dar()[15])).collect()
}

/// What went wrong inside an entry.
#[derive(Debug, Clone, Copy, PartialEq, Eq)]
pub enum Fault {
    /// The record had faulted before: nothing is written or read.
    Earlier,
    /// A stack pointer that is odd where it must be even.
    Odd(u32),
    /// An access that was not served.
    NotServed(Event),
}

/// What an entry left on the stack.
#[derive(Debug, Clone, PartialEq, Eq)]
pub struct Stacked {
    /// Its frames, first the one that A7 is on. Two for an interrupt with M set.
    pub frames: Vec<Placed>,
    /// What went wrong.
    pub fault: Option<Fault>,
    /// Frames of the bus and address errors raised inside, with their vectors, in the order stacked.
    pub errors: Vec<(u32, Placed)>,
}

fn is_write(event: &Event) -> bool {
    matches!(event[0] % 16, 3 | 4)
}

/// A jump is a release and then, sync aside, the read of the vector. Where the record had faulted the
/// release comes alone. The answers: where the release stands in the log, and the vector.
fn jumps(events: &[Event]) -> Vec<(usize, u32)> {
    let read = |from: usize| events[from + 1..].iter().find(|event| event[0] != 5);
    let releases = (0..events.len()).filter(|&i| events[i][0] == 7);
    releases
        .filter_map(|i| read(i).filter(|event| event[0] == 2).map(|event| (i, event[1] / 4)))
        .collect()
}

/// The error frame before a release: its first field is pushed last. Where it is not in the store its
/// format is the one of the kinds that write it unguarded.
fn error_frame(core: &Core, store: &[u8], events: &[Event], release: usize) -> Option<Placed> {
    let start = events[..release].iter().rfind(|event| is_write(event))?[1];
    let fields = match core.cpu_type() {
        1 => ERROR_68000,
        _ => {
            word(store, start.wrapping_add(6)).and_then(words::layout).or(words::layout(0x8000))?
        }
    };
    Some(Placed { start, fields })
}

/// The supervisor stack pointer that an entry meets.
fn pointer_met(before: &Core) -> u32 {
    let mut met = before.clone();
    met.set_sr(met.get_sr() | 0x2000);
    met.dar()[15]
}

fn fault(step: &Step) -> Option<Fault> {
    let odd = pointer_met(&step.before);
    if step.before.run_mode() == 1 {
        Some(Fault::Earlier)
    } else if step.after.run_mode() != 1 {
        None
    } else if !odd.is_multiple_of(2) && matches!(step.before.cpu_type(), 1 | 2 | 10) {
        Some(Fault::Odd(odd))
    } else {
        step.events.iter().find(|event| event[0] >= 16).map(|event| Fault::NotServed(*event))
    }
}

/// Whether an entry was made by the line.
pub fn entered(step: &Step) -> bool {
    matches!(step.outcome, Outcome::Entered(_) | Outcome::Interrupt(Some(_)))
}

/// Whether an entry's own frame is whole, and so the first jump its own: what was not served, if
/// anything, came after that jump.
fn is_whole(fault: Option<Fault>, events: &[Event], jumps: &[(usize, u32)]) -> bool {
    match (fault, jumps.first()) {
        (None, _) => true,
        (Some(Fault::NotServed(_)), Some((release, _))) => {
            events[..*release].iter().all(|event| event[0] < 16)
        }
        _ => false,
    }
}

/// What the entry of a line left on the stack.
pub fn stacked(step: &Step, store: &[u8]) -> Stacked {
    let (fault, jumps) = (fault(step), jumps(&step.events));
    let own = usize::from(is_whole(fault, &step.events, &jumps));
    let errors = jumps.iter().skip(own).filter_map(|(release, vector)| {
        Some((*vector, error_frame(&step.after, store, &step.events, *release)?))
    });
    let frames = if fault.is_none() { own_frames(step, store) } else { vec![] };
    Stacked { frames, fault, errors: errors.collect() }
}

/// Under a frame of format 1 lies one of format 0 on the master stack. Where the two stacks share bytes the
/// second frame has overwritten some of the first, so its format word is not asked.
fn own_frames(step: &Step, store: &[u8]) -> Vec<Placed> {
    let Some(top) = placed(&step.after, store, step.after.dar()[15]) else { return vec![] };
    if !is_throwaway(store, &top) {
        return vec![top];
    }
    let start = address(&step.after, step.after.sp()[6]);
    let under = words::layout(0).map(|fields| Placed { start, fields });
    std::iter::once(top).chain(under).collect()
}

/// Whether the bytes from an address on were all written by the events and stored.
pub fn was_written(events: &[Event], start: u32, bytes: usize) -> bool {
    let covers = |event: &Event, byte: u32| {
        let width = if event[0] == 3 { 2 } else { 4 };
        matches!(event[0], 3 | 4) && byte.wrapping_sub(event[1]) < width
    };
    (0..bytes as u32).all(|i| events.iter().any(|event| covers(event, start.wrapping_add(i))))
}

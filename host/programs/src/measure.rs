//! One call, return or walk over and over, so that its instructions can be counted from outside.
//!
//! Each turn copies the core whole, as a caller does who has a fresh one each time, and lends it in place. Store and log
//! are those of the first turn: an entry writes the same bytes and events every time, a walk the same rows.

use crate::cases::{Cases, Wanted};
use m68k_host::{Call, Core};
use std::hint::black_box;

/// The turns without the call: what a turn costs beside it.
pub fn copies(line: &str, turns: u32) -> Result<(), String> {
    let mut cases = Cases::new();
    cases.read(line)?;
    turn_by_turn(&cases.core, turns, |_| ());
    Ok(())
}

/// What a case asks for so many times, and then once more for its answer, in the text of the cases; `alone` by the export
/// that the call has for itself.
pub fn calls(line: &str, turns: u32, alone: bool) -> Result<String, String> {
    let mut cases = Cases::new();
    let wanted = cases.read(line)?;
    let Cases { core, store, log, rows, .. } = &mut cases;
    match wanted {
        Wanted::Call(Call::TakeException(vector)) if alone => turn_by_turn(core, turns, |core| {
            black_box(&core.take_exception(vector, store, log));
        }),
        Wanted::Call(Call::CheckAndServiceInterrupts) if alone => {
            turn_by_turn(core, turns, |core| {
                black_box(&core.check_and_service_interrupts(store, log));
            });
        }
        _ if alone => return Err(format!("{line}: no export of its own")),
        Wanted::Call(call) => turn_by_turn(core, turns, |core| {
            black_box(&core.call(call, store, log));
        }),
        Wanted::Return => turn_by_turn(core, turns, |core| {
            black_box(&core.return_from(store));
        }),
        Wanted::Walk { n, .. } => turn_by_turn(core, turns, |core| {
            black_box(&core.walk(n, store, rows));
        }),
    }
    let mut out = vec![];
    cases.perform(wanted, &mut out)?;
    String::from_utf8(out).map_err(|e| e.to_string())
}

#[inline(always)]
fn turn_by_turn(start: &Core, turns: u32, mut with: impl FnMut(&mut Core)) {
    for _ in 0..turns {
        let mut core = black_box(start).clone();
        with(black_box(&mut core));
    }
}

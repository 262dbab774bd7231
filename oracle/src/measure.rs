//! One call over and over, so that its instructions can be counted from outside.
//!
//! Each turn sets every field of the record in the core anew and empties the log, whose room of 64
//! events (192 words) is there from the start. The store is that of the first turn: an entry writes
//! the same bytes every time.

use crate::bus::Bus;
use crate::case::{Call, Case, Outcome};
use crate::core::cpu::CpuCore;
use crate::core::execute;
use crate::record::{Record, cause};
use crate::{calls, leaf, text};
use std::hint::black_box;

/// Events that a log of 192 words has room for.
const ROOM: usize = 64;

/// The turns, and what the last of them left.
#[inline(always)]
fn turns(case: &Case, count: u32, act: impl Fn(&mut CpuCore, &mut Bus) -> i64) -> Outcome {
    let before = case.store.bytes();
    let mut bus = case.store.bus(before.clone(), case.log);
    bus.events.reserve_exact(ROOM);
    let mut core = case.record.to_core(case.kind);
    let mut answer = 0;
    for _ in 0..count {
        black_box(&case.record).put(&mut core);
        bus.events.clear();
        bus.written = (usize::MAX, 0);
        black_box((&mut core, &mut bus));
        answer = black_box(act(&mut core, &mut bus));
    }
    let record = Record::from_core(&core);
    Outcome {
        refused: 0,
        answer,
        rows: vec![],
        changes: calls::changes(&before, &bus),
        events: bus.events,
        status: leaf::get_sr(&record),
        kind: core.cpu_type as u8,
        record,
    }
}

/// The turns without the call: what a turn costs beside it.
pub fn copies(line: &str, count: u32) -> Result<(), String> {
    turns(&text::parse(line)?, count, |_, _| 0);
    Ok(())
}

/// The answer of a return or a walk, which the Rust has not: the oracle's own, to compare with and not to count.
pub fn answer(line: &str) -> Result<String, String> {
    let case = text::parse(line)?;
    Ok(text::format(&case, &calls::run(&case)))
}

/// The call of a case so many times, and the last answer in the text of the cases. The calls that are
/// measured go straight to the lifted function, as they do in the Rust.
pub fn calls(line: &str, count: u32) -> Result<String, String> {
    let case = text::parse(line)?;
    if calls::refusal(&case) != 0 || count == 0 {
        return Err("a call that is not made".into());
    }
    let left = match black_box(case.call) {
        Call::TakeException(v) => {
            turns(&case, count, |core, bus| core.take_exception(bus, v).into())
        }
        Call::ExceptionChk => turns(&case, count, |core, bus| core.exception_chk(bus).into()),
        Call::CheckTrace => turns(&case, count, |core, _| core.check_trace().into()),
        Call::CheckAndServiceInterrupts => turns(&case, count, |core, bus| {
            execute::reach::check_and_service_interrupts(core, bus).into()
        }),
        Call::ExceptionBusError { address, write, instruction, size, cause: number } => {
            let cause = cause(number);
            turns(&case, count, |core, bus| {
                core.exception_bus_error(bus, address, write, instruction, size, cause).into()
            })
        }
        other => return Err(format!("{other:?} is not measured")),
    };
    Ok(text::format(&case, &left))
}

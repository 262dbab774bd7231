//! One call: refusals by number, then the lifted code.

use crate::bus::Bus;
use crate::case::{Call, Case, Outcome, STORE_LIMIT, Store};
use crate::core::cpu::CpuCore;
use crate::core::{cpu, execute};
use crate::leaf;
use crate::record::{Record, cause};
use crate::unwind::{self, aligned};

/// Least words of a log.
const LOG_LEAST: u32 = 192;
/// Least `cycles_remaining` that an interrupt call accepts.
const CYCLES_LEAST: i32 = -2_147_483_602;
const TOP: u64 = 1 << 32;

/// What a call is lent beside the record.
#[derive(PartialEq, Eq, PartialOrd, Ord)]
enum Lent {
    Record,
    Store,
    Log,
}

fn lent(call: &Call) -> Lent {
    match call {
        Call::CheckTrace | Call::SetIrq(_) | Call::CheckInterrupts => Lent::Record,
        Call::Return | Call::Walk { .. } => Lent::Store,
        _ => Lent::Log,
    }
}

fn store_too_long(s: &Store) -> bool {
    s.len > STORE_LIMIT || u64::from(s.base) + s.len > TOP
}

fn windows_bad(s: &Store) -> bool {
    let past = |&(start, length): &(u32, u32)| u64::from(start) + u64::from(length) > TOP;
    s.win.len() > 8 || s.win.iter().any(past)
}

fn wrong_kind(case: &Case) -> bool {
    let floating = matches!(case.call, Call::TakeFpUnimp060(_) | Call::TakeFpDisabled060);
    case.kind > 11 || floating && case.kind != 11
}

/// The lowest of the numbers 1 to 10 that applies, or 0.
pub fn refusal(case: &Case) -> u8 {
    let r = &case.record;
    let given = lent(&case.call);
    let interrupt = case.call == Call::CheckAndServiceInterrupts;
    let vector = match case.call {
        Call::TakeException(v) | Call::TakeGroup2Exception(v) => v,
        _ => 0,
    };
    let rows_short = match case.call {
        Call::Walk { n, words } => u64::from(words) < 4 * u64::from(n),
        _ => false,
    };
    let tests = [
        !matches!(r.s_flag, 0 | 4) || !matches!(r.m_flag, 0 | 2),
        aligned(case.kind) && r.vbr & 1 != 0,
        interrupt && r.cycles_remaining < CYCLES_LEAST,
        r.mmu_fc_override.is_some_and(|code| code > 7),
        given >= Lent::Store && store_too_long(&case.store),
        given >= Lent::Store && windows_bad(&case.store),
        given >= Lent::Log && case.log < LOG_LEAST,
        vector > 255,
        wrong_kind(case),
        rows_short,
    ];
    tests.iter().position(|&t| t).map_or(0, |i| i as u8 + 1)
}

/// Answers a case.
pub fn run(case: &Case) -> Outcome {
    let mut out = Outcome {
        refused: refusal(case),
        answer: 0,
        events: vec![],
        rows: vec![],
        changes: vec![],
        status: 0,
        kind: case.kind,
        record: case.record.clone(),
    };
    if out.refused == 0 {
        match case.call {
            Call::Return | Call::Walk { .. } => unwind_call(case, &mut out),
            _ => lifted_call(case, &mut out),
        }
    }
    out.status = leaf::get_sr(&out.record);
    out
}

fn unwind_call(case: &Case, out: &mut Outcome) {
    let bus = case.store.bus(case.store.bytes(), 0);
    if let Call::Walk { n, .. } = case.call {
        (out.rows, out.refused) = unwind::walk(case.kind, &case.record, &bus, n);
        out.answer = out.rows.len() as i64;
        return;
    }
    match unwind::back(case.kind, &mut out.record, &bus) {
        Ok(row) => out.rows.push(row),
        Err(number) => out.refused = number,
    }
}

fn lifted_call(case: &Case, out: &mut Outcome) {
    let before = case.store.bytes();
    let mut bus = case.store.bus(before.clone(), case.log);
    let mut core = case.record.to_core(case.kind);
    out.answer = perform(&mut core, &mut bus, case.call);
    out.kind = core.cpu_type as u8;
    out.record = Record::from_core(&core);
    out.changes = changes(&before, &bus);
    out.events = bus.events;
}

/// The runs of bytes that differ.
pub(crate) fn changes(before: &[u8], bus: &Bus) -> Vec<(u32, Vec<u8>)> {
    let mut runs: Vec<(u32, Vec<u8>)> = vec![];
    let (first, end) = bus.written;
    for (at, &byte) in bus.bytes.iter().enumerate().take(end).skip(first) {
        if before[at] == byte {
            continue;
        }
        match runs.last_mut() {
            Some((start, run)) if *start as usize + run.len() == at => run.push(byte),
            _ => runs.push((at as u32, vec![byte])),
        }
    }
    runs
}

/// The lifted function of a call that is not refused; return and walk are not among them.
pub fn perform(core: &mut CpuCore, bus: &mut Bus, call: Call) -> i64 {
    match call {
        Call::CheckTrace => core.check_trace().into(),
        Call::CheckInterrupts => core.check_interrupts().into(),
        Call::CheckAndServiceInterrupts => {
            execute::reach::check_and_service_interrupts(core, bus).into()
        }
        Call::Read16(a) => core.read_16(bus, a).into(),
        Call::Read32(a) => core.read_32(bus, a).into(),
        _ => match entry(core, bus, call) {
            Some(cycles) => cycles.into(),
            None => {
                silent(core, bus, call);
                0
            }
        },
    }
}

/// Entries answer with cycles.
fn entry(core: &mut CpuCore, bus: &mut Bus, call: Call) -> Option<i32> {
    Some(match call {
        Call::TakeException(vector) => core.take_exception(bus, vector),
        Call::Trap(n) => core.trap(bus, n),
        Call::TakeGroup2Exception(vector) => core.take_group2_exception(bus, vector),
        Call::ExceptionChk => core.exception_chk(bus),
        Call::ExceptionZeroDivide => core.exception_zero_divide(bus),
        Call::ExceptionPrivilege => core.exception_privilege(bus),
        Call::ExceptionTrace => core.exception_trace(bus),
        Call::ExceptionAddressError { address, write, instruction } => {
            core.exception_address_error(bus, address, write, instruction)
        }
        Call::ExceptionBusError { address, write, instruction, size, cause: number } => {
            core.exception_bus_error(bus, address, write, instruction, size, cause(number))
        }
        Call::TakeFpUnimp060(ea) => core.take_fp_unimp_060(bus, ea),
        Call::TakeFpDisabled060 => core.take_fp_disabled_060(bus),
        Call::TakeAlineException => core.take_aline_exception(bus),
        Call::TakeFlineException => core.take_fline_exception(bus),
        Call::TakeTrapException(n) => core.take_trap_exception(bus, n),
        Call::TakeBkptException => core.take_bkpt_exception(bus),
        Call::TakeIllegalException => core.take_illegal_exception(bus),
        _ => return None,
    })
}

/// Calls without an answer.
fn silent(core: &mut CpuCore, bus: &mut Bus, call: Call) {
    match call {
        Call::TriggerAddressError { address, write, instruction } => {
            core.trigger_address_error(bus, address, write, instruction)
        }
        Call::TriggerBusError { address, write, instruction, size } => {
            core.trigger_bus_error(bus, address, write, instruction, size)
        }
        Call::SetIrq(n) => core.set_irq(n),
        Call::Write16(a, v) => core.write_16(bus, a, v),
        Call::Write32(a, v) => core.write_32(bus, a, v),
        Call::Push16(v) => core.push_16(bus, v),
        Call::Push32(v) => core.push_32(bus, v),
        Call::PrefetchFirst => core.prefetch_first(bus),
        Call::PrefetchSecond => core.prefetch_second(bus),
        other => unreachable!("{other:?} is answered elsewhere"),
    }
}

/// One prefetch read at an address, for comparisons below the calls.
pub fn prefetch_read(core: &mut CpuCore, bus: &mut Bus, address: u32) -> Option<u16> {
    cpu::reach::prefetch_read(core, bus, address)
}

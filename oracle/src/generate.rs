//! Random cases, most of them accepted, drawn towards the limits of the scope.

use crate::case::{Call, Case, STORE_LIMIT, Store};
use crate::record::Record;
use crate::rng::Rng;
use crate::text::set_status;
use crate::unwind::{LENGTHS, address_mask, aligned, back, put_status};

const TOP: u64 = 1 << 32;
/// Numbers that sit on limits of 32 bits.
const EDGES: [u32; 10] = [0, 1, 2, 4, 6, 8, 0x7FFF_FFFF, 0x8000_0000, 0xFFFF_FFFE, 0xFFFF_FFFF];

/// A complete case.
pub fn case(rng: &mut Rng) -> Case {
    let call = call(rng);
    let kind = kind(rng, &call);
    let store = store(rng, kind);
    let mut case = Case { call, kind, record: Record::fresh(kind), store, log: log(rng) };
    registers(rng, &mut case);
    flags(rng, &mut case.record);
    state(rng, &mut case);
    vectors(rng, &mut case);
    arguments(rng, &mut case);
    windows(rng, &mut case);
    frames(rng, &mut case);
    case
}

/// A call by weight; its arguments come later, when the store is known.
fn call(rng: &mut Rng) -> Call {
    let none = (0, false, false);
    let (address, write, instruction) = none;
    let list = [
        (10, Call::TakeException(0)),
        (3, Call::Trap(0)),
        (6, Call::TakeGroup2Exception(0)),
        (2, Call::ExceptionChk),
        (2, Call::ExceptionZeroDivide),
        (2, Call::ExceptionPrivilege),
        (3, Call::ExceptionTrace),
        (7, Call::ExceptionAddressError { address, write, instruction }),
        (12, Call::ExceptionBusError { address, write, instruction, size: 0, cause: 0 }),
        (3, Call::TakeFpUnimp060(0)),
        (3, Call::TakeFpDisabled060),
        (2, Call::TakeAlineException),
        (2, Call::TakeFlineException),
        (2, Call::TakeTrapException(0)),
        (2, Call::TakeBkptException),
        (2, Call::TakeIllegalException),
        (6, Call::TriggerAddressError { address, write, instruction }),
        (7, Call::TriggerBusError { address, write, instruction, size: 0 }),
        (2, Call::CheckTrace),
        (1, Call::SetIrq(0)),
        (2, Call::CheckInterrupts),
        (16, Call::CheckAndServiceInterrupts),
        (4, Call::Read16(0)),
        (4, Call::Read32(0)),
        (4, Call::Write16(0, 0)),
        (4, Call::Write32(0, 0)),
        (2, Call::Push16(0)),
        (2, Call::Push32(0)),
        (3, Call::PrefetchFirst),
        (3, Call::PrefetchSecond),
        (9, Call::Return),
        (7, Call::Walk { n: 0, words: 0 }),
    ];
    let mut left = rng.below(list.iter().map(|p| p.0).sum());
    for (weight, call) in list {
        if left < weight {
            return call;
        }
        left -= weight;
    }
    unreachable!()
}

fn kind(rng: &mut Rng, call: &Call) -> u8 {
    let floating = matches!(call, Call::TakeFpUnimp060(_) | Call::TakeFpDisabled060);
    let prefetch = matches!(call, Call::PrefetchFirst | Call::PrefetchSecond);
    match rng.below(200) {
        0 => rng.pick(&[12, 13, 255]),
        1..190 if floating => 11,
        1..170 if prefetch => rng.pick(&[1, 2]),
        _ => rng.below(12) as u8,
    }
}

fn log(rng: &mut Rng) -> u32 {
    match rng.below(200) {
        0 => 191,
        1 => rng.pick(&[0, 1, 64]),
        2..10 => 193,
        10..20 => 200,
        _ => 192,
    }
}

/// Base and length, contents and responses.
fn store(rng: &mut Rng, kind: u8) -> Store {
    let len = match rng.below(200) {
        0 => rng.pick(&[65_537, 70_000, 1 << 32]),
        1..4 => STORE_LIMIT,
        4..12 => rng.pick(&[0, 1, 2, 3, 4, 7, 8, 64]),
        12..40 => u64::from(64 + 2 * rng.below(500)),
        _ => rng.pick(&[256, 512, 1024, 1536, 2048, 2048, 3072, 4096]),
    };
    let base = base(rng, kind, len);
    let fill = match rng.below(10) {
        0..5 => 0,
        5..9 => 1 + rng.below(255),
        _ => rng.word(),
    };
    Store { base, len, fill, patch: vec![], win: vec![], ack: responses(rng) }
}

fn base(rng: &mut Rng, kind: u8, len: u64) -> u32 {
    let top = if address_mask(kind) == u32::MAX { TOP } else { 1 << 24 };
    match rng.below(200) {
        // Past 2^32: refused.
        0 => (TOP - len.clamp(1, TOP) + 1).min(TOP - 1) as u32,
        1..10 => (TOP - len.clamp(1, TOP)) as u32,
        10..20 => (top - len.clamp(1, top)) as u32,
        // Past the top of the masked addresses.
        20..30 if top < TOP => (top - (len / 2).min(top)) as u32,
        30..60 => 2 * rng.below(0x8000),
        60..70 => rng.below(0x1_0000),
        70..90 => (rng.word() & address_mask(kind) & !1).min(u32::MAX - 0x1_0000),
        _ => 0,
    }
}

fn responses(rng: &mut Rng) -> [u32; 8] {
    let mut ack = [u32::MAX; 8];
    if rng.flag() {
        for a in &mut ack {
            *a = match rng.below(6) {
                0 | 1 => u32::MAX,
                2 => rng.pick(&[0x1FF, 0xFFFF_FFFE, 0x100, 0x18, 0x1F]),
                3 => rng.word(),
                _ => rng.below(256),
            };
        }
    }
    ack
}

/// An address inside the store.
fn inside(rng: &mut Rng, s: &Store) -> u32 {
    s.base.wrapping_add(rng.below(s.size() as u32 + 1))
}

/// Junk in the byte that a kind of 24 address bits masks away.
fn junk(rng: &mut Rng, kind: u8, address: u32) -> u32 {
    if address_mask(kind) != u32::MAX && rng.percent(8) {
        address ^ rng.word() << 24
    } else {
        address
    }
}

/// A stack pointer: mostly even and in the upper half of the store.
fn pointer(rng: &mut Rng, kind: u8, s: &Store) -> u32 {
    let size = s.size() as u32;
    let even = |a: u32| if aligned(kind) { a & !1 } else { a };
    let a = match rng.below(100) {
        0..66 => s.base.wrapping_add(size - rng.below(size / 2 + 1)) & !1,
        66..74 => even(s.base.wrapping_add(rng.below(size.min(100) + 1))),
        74..80 => even(s.base.wrapping_add(size)),
        80..86 => rng.pick(&EDGES),
        86..90 => inside(rng, s) | 1,
        90..96 => even(inside(rng, s)),
        96..98 => 0xFFFF_FFF0 + rng.below(16),
        _ => rng.word(),
    };
    junk(rng, kind, a)
}

/// A stack pointer with room above it for frames to take off.
fn frame_pointer(rng: &mut Rng, kind: u8, s: &Store) -> u32 {
    if rng.percent(20) {
        return pointer(rng, kind, s);
    }
    let size = s.size() as u32;
    if rng.percent(6) {
        // The frame ends with the store, or one word later.
        let length = rng.pick(&[6, 8, 12, 16, 58, 60, 92, 4, 6, 10]);
        return s.base.wrapping_add(size).wrapping_sub(length);
    }
    let a = s.base.wrapping_add(rng.below(size / 4 * 3 + 1));
    let a = if rng.percent(95) { a & !1 } else { a };
    junk(rng, kind, a)
}

/// Registers, program counters, stack pointers.
fn registers(rng: &mut Rng, case: &mut Case) {
    let (kind, s) = (case.kind, &case.store);
    let r = &mut case.record;
    if rng.percent(40) {
        let small = rng.flag();
        for i in 0..15 {
            r.dar[i] = if small { rng.below(256) } else { rng.word() };
            r.dar_save[i] = if small { rng.below(256) } else { rng.word() };
        }
    }
    if rng.percent(30) {
        r.sp = std::array::from_fn(|_| rng.below(0x1_0000));
    }
    let unwinds = matches!(case.call, Call::Return | Call::Walk { .. });
    for i in [0, 4, 6] {
        r.sp[i] = if unwinds { frame_pointer(rng, kind, s) } else { pointer(rng, kind, s) };
    }
    r.dar[15] = if unwinds { frame_pointer(rng, kind, s) } else { pointer(rng, kind, s) };
    r.dar_save[15] = if rng.percent(20) { r.dar[15] } else { pointer(rng, kind, s) };
    r.pc = program(rng);
    r.ppc = program(rng);
    if rng.percent(20) {
        r.pc = inside(rng, s) & !1;
    }
    if rng.percent(70) {
        (r.ir, r.fpiar) = (rng.word(), rng.word());
    }
    r.vbr = vector_base(rng, kind, s);
}

fn program(rng: &mut Rng) -> u32 {
    match rng.below(5) {
        0 => rng.pick(&EDGES),
        1 => rng.word(),
        _ => rng.below(0x100_0000),
    }
}

/// Mostly the base of the store, so that the vectors lie in it.
fn vector_base(rng: &mut Rng, kind: u8, s: &Store) -> u32 {
    let even = |a: u32| if aligned(kind) { a & !1 } else { a };
    let a = match rng.below(100) {
        0..75 => even(s.base),
        75..82 => even(s.base.wrapping_add(rng.below(200))),
        82..88 => even(s.base.wrapping_sub(4 * rng.below(64))),
        88..91 => even(s.base | 1),
        91 => s.base | 1,
        92..96 => even(rng.pick(&EDGES)),
        _ => even(rng.word()),
    };
    junk(rng, kind, a)
}

/// A status word: mostly supervisor, with any of the rest.
fn status(rng: &mut Rng) -> u16 {
    let mut sr = (rng.word() & 0x071F) as u16;
    for (bit, chance) in [(0x8000, 25), (0x4000, 25), (0x2000, 70), (0x1000, 35)] {
        if rng.percent(chance) {
            sr |= bit;
        }
    }
    if rng.percent(10) {
        sr |= (rng.word() & 0x08E0) as u16;
    }
    sr
}

/// Flags as a status gives them, or raw.
fn flags(rng: &mut Rng, r: &mut Record) {
    set_status(r, status(rng));
    let raw = |rng: &mut Rng, had: u32| match rng.below(4) {
        0 => had,
        1 => rng.pick(&[0, 1, 0x80, 0x100, 0x4000, 0x8000, 0x8100, 0x1_0000, u32::MAX]),
        2 => had ^ 1 << rng.below(32),
        _ => rng.word(),
    };
    if rng.percent(25) {
        for f in [&mut r.t1_flag, &mut r.t0_flag, &mut r.x_flag, &mut r.n_flag] {
            *f = raw(rng, *f);
        }
        for f in [&mut r.not_z_flag, &mut r.v_flag, &mut r.c_flag, &mut r.int_mask] {
            *f = raw(rng, *f);
        }
    }
    if rng.below(150) == 0 {
        let bad = rng.pick(&[1, 2, 3, 4, 5, 6, 8, u32::MAX]);
        *(if rng.flag() { &mut r.s_flag } else { &mut r.m_flag }) = bad;
    }
}

/// Everything else of the record, stale or fresh.
fn state(rng: &mut Rng, case: &mut Case) {
    let interrupt = case.call == Call::CheckAndServiceInterrupts;
    let r = &mut case.record;
    r.sr_save = status(rng);
    r.int_level = level(rng, r.int_mask, interrupt);
    r.stopped = if rng.percent(70) { 0 } else { rng.pick(&[1, 2, 3, 5, u32::MAX]) };
    r.change_of_flow = rng.flag();
    r.loop_mode = rng.percent(30);
    r.prefetch_queue = [rng.word() as u16, rng.word() as u16];
    r.prefetch_count = rng.pick(&[0, 0, 1, 1, 2, 2, 3, 255]);
    if case.call == Call::PrefetchSecond && rng.percent(70) {
        r.prefetch_count = 1;
    }
    r.pending_sync_clocks = clocks(rng);
    r.precise_bus = rng.percent(85);
    r.run_mode = match rng.below(100) {
        0..6 => 1,
        6..9 => rng.pick(&[2, 3, 0x101, u32::MAX]),
        _ => 0,
    };
    r.exception_processing = rng.percent(10);
    r.instruction_exception_vector = rng.flag().then(|| rng.below(300));
    r.last_exception_vector = rng.flag().then(|| rng.below(300));
    r.pending_fault_cause = rng.below(12).saturating_sub(3) as u8;
    r.mmu_fc_override = match rng.below(150) {
        0 => Some(rng.pick(&[8, 9, 255])),
        1..60 => Some(rng.below(8) as u8),
        _ => None,
    };
    r.pending_fault_wdata = if rng.flag() { rng.word() } else { 0 };
    if rng.percent(25) {
        r.fault_resume = Some((rng.word(), status(rng), std::array::from_fn(|_| rng.below(64))));
    }
    r.cycles_remaining = cycles(rng, interrupt);
}

fn level(rng: &mut Rng, mask: u32, interrupt: bool) -> u32 {
    let above = (mask >> 8 & 7) + 1;
    match rng.below(10) {
        0..5 if interrupt => (above + rng.below(3)).min(7),
        0..2 => above.min(7) - rng.below(2),
        2..8 => rng.below(9),
        8 => 7,
        _ => rng.pick(&[8, 15, 16, 0x103, 0x1_0007, u32::MAX]) ^ rng.below(2),
    }
}

fn clocks(rng: &mut Rng) -> u32 {
    match rng.below(10) {
        0..6 => 0,
        6 => rng.pick(&[1, 2, 4, 6]),
        7 => 0u32.wrapping_sub(rng.below(17)),
        8 => rng.below(1000),
        _ => rng.word(),
    }
}

fn cycles(rng: &mut Rng, interrupt: bool) -> i32 {
    match rng.below(60) {
        0 if interrupt => rng.pick(&[-2_147_483_603, -2_147_483_604, i32::MIN]),
        1 if !interrupt => rng.pick(&[-2_147_483_603, i32::MIN]),
        2..8 => -2_147_483_602,
        8..10 => -2_147_483_601 + rng.below(50) as i32,
        10..14 => i32::MAX,
        14..30 => rng.word() as i32 / 2,
        _ => 0,
    }
}

/// The vector that a call will read, if that is settled by the call alone.
fn vector(case: &Case) -> u32 {
    match case.call {
        Call::TakeException(v) | Call::TakeGroup2Exception(v) => v,
        Call::Trap(n) | Call::TakeTrapException(n) => 32 + u32::from(n & 15),
        Call::ExceptionChk => 6,
        Call::ExceptionZeroDivide => 5,
        Call::ExceptionPrivilege => 8,
        Call::ExceptionTrace => 9,
        Call::TakeFpUnimp060(_) | Call::TakeFpDisabled060 | Call::TakeFlineException => 11,
        Call::TakeAlineException => 10,
        Call::TakeBkptException | Call::TakeIllegalException => 4,
        Call::CheckAndServiceInterrupts => {
            let level = case.record.int_level & 7;
            match case.store.ack[level as usize] {
                u32::MAX => 24 + level,
                response => response & 0xFF,
            }
        }
        Call::ExceptionAddressError { .. } | Call::TriggerAddressError { .. } => 3,
        _ => 2,
    }
}

/// Vector numbers, then handlers for the vectors that the call may read.
fn vectors(rng: &mut Rng, case: &mut Case) {
    let some = match rng.below(200) {
        0 => rng.pick(&[256, 257, 0x1_0002, 0x4000_0000, u32::MAX]),
        1..60 => rng.below(256),
        60..120 => rng.below(12),
        120..180 => 20 + rng.below(30),
        _ => rng.pick(&[14, 15, 55, 56, 57, 58, 60, 61, 63, 64, 254, 255]),
    };
    match &mut case.call {
        Call::TakeException(v) | Call::TakeGroup2Exception(v) => *v = some,
        Call::Trap(n) | Call::TakeTrapException(n) => *n = some as u8,
        _ => {}
    }
    let call_vector = vector(case);
    for v in [call_vector, 2, 3] {
        if !rng.percent(85) {
            continue;
        }
        let handler = handler(rng, case);
        let at = vector_address(case, v);
        poke(case, |i| u64::from(at) + u64::from(i), &handler.to_be_bytes());
    }
}

fn vector_address(case: &Case, v: u32) -> u32 {
    v.wrapping_mul(4).wrapping_add(case.record.vbr) & address_mask(case.kind)
}

fn handler(rng: &mut Rng, case: &Case) -> u32 {
    let s = &case.store;
    let a = match rng.below(20) {
        0..15 => inside(rng, s) & !1,
        15 => inside(rng, s) | 1,
        // The second prefetch, or both, past the end.
        16 => s.base.wrapping_add(s.size() as u32).wrapping_sub(2),
        17 => s.base.wrapping_add(s.size() as u32),
        18 => rng.pick(&EDGES),
        _ => rng.word(),
    };
    junk(rng, case.kind, a)
}

/// Lays bytes over those addresses that lie in the store.
fn poke(case: &mut Case, place: impl Fn(u32) -> u64, bytes: &[u8]) {
    let s = &mut case.store;
    let (base, size) = (u64::from(s.base), s.size() as u64);
    let mut next = None;
    for (i, &b) in bytes.iter().enumerate() {
        let a = place(i as u32);
        if a < base || a - base >= size {
            next = None;
            continue;
        }
        let at = (a - base) as u32;
        match s.patch.last_mut() {
            Some((_, run)) if next == Some(at) => run.push(b),
            _ => s.patch.push((at, vec![b])),
        }
        next = Some(at + 1);
    }
}

/// An address to access: mostly inside the store.
fn operand(rng: &mut Rng, case: &Case) -> u32 {
    let s = &case.store;
    let a = match rng.below(20) {
        0..9 => inside(rng, s) & !1,
        9..13 => inside(rng, s),
        13 | 14 => s.base.wrapping_add(s.size() as u32).wrapping_sub(rng.below(5)),
        15 => s.base.wrapping_sub(rng.below(5)),
        16 | 17 => rng.pick(&EDGES),
        _ => rng.word(),
    };
    junk(rng, case.kind, a)
}

fn arguments(rng: &mut Rng, case: &mut Case) {
    let operand = operand(rng, case);
    let value = rng.word();
    let flag = rng.flag();
    let bytes = rng.pick(&[1, 2, 3, 4, 1, 2, 3, 4, 0, 5, u32::MAX]);
    match &mut case.call {
        Call::ExceptionAddressError { address, write, instruction }
        | Call::TriggerAddressError { address, write, instruction } => {
            (*address, *write, *instruction) = (operand, flag, rng.flag());
        }
        Call::ExceptionBusError { address, write, instruction, size, cause } => {
            (*address, *write, *instruction) = (operand, flag, rng.flag());
            (*size, *cause) = (bytes, rng.below(12).saturating_sub(3) as u8);
        }
        Call::TriggerBusError { address, write, instruction, size } => {
            (*address, *write, *instruction, *size) = (operand, flag, rng.flag(), bytes);
        }
        Call::TakeFpUnimp060(a) | Call::Read16(a) | Call::Read32(a) => *a = operand,
        Call::SetIrq(n) => *n = if flag { value as u8 & 15 } else { value as u8 },
        Call::Write16(a, v) => (*a, *v) = (operand, value as u16),
        Call::Write32(a, v) => (*a, *v) = (operand, value),
        Call::Push16(v) => *v = value as u16,
        Call::Push32(v) => *v = value,
        Call::PrefetchFirst | Call::PrefetchSecond => case.record.pc = operand,
        _ => {}
    }
}

/// Where an entry may push: the stacks that it may select, now or after a fault.
fn stacks(r: &Record) -> [u32; 5] {
    [r.dar[15], r.sp[4], r.sp[6], r.dar_save[15], r.sp[0]]
}

/// A start for a window that meets something the call does.
fn target(rng: &mut Rng, case: &Case) -> u32 {
    let mask = address_mask(case.kind);
    let bus = case.store.bus(case.store.bytes(), 0);
    let v = rng.pick(&[vector(case), vector(case), 2, 3]);
    let at = vector_address(case, v);
    let unwinds = matches!(case.call, Call::Return | Call::Walk { .. });
    match rng.below(20) {
        0..10 if unwinds => {
            let bottom = rng.pick(&stacks(&case.record)[..3]);
            bottom.wrapping_add(rng.below(92)) & mask
        }
        0..10 => {
            let top = rng.pick(&stacks(&case.record));
            let down = if rng.percent(65) { 1 + rng.below(16) } else { 1 + rng.below(92) };
            top.wrapping_sub(down) & mask
        }
        10..14 => at.wrapping_add(rng.below(4)),
        14..18 => {
            let byte = |i| u32::from(bus.byte(at.wrapping_add(i)).unwrap_or(0));
            let handler = (0..4).fold(0, |h, i| h << 8 | byte(i));
            handler.wrapping_add(rng.pick(&[0, 1, 2, 2, 3])) & mask
        }
        18 => rng.word(),
        _ => inside(rng, &case.store),
    }
}

fn windows(rng: &mut Rng, case: &mut Case) {
    let unwinds = matches!(case.call, Call::Return | Call::Walk { .. });
    let count = match rng.below(150) {
        0 => 9,
        1 => 10,
        2..5 => 8,
        5..12 => 2 + rng.below(6),
        12..30 => 2,
        30..75 if !unwinds => 1,
        30..40 => 1,
        _ => 0,
    };
    for _ in 0..count {
        let start = target(rng, case);
        let length = rng.pick(&[0, 1, 1, 1, 2, 2, 4, 8, 16, 64, case.store.size() as u32]);
        let room = TOP - u64::from(start);
        // One that ends past 2^32 is refused.
        let length = if rng.below(300) == 0 { room + 1 } else { room.min(u64::from(length)) };
        case.store.win.push((start, length.min(TOP - 1) as u32));
    }
    if rng.percent(2) {
        let start = rng.pick(&[0xFFFF_FFFF, 0xFFFF_FFF0, 0xFFFF_0000]);
        case.store.win.push((start, 0u32.wrapping_sub(start)));
    }
}

/// Frames for returns and walks, laid where the returns will look for them.
fn frames(rng: &mut Rng, case: &mut Case) {
    let depth = match case.call {
        Call::Return => 1,
        Call::Walk { .. } => rng.below(6),
        _ => return,
    };
    if depth > 0 && rng.percent(97) && case.record.s_flag == 0 {
        case.record.s_flag = 4;
    }
    if case.kind <= 11 {
        lay(rng, case, depth);
    }
    if let Call::Walk { n, words } = &mut case.call {
        *n = if rng.percent(10) { depth + 1 } else { depth };
        *words = match rng.below(40) {
            0 => (4 * *n).saturating_sub(1),
            1..20 => 4 * *n,
            _ => 4 * *n + rng.below(9),
        };
    }
}

fn lay(rng: &mut Rng, case: &mut Case, depth: u32) {
    let kind = case.kind;
    let mut r = case.record.clone();
    for left in (0..depth).rev() {
        let (format, status) = lay_frame(rng, case, r.dar[15], left > 0, 5);
        if format == 1 {
            let mut inner = r.clone();
            inner.dar[15] = inner.dar[15].wrapping_add(8);
            put_status(kind, &mut inner, status);
            lay_frame(rng, case, inner.dar[15], left > 0, 95);
        }
        let bus = case.store.bus(case.store.bytes(), 0);
        if back(kind, &mut r, &bus).is_err() {
            return;
        }
    }
}

/// Lays the head of a frame; formats that the kind does not take are rare, format 1 as said.
fn lay_frame(rng: &mut Rng, case: &mut Case, a7: u32, more: bool, no_one: u32) -> (u32, u16) {
    let kind = case.kind;
    let taken = |f: u32| kind == 1 || LENGTHS[kind as usize][f as usize] != 0;
    let mut format = rng.below(16);
    if !rng.percent(4) {
        while !taken(format) || format == 1 && rng.percent(no_one) {
            format = rng.below(16);
        }
    }
    let mut status = status(rng);
    if more && rng.percent(95) {
        status |= 0x2000;
    }
    let mut bytes = status.to_be_bytes().to_vec();
    bytes.extend(program(rng).to_be_bytes());
    bytes.extend(((format << 12 | rng.word() & 0xFFF) as u16).to_be_bytes());
    let mask = address_mask(kind);
    poke(case, |i| u64::from(a7.wrapping_add(i) & mask), &bytes);
    (format, status)
}

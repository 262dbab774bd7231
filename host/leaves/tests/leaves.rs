//! The status register, the stack banks and the other small functions, each on many records.

use leaves as proved;
use leaves::{Cpu, Fault, Flags, Flow, OptionalCode, OptionalVector, Queue, Regs, Resume};
use m68k_host as host;
use oracle::leaf as lifted;
use oracle::rng::Rng;
use oracle::text::set_status;

const KINDS: std::ops::Range<u8> = 0..12;
/// Records for each kind and test.
const EACH: u32 = 20_000;

macro_rules! alike {
    ($then:ident, $r:expr) => {
        $then!($r, dar dar_save sr_save ppc pc sp vbr ir fpiar t1_flag t0_flag s_flag m_flag x_flag
            n_flag not_z_flag v_flag c_flag int_mask int_level stopped change_of_flow loop_mode
            prefetch_queue prefetch_count pending_sync_clocks precise_bus run_mode
            exception_processing instruction_exception_vector last_exception_vector
            mmu_fc_override pending_fault_wdata cycles_remaining)
    };
}

/// The oracle's record as the host's.
fn to_host(kind: u8, r: &oracle::Record) -> host::Record {
    macro_rules! build {
        ($r:expr, $($f:ident)*) => { host::Record {
            cpu_type: kind,
            pending_fault_cause: host::FaultCause::read($r.pending_fault_cause),
            fault_resume: $r.fault_resume.map(|(pc, sr, dar)| host::Resume { pc, sr, dar }),
            $($f: $r.$f,)*
        } };
    }
    alike!(build, r)
}

fn vector(option: Option<u32>) -> OptionalVector {
    OptionalVector { some: option.is_some(), value: option.unwrap_or(0) }
}

/// The oracle's record by value.
fn to_cpu(kind: u8, r: &oracle::Record) -> Cpu {
    let (pc, sr, dar) = r.fault_resume.unwrap_or((0, 0, [0; 16]));
    let code = r.mmu_fc_override;
    Cpu {
        regs: Regs { dar: r.dar, dar_save: r.dar_save, sp: r.sp },
        flow: Flow {
            ppc: r.ppc,
            pc: r.pc,
            vbr: r.vbr,
            ir: r.ir,
            fpiar: r.fpiar,
            cpu_type: kind,
            run_mode: r.run_mode,
            stopped: r.stopped,
            exception_processing: r.exception_processing,
            change_of_flow: r.change_of_flow,
            loop_mode: r.loop_mode,
            cycles_remaining: r.cycles_remaining,
        },
        flags: Flags {
            t1_flag: r.t1_flag,
            t0_flag: r.t0_flag,
            s_flag: r.s_flag,
            m_flag: r.m_flag,
            x_flag: r.x_flag,
            n_flag: r.n_flag,
            not_z_flag: r.not_z_flag,
            v_flag: r.v_flag,
            c_flag: r.c_flag,
            int_mask: r.int_mask,
            int_level: r.int_level,
            sr_save: r.sr_save,
        },
        queue: Queue {
            prefetch_queue: r.prefetch_queue,
            prefetch_count: r.prefetch_count,
            pending_sync_clocks: r.pending_sync_clocks,
            precise_bus: r.precise_bus,
        },
        fault: Fault {
            instruction_exception_vector: vector(r.instruction_exception_vector),
            last_exception_vector: vector(r.last_exception_vector),
            pending_fault_cause: r.pending_fault_cause,
            mmu_fc_override: OptionalCode { some: code.is_some(), value: code.unwrap_or(0) },
            pending_fault_wdata: r.pending_fault_wdata,
        },
        fault_resume: Resume { some: r.fault_resume.is_some(), pc, sr, dar },
    }
}

/// A number that sits on a limit, a small one, or any.
fn number(rng: &mut Rng) -> u32 {
    const EDGES: [u32; 16] = [
        0,
        1,
        2,
        4,
        6,
        0x80,
        0x100,
        0x700,
        0x4000,
        0x8000,
        0xFF_FFFF,
        0x100_0000,
        0x7FFF_FFFF,
        0x8000_0000,
        0xFFFF_FFFE,
        0xFFFF_FFFF,
    ];
    match rng.below(4) {
        0 => rng.pick(&EDGES),
        1 => rng.below(256),
        2 => 1 << rng.below(32),
        _ => rng.word(),
    }
}

fn option(rng: &mut Rng) -> Option<u32> {
    rng.flag().then(|| number(rng))
}

/// Any record; the S and M flags are those that number 1 does not refuse, or any.
fn record(rng: &mut Rng, modes_only: bool) -> oracle::Record {
    let mut r = oracle::Record::fresh(0);
    for word in r.dar.iter_mut().chain(&mut r.dar_save).chain(&mut r.sp) {
        *word = number(rng);
    }
    let words = [
        &mut r.ppc,
        &mut r.pc,
        &mut r.vbr,
        &mut r.ir,
        &mut r.fpiar,
        &mut r.t1_flag,
        &mut r.t0_flag,
        &mut r.s_flag,
        &mut r.m_flag,
        &mut r.x_flag,
        &mut r.n_flag,
        &mut r.not_z_flag,
        &mut r.v_flag,
        &mut r.c_flag,
        &mut r.int_mask,
        &mut r.int_level,
        &mut r.stopped,
        &mut r.pending_sync_clocks,
        &mut r.run_mode,
        &mut r.pending_fault_wdata,
    ];
    for word in words {
        *word = number(rng);
    }
    let flags =
        [&mut r.change_of_flow, &mut r.loop_mode, &mut r.precise_bus, &mut r.exception_processing];
    for flag in flags {
        *flag = rng.flag();
    }
    if rng.percent(30) {
        set_status(&mut r, rng.word() as u16);
    }
    if modes_only {
        r.s_flag = rng.pick(&[0, 4]);
        r.m_flag = rng.pick(&[0, 2]);
    }
    r.sr_save = number(rng) as u16;
    r.prefetch_queue = [number(rng) as u16, number(rng) as u16];
    r.prefetch_count = number(rng) as u8;
    r.instruction_exception_vector = option(rng);
    r.last_exception_vector = option(rng);
    r.pending_fault_cause = rng.below(9) as u8;
    r.mmu_fc_override = option(rng).map(|code| code as u8);
    r.fault_resume =
        rng.flag().then(|| (number(rng), number(rng) as u16, std::array::from_fn(|_| number(rng))));
    r.cycles_remaining = number(rng) as i32;
    r
}

/// Runs a test on many records of every kind, the fresh one too.
fn each(seed: u64, modes_only: bool, test: impl Fn(&mut Rng, u8, &oracle::Record)) {
    let mut rng = Rng::new(seed);
    for kind in KINDS {
        for _ in 0..100 {
            test(&mut rng, kind, &oracle::Record::fresh(kind));
        }
        for _ in 0..EACH {
            let r = record(&mut rng, modes_only);
            test(&mut rng, kind, &r);
        }
    }
}

/// Two functions that change the record, on the same record.
fn same(
    kind: u8,
    before: &oracle::Record,
    wanted: impl Fn(&mut oracle::Record),
    got: impl Fn(Cpu) -> Cpu,
) {
    let mut after = before.clone();
    wanted(&mut after);
    assert_eq!(got(to_cpu(kind, before)), to_cpu(kind, &after), "kind {kind}, from {before:x?}");
}

#[test]
fn fresh() {
    for kind in KINDS {
        assert_eq!(host::Record::fresh(kind), to_host(kind, &oracle::Record::fresh(kind)));
    }
    // Above 11 there is no type to set; a record of such a kind can be had all the same.
    for kind in KINDS.end..=255 {
        assert_eq!(host::Record::fresh(kind), to_host(kind, &oracle::Record::fresh(kind)));
    }
}

#[test]
fn get_sr() {
    each(1, false, |_, kind, r| {
        assert_eq!(
            proved::get_sr(to_cpu(kind, r)),
            u32::from(lifted::get_sr(r)),
            "kind {kind}, of {r:x?}"
        );
    });
}

#[test]
fn set_sr_noint_nosp() {
    each(2, false, |rng, kind, r| {
        let sr = rng.word() as u16;
        let wanted = |r: &mut oracle::Record| lifted::set_sr_noint_nosp(kind, r, sr);
        same(kind, r, wanted, |r| proved::set_sr_noint_nosp(r, sr));
    });
}

/// Every status on every kind.
#[test]
fn set_sr_every_status() {
    for kind in KINDS {
        let r = oracle::Record::fresh(kind);
        for sr in 0..=u16::MAX {
            let wanted = |r: &mut oracle::Record| lifted::set_sr_noint_nosp(kind, r, sr);
            same(kind, &r, wanted, |r| proved::set_sr_noint_nosp(r, sr));
        }
    }
}

/// The Rust does not have it: all flags from the status under the Rust's mask.
#[test]
fn put_back_sr() {
    each(3, false, |rng, kind, r| {
        let sr = rng.word() as u16;
        let wanted = |r: &mut oracle::Record| set_status(r, sr & lifted::masks(kind).1 as u16);
        same(kind, r, wanted, |r| proved::put_back_sr(r, sr));
    });
}

#[test]
fn set_ccr_internal() {
    each(4, false, |rng, kind, r| {
        let ccr = rng.word() as u8;
        let wanted = |r: &mut oracle::Record| lifted::set_ccr_internal(kind, r, ccr);
        same(kind, r, wanted, |r| proved::set_ccr_internal(r, ccr));
    });
}

#[test]
fn sp_index() {
    each(5, true, |_, kind, r| {
        let found = proved::sp_index(to_cpu(kind, r));
        assert_eq!(found, lifted::sp_index(kind, r), "kind {kind}, of {r:x?}");
    });
}

#[test]
fn backup_sp() {
    each(6, true, |_, kind, r| {
        same(kind, r, |r| lifted::backup_sp(kind, r), proved::backup_sp);
    });
}

#[test]
fn restore_sp() {
    each(7, true, |_, kind, r| {
        same(kind, r, |r| lifted::restore_sp(kind, r), proved::restore_sp);
    });
}

#[test]
fn set_s_flag() {
    each(8, true, |rng, kind, r| {
        let value = rng.pick(&[0, 4]);
        same(kind, r, |r| lifted::set_s_flag(kind, r, value), |r| proved::set_s_flag(r, value));
    });
}

#[test]
fn set_sm_flag() {
    each(9, true, |rng, kind, r| {
        let value = number(rng);
        same(kind, r, |r| lifted::set_sm_flag(kind, r, value), |r| proved::set_sm_flag(r, value));
    });
}

#[test]
fn set_sm_flag_nosp() {
    each(10, false, |rng, kind, r| {
        let value = number(rng);
        let wanted = |r: &mut oracle::Record| lifted::set_sm_flag_nosp(kind, r, value);
        same(kind, r, wanted, |r| proved::set_sm_flag_nosp(r, value));
    });
}

#[test]
fn internal_cycles() {
    each(11, false, |rng, kind, r| {
        let n = number(rng);
        let wanted = |r: &mut oracle::Record| lifted::internal_cycles(kind, r, n);
        same(kind, r, wanted, |r| proved::internal_cycles(r, n));
    });
}

#[test]
fn prefetch_enabled() {
    each(12, false, |_, kind, r| {
        let found = proved::prefetch_enabled(to_cpu(kind, r));
        assert_eq!(found, lifted::prefetch_enabled(kind, r), "kind {kind}, of {r:x?}");
    });
}

#[test]
fn address() {
    each(13, false, |rng, kind, r| {
        let a = number(rng);
        let found = proved::address(to_cpu(kind, r), a);
        assert_eq!(found, lifted::address(kind, r, a), "kind {kind}, {a:x}");
    });
}

#[test]
fn trace_t0_sr_write() {
    each(14, false, |_, kind, r| {
        same(kind, r, |r| lifted::trace_t0_sr_write(kind, r), proved::trace_t0_sr_write);
    });
}

#[test]
fn trace_t0_68040_sync() {
    each(15, false, |_, kind, r| {
        same(kind, r, |r| lifted::trace_t0_68040_sync(kind, r), proved::trace_t0_68040_sync);
    });
}

/// The two functions of a core that have no call: the status, and a status set, with the stacks swapped.
#[test]
fn status_of_a_core() {
    each(16, true, |rng, kind, r| {
        let mut core = host::Core::fresh(kind);
        core.set_record(&to_host(kind, r));
        assert_eq!(core.get_sr(), lifted::get_sr(r), "kind {kind}, of {r:x?}");
        let (sr, mut after) = (rng.word() as u16, r.clone());
        lifted::backup_sp(kind, &mut after);
        lifted::set_sr_noint_nosp(kind, &mut after, sr);
        lifted::restore_sp(kind, &mut after);
        core.set_sr(sr);
        assert_eq!(core.record(), to_host(kind, &after), "kind {kind}, {sr:x}, from {r:x?}");
        assert_eq!(core.address_mask(), lifted::masks(kind).0, "kind {kind}");
    });
}

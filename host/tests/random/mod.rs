//! Numbers by a seed, and cores that are made of them.
#![allow(dead_code)] // each test uses some

use m68k_host::{Call, Core, FaultCause, Record, Resume, Window};

/// Numbers by a seed: the same everywhere.
pub struct Numbers(pub u64);

impl Numbers {
    pub fn next(&mut self) -> u32 {
        self.0 =
            self.0.wrapping_mul(6_364_136_223_846_793_005).wrapping_add(1_442_695_040_888_963_407);
        (self.0 >> 32) as u32
    }

    pub fn below(&mut self, limit: u32) -> u32 {
        ((u64::from(self.next()) * u64::from(limit)) >> 32) as u32
    }

    pub fn of<T: Copy>(&mut self, all: &[T]) -> T {
        all[self.below(all.len() as u32) as usize]
    }

    pub fn percent(&mut self, n: u32) -> bool {
        self.below(100) < n
    }

    /// A number on a limit, a small one, or any.
    pub fn number(&mut self) -> u32 {
        let edges = [0, 1, 2, 4, 0x80, 0x700, 0x8000, 0xFF_FFFE, 0x100_0000, 0x7FFF_FFFF, u32::MAX];
        match self.below(4) {
            0 => self.of(&edges),
            1 => self.below(256),
            2 => 1 << self.below(32),
            _ => self.next(),
        }
    }

    fn row<const N: usize>(&mut self) -> [u32; N] {
        std::array::from_fn(|_| self.number())
    }

    fn option(&mut self) -> Option<u32> {
        if self.percent(50) { Some(self.number()) } else { None }
    }
}

/// A record with every field filled by any number, so that two places that are mixed up are noticed.
pub fn any_record(n: &mut Numbers) -> Record {
    Record {
        cpu_type: n.next() as u8,
        dar: n.row(),
        dar_save: n.row(),
        sr_save: n.next() as u16,
        ppc: n.next(),
        pc: n.next(),
        sp: n.row(),
        vbr: n.next(),
        ir: n.next(),
        fpiar: n.next(),
        t1_flag: n.next(),
        t0_flag: n.next(),
        s_flag: n.next(),
        m_flag: n.next(),
        x_flag: n.next(),
        n_flag: n.next(),
        not_z_flag: n.next(),
        v_flag: n.next(),
        c_flag: n.next(),
        int_mask: n.next(),
        int_level: n.next(),
        stopped: n.next(),
        change_of_flow: n.percent(50),
        loop_mode: n.percent(50),
        prefetch_queue: [n.next() as u16, n.next() as u16],
        prefetch_count: n.next() as u8,
        pending_sync_clocks: n.next(),
        precise_bus: n.percent(50),
        run_mode: n.next(),
        exception_processing: n.percent(50),
        instruction_exception_vector: n.option(),
        last_exception_vector: n.option(),
        pending_fault_cause: FaultCause::read(n.below(9) as u8),
        mmu_fc_override: n.option().map(|code| code as u8),
        pending_fault_wdata: n.next(),
        fault_resume: n.percent(50).then(|| Resume {
            pc: n.next(),
            sr: n.next() as u16,
            dar: n.row(),
        }),
        cycles_remaining: n.next() as i32,
    }
}

/// A core that a call most often accepts: stacks, vectors and handlers in a store of `len` bytes from `base` on, and
/// some fields from anywhere.
pub fn likely_core(n: &mut Numbers, base: u32, len: u32) -> Core {
    let mut core = Core::fresh(n.below(12) as u8);
    let place = |n: &mut Numbers| match n.below(20) {
        0 => n.number(),
        1 => base.wrapping_add(len).wrapping_sub(n.below(16)),
        2 => base.wrapping_add(n.below(16)),
        _ => base.wrapping_add(n.below(len.max(1))) & !1,
    };
    for i in 0..16 {
        core.dar_mut()[i] = n.number();
        core.dar_save_mut()[i] = n.number();
    }
    for i in 0..8 {
        core.sp_mut()[i] = place(n);
    }
    core.dar_mut()[15] = place(n);
    core.dar_save_mut()[15] = place(n);
    core.set_sr(n.next() as u16);
    core.dar_mut()[15] = place(n);
    core.set_pc(place(n));
    core.set_ppc(place(n));
    if n.percent(60) {
        core.set_vbr(base.wrapping_add(n.below(0x400)) & !1);
    }
    core.set_ir(n.next() & 0xFFFF);
    core.set_sr_save(n.next() as u16);
    core.set_int_level(n.below(9));
    core.set_pending_sync_clocks(n.number());
    core.set_precise_bus(n.percent(70));
    core.set_change_of_flow(n.percent(50));
    core.set_loop_mode(n.percent(20));
    core.set_exception_processing(n.percent(10));
    core.set_run_mode(u32::from(n.percent(5)));
    core.set_mmu_fc_override(n.percent(20).then(|| n.below(9) as u8));
    core.set_pending_fault_cause(FaultCause::read(n.below(9) as u8));
    core.set_pending_fault_wdata(n.number());
    core.set_cycles_remaining(n.number() as i32);
    core.set_base(base);
    if n.percent(30) {
        let windows: Vec<Window> = (0..n.below(4))
            .map(|_| Window { start: place(n), length: n.of(&[0, 1, 2, 4, 64]) })
            .collect();
        core.set_windows(&windows);
    }
    for i in 0..8 {
        core.responses_mut()[i] = n.of(&[u32::MAX, 0, 64, 255, 0x1FF]);
    }
    core.set_events(n.number());
    core
}

/// Any call.
pub fn any_call(n: &mut Numbers) -> Call {
    let (address, write, instruction) = (n.number(), n.percent(50), n.percent(30));
    let size = n.of(&[1, 2, 4, 8, 0]);
    match n.below(40) {
        0 => Call::TakeException(n.of(&[2, 3, 4, 5, 24, 32, 255, 256])),
        1 => Call::Trap(n.next() as u8),
        2 => Call::TakeGroup2Exception(n.of(&[5, 6, 7, 9, 255, 256])),
        3 => Call::ExceptionChk,
        4 => Call::ExceptionZeroDivide,
        5 => Call::ExceptionPrivilege,
        6 => Call::ExceptionTrace,
        7 => Call::ExceptionAddressError { address, write, instruction },
        8 => {
            let cause = FaultCause::read(n.below(9) as u8);
            Call::ExceptionBusError { address, write, instruction, size, cause }
        }
        9 => Call::TakeFpUnimp060(address),
        10 => Call::TakeFpDisabled060,
        11 => Call::TakeAlineException,
        12 => Call::TakeFlineException,
        13 => Call::TakeTrapException(n.next() as u8),
        14 => Call::TakeBkptException,
        15 => Call::TakeIllegalException,
        16 => Call::TriggerAddressError { address, write, instruction },
        17 => Call::TriggerBusError { address, write, instruction, size },
        18 => Call::CheckTrace,
        19 => Call::SetIrq(n.next() as u8),
        20 => Call::CheckInterrupts,
        21..=29 => Call::CheckAndServiceInterrupts,
        30 => Call::Read16(address),
        31 => Call::Read32(address),
        32 => Call::Write16(address, n.next() as u16),
        33 => Call::Write32(address, n.next()),
        34 => Call::Push16(n.next() as u16),
        35 => Call::Push32(n.next()),
        36 => Call::PrefetchFirst,
        37 => Call::PrefetchSecond,
        _ => Call::Trap(15),
    }
}

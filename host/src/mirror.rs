// Written by mirror.py from the Rattle sources: do not edit.
#![allow(dead_code)]

use std::mem::{align_of, offset_of, size_of};

#[repr(C)]
#[derive(Clone, Copy, Debug, PartialEq, Eq)]
pub struct RawCall {
    pub number: u32,
    pub a: u32,
    pub b: u32,
    pub c: u32,
    pub d: u32,
    pub e: u32,
}

#[repr(C)]
#[derive(Clone, Copy, Debug, PartialEq, Eq)]
pub struct Regs {
    pub dar: [u32; 16],
    pub dar_save: [u32; 16],
    pub sp: [u32; 8],
}

#[repr(C)]
#[derive(Clone, Copy, Debug, PartialEq, Eq)]
pub struct Flags {
    pub t1_flag: u32,
    pub t0_flag: u32,
    pub s_flag: u32,
    pub m_flag: u32,
    pub x_flag: u32,
    pub n_flag: u32,
    pub not_z_flag: u32,
    pub v_flag: u32,
    pub c_flag: u32,
    pub int_mask: u32,
    pub int_level: u32,
    pub sr_save: u16,
}

#[repr(C)]
#[derive(Clone, Copy, Debug, PartialEq, Eq)]
pub struct Bus {
    pub base: u32,
    pub windows: u32,
    pub starts: [u32; 8],
    pub lengths: [u32; 8],
    pub responses: [u32; 8],
    pub events: u32,
}

#[repr(C)]
#[derive(Clone, Copy, Debug, PartialEq, Eq)]
pub struct Row {
    pub format: u32,
    pub status: u32,
    pub address: u32,
    pub offset: u32,
}

#[repr(C)]
#[derive(Clone, Copy, Debug, PartialEq, Eq)]
pub struct Walked {
    pub refused: u32,
    pub count: u32,
}

#[repr(C)]
#[derive(Clone, Copy, Debug, PartialEq, Eq)]
pub struct LentVector {
    pub some: u8,
    pub value: u32,
}

#[repr(C)]
#[derive(Clone, Copy, Debug, PartialEq, Eq)]
pub struct LentCode {
    pub some: u8,
    pub value: u8,
}

#[repr(C)]
#[derive(Clone, Copy, Debug, PartialEq, Eq)]
pub struct LentFlow {
    pub ppc: u32,
    pub pc: u32,
    pub vbr: u32,
    pub ir: u32,
    pub fpiar: u32,
    pub cpu_type: u8,
    pub run_mode: u32,
    pub stopped: u32,
    pub exception_processing: u8,
    pub change_of_flow: u8,
    pub loop_mode: u8,
    pub cycles_remaining: i32,
}

#[repr(C)]
#[derive(Clone, Copy, Debug, PartialEq, Eq)]
pub struct LentQueue {
    pub prefetch_queue: [u16; 2],
    pub prefetch_count: u8,
    pub pending_sync_clocks: u32,
    pub precise_bus: u8,
}

#[repr(C)]
#[derive(Clone, Copy, Debug, PartialEq, Eq)]
pub struct LentFault {
    pub instruction_exception_vector: LentVector,
    pub last_exception_vector: LentVector,
    pub pending_fault_cause: u8,
    pub mmu_fc_override: LentCode,
    pub pending_fault_wdata: u32,
}

#[repr(C)]
#[derive(Clone, Copy, Debug, PartialEq, Eq)]
pub struct LentResume {
    pub some: u8,
    pub pc: u32,
    pub sr: u16,
    pub dar: [u32; 16],
}

#[repr(C)]
#[derive(Clone, Copy, Debug, PartialEq, Eq)]
pub struct LentCpu {
    pub regs: Regs,
    pub flow: LentFlow,
    pub flags: Flags,
    pub queue: LentQueue,
    pub fault: LentFault,
    pub fault_resume: LentResume,
}

#[repr(C)]
#[derive(Clone, Copy, Debug, PartialEq, Eq)]
pub struct LentCore {
    pub cpu: LentCpu,
    pub bus: Bus,
}

#[repr(C)]
#[derive(Clone, Copy, Debug, PartialEq, Eq)]
pub struct Said {
    pub refused: u32,
    pub answer: u32,
    pub events: u32,
}

#[repr(C)]
#[derive(Clone, Copy, Debug, PartialEq, Eq)]
pub struct SaidReturn {
    pub refused: u32,
    pub row: Row,
}

const _: () = assert!(size_of::<usize>() == 8);
const _: () = assert!(size_of::<RawCall>() == 24 && align_of::<RawCall>() == 4);
const _: () = assert!(offset_of!(RawCall, number) == 0);
const _: () = assert!(offset_of!(RawCall, a) == 4);
const _: () = assert!(offset_of!(RawCall, b) == 8);
const _: () = assert!(offset_of!(RawCall, c) == 12);
const _: () = assert!(offset_of!(RawCall, d) == 16);
const _: () = assert!(offset_of!(RawCall, e) == 20);
const _: () = assert!(size_of::<Regs>() == 160 && align_of::<Regs>() == 4);
const _: () = assert!(offset_of!(Regs, dar) == 0);
const _: () = assert!(offset_of!(Regs, dar_save) == 64);
const _: () = assert!(offset_of!(Regs, sp) == 128);
const _: () = assert!(size_of::<Flags>() == 48 && align_of::<Flags>() == 4);
const _: () = assert!(offset_of!(Flags, t1_flag) == 0);
const _: () = assert!(offset_of!(Flags, t0_flag) == 4);
const _: () = assert!(offset_of!(Flags, s_flag) == 8);
const _: () = assert!(offset_of!(Flags, m_flag) == 12);
const _: () = assert!(offset_of!(Flags, x_flag) == 16);
const _: () = assert!(offset_of!(Flags, n_flag) == 20);
const _: () = assert!(offset_of!(Flags, not_z_flag) == 24);
const _: () = assert!(offset_of!(Flags, v_flag) == 28);
const _: () = assert!(offset_of!(Flags, c_flag) == 32);
const _: () = assert!(offset_of!(Flags, int_mask) == 36);
const _: () = assert!(offset_of!(Flags, int_level) == 40);
const _: () = assert!(offset_of!(Flags, sr_save) == 44);
const _: () = assert!(size_of::<Bus>() == 108 && align_of::<Bus>() == 4);
const _: () = assert!(offset_of!(Bus, base) == 0);
const _: () = assert!(offset_of!(Bus, windows) == 4);
const _: () = assert!(offset_of!(Bus, starts) == 8);
const _: () = assert!(offset_of!(Bus, lengths) == 40);
const _: () = assert!(offset_of!(Bus, responses) == 72);
const _: () = assert!(offset_of!(Bus, events) == 104);
const _: () = assert!(size_of::<Row>() == 16 && align_of::<Row>() == 4);
const _: () = assert!(offset_of!(Row, format) == 0);
const _: () = assert!(offset_of!(Row, status) == 4);
const _: () = assert!(offset_of!(Row, address) == 8);
const _: () = assert!(offset_of!(Row, offset) == 12);
const _: () = assert!(size_of::<Walked>() == 8 && align_of::<Walked>() == 4);
const _: () = assert!(offset_of!(Walked, refused) == 0);
const _: () = assert!(offset_of!(Walked, count) == 4);
const _: () = assert!(size_of::<LentVector>() == 8 && align_of::<LentVector>() == 4);
const _: () = assert!(offset_of!(LentVector, some) == 0);
const _: () = assert!(offset_of!(LentVector, value) == 4);
const _: () = assert!(size_of::<LentCode>() == 2 && align_of::<LentCode>() == 1);
const _: () = assert!(offset_of!(LentCode, some) == 0);
const _: () = assert!(offset_of!(LentCode, value) == 1);
const _: () = assert!(size_of::<LentFlow>() == 40 && align_of::<LentFlow>() == 4);
const _: () = assert!(offset_of!(LentFlow, ppc) == 0);
const _: () = assert!(offset_of!(LentFlow, pc) == 4);
const _: () = assert!(offset_of!(LentFlow, vbr) == 8);
const _: () = assert!(offset_of!(LentFlow, ir) == 12);
const _: () = assert!(offset_of!(LentFlow, fpiar) == 16);
const _: () = assert!(offset_of!(LentFlow, cpu_type) == 20);
const _: () = assert!(offset_of!(LentFlow, run_mode) == 24);
const _: () = assert!(offset_of!(LentFlow, stopped) == 28);
const _: () = assert!(offset_of!(LentFlow, exception_processing) == 32);
const _: () = assert!(offset_of!(LentFlow, change_of_flow) == 33);
const _: () = assert!(offset_of!(LentFlow, loop_mode) == 34);
const _: () = assert!(offset_of!(LentFlow, cycles_remaining) == 36);
const _: () = assert!(size_of::<LentQueue>() == 16 && align_of::<LentQueue>() == 4);
const _: () = assert!(offset_of!(LentQueue, prefetch_queue) == 0);
const _: () = assert!(offset_of!(LentQueue, prefetch_count) == 4);
const _: () = assert!(offset_of!(LentQueue, pending_sync_clocks) == 8);
const _: () = assert!(offset_of!(LentQueue, precise_bus) == 12);
const _: () = assert!(size_of::<LentFault>() == 24 && align_of::<LentFault>() == 4);
const _: () = assert!(offset_of!(LentFault, instruction_exception_vector) == 0);
const _: () = assert!(offset_of!(LentFault, last_exception_vector) == 8);
const _: () = assert!(offset_of!(LentFault, pending_fault_cause) == 16);
const _: () = assert!(offset_of!(LentFault, mmu_fc_override) == 17);
const _: () = assert!(offset_of!(LentFault, pending_fault_wdata) == 20);
const _: () = assert!(size_of::<LentResume>() == 76 && align_of::<LentResume>() == 4);
const _: () = assert!(offset_of!(LentResume, some) == 0);
const _: () = assert!(offset_of!(LentResume, pc) == 4);
const _: () = assert!(offset_of!(LentResume, sr) == 8);
const _: () = assert!(offset_of!(LentResume, dar) == 12);
const _: () = assert!(size_of::<LentCpu>() == 364 && align_of::<LentCpu>() == 4);
const _: () = assert!(offset_of!(LentCpu, regs) == 0);
const _: () = assert!(offset_of!(LentCpu, flow) == 160);
const _: () = assert!(offset_of!(LentCpu, flags) == 200);
const _: () = assert!(offset_of!(LentCpu, queue) == 248);
const _: () = assert!(offset_of!(LentCpu, fault) == 264);
const _: () = assert!(offset_of!(LentCpu, fault_resume) == 288);
const _: () = assert!(size_of::<LentCore>() == 472 && align_of::<LentCore>() == 4);
const _: () = assert!(offset_of!(LentCore, cpu) == 0);
const _: () = assert!(offset_of!(LentCore, bus) == 364);
const _: () = assert!(size_of::<Said>() == 12 && align_of::<Said>() == 4);
const _: () = assert!(offset_of!(Said, refused) == 0);
const _: () = assert!(offset_of!(Said, answer) == 4);
const _: () = assert!(offset_of!(Said, events) == 8);
const _: () = assert!(size_of::<SaidReturn>() == 20 && align_of::<SaidReturn>() == 4);
const _: () = assert!(offset_of!(SaidReturn, refused) == 0);
const _: () = assert!(offset_of!(SaidReturn, row) == 4);

unsafe extern "C" {
    pub fn m68k_call(
        core: *mut LentCore,
        call: RawCall,
        store: *mut u8,
        store_len: usize,
        log: *mut u32,
        log_len: usize,
    ) -> Said;
    pub fn m68k_take_exception(
        core: *mut LentCore,
        vector: u32,
        store: *mut u8,
        store_len: usize,
        log: *mut u32,
        log_len: usize,
    ) -> Said;
    pub fn m68k_check_and_service_interrupts(
        core: *mut LentCore,
        store: *mut u8,
        store_len: usize,
        log: *mut u32,
        log_len: usize,
    ) -> Said;
    pub fn m68k_return(core: *mut LentCore, store: *const u8, store_len: usize) -> SaidReturn;
    pub fn m68k_walk(
        core: *const LentCore,
        n: u32,
        store: *const u8,
        store_len: usize,
        rows: *mut u32,
        rows_len: usize,
    ) -> Walked;
    pub fn m68k_fresh(kind: u8) -> LentCpu;
    pub fn m68k_get_sr(cpu: *const LentCpu) -> u32;
    pub fn m68k_set_sr(cpu: *mut LentCpu, sr: u16) -> u32;
}

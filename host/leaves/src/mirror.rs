// Written by mirror.py from the Rattle sources: do not edit.
#![allow(dead_code)]

use std::mem::{align_of, offset_of, size_of};

#[repr(C)]
#[derive(Clone, Copy, Debug, PartialEq, Eq)]
pub struct OptionalVector {
    pub some: bool,
    pub value: u32,
}

#[repr(C)]
#[derive(Clone, Copy, Debug, PartialEq, Eq)]
pub struct OptionalCode {
    pub some: bool,
    pub value: u8,
}

#[repr(C)]
#[derive(Clone, Copy, Debug, PartialEq, Eq)]
pub struct Regs {
    pub dar: [u32; 16],
    pub dar_save: [u32; 16],
    pub sp: [u32; 8],
}

#[repr(C)]
#[derive(Clone, Copy, Debug, PartialEq, Eq)]
pub struct Flow {
    pub ppc: u32,
    pub pc: u32,
    pub vbr: u32,
    pub ir: u32,
    pub fpiar: u32,
    pub cpu_type: u8,
    pub run_mode: u32,
    pub stopped: u32,
    pub exception_processing: bool,
    pub change_of_flow: bool,
    pub loop_mode: bool,
    pub cycles_remaining: i32,
}

#[repr(C)]
#[derive(Clone, Copy, Debug, PartialEq, Eq)]
pub struct Flags {
    pub t1_flag: u32,
    pub t0_flag: u32,
    pub s_flag: u32,
    pub m_flag: u32,
    pub x_flag: u32,
    pub n_flag: u32,
    pub not_z_flag: u32,
    pub v_flag: u32,
    pub c_flag: u32,
    pub int_mask: u32,
    pub int_level: u32,
    pub sr_save: u16,
}

#[repr(C)]
#[derive(Clone, Copy, Debug, PartialEq, Eq)]
pub struct Queue {
    pub prefetch_queue: [u16; 2],
    pub prefetch_count: u8,
    pub pending_sync_clocks: u32,
    pub precise_bus: bool,
}

#[repr(C)]
#[derive(Clone, Copy, Debug, PartialEq, Eq)]
pub struct Fault {
    pub instruction_exception_vector: OptionalVector,
    pub last_exception_vector: OptionalVector,
    pub pending_fault_cause: u8,
    pub mmu_fc_override: OptionalCode,
    pub pending_fault_wdata: u32,
}

#[repr(C)]
#[derive(Clone, Copy, Debug, PartialEq, Eq)]
pub struct Resume {
    pub some: bool,
    pub pc: u32,
    pub sr: u16,
    pub dar: [u32; 16],
}

#[repr(C)]
#[derive(Clone, Copy, Debug, PartialEq, Eq)]
pub struct Cpu {
    pub regs: Regs,
    pub flow: Flow,
    pub flags: Flags,
    pub queue: Queue,
    pub fault: Fault,
    pub fault_resume: Resume,
}

const _: () = assert!(size_of::<usize>() == 8);
const _: () = assert!(size_of::<OptionalVector>() == 8 && align_of::<OptionalVector>() == 4);
const _: () = assert!(offset_of!(OptionalVector, some) == 0);
const _: () = assert!(offset_of!(OptionalVector, value) == 4);
const _: () = assert!(size_of::<OptionalCode>() == 2 && align_of::<OptionalCode>() == 1);
const _: () = assert!(offset_of!(OptionalCode, some) == 0);
const _: () = assert!(offset_of!(OptionalCode, value) == 1);
const _: () = assert!(size_of::<Regs>() == 160 && align_of::<Regs>() == 4);
const _: () = assert!(offset_of!(Regs, dar) == 0);
const _: () = assert!(offset_of!(Regs, dar_save) == 64);
const _: () = assert!(offset_of!(Regs, sp) == 128);
const _: () = assert!(size_of::<Flow>() == 40 && align_of::<Flow>() == 4);
const _: () = assert!(offset_of!(Flow, ppc) == 0);
const _: () = assert!(offset_of!(Flow, pc) == 4);
const _: () = assert!(offset_of!(Flow, vbr) == 8);
const _: () = assert!(offset_of!(Flow, ir) == 12);
const _: () = assert!(offset_of!(Flow, fpiar) == 16);
const _: () = assert!(offset_of!(Flow, cpu_type) == 20);
const _: () = assert!(offset_of!(Flow, run_mode) == 24);
const _: () = assert!(offset_of!(Flow, stopped) == 28);
const _: () = assert!(offset_of!(Flow, exception_processing) == 32);
const _: () = assert!(offset_of!(Flow, change_of_flow) == 33);
const _: () = assert!(offset_of!(Flow, loop_mode) == 34);
const _: () = assert!(offset_of!(Flow, cycles_remaining) == 36);
const _: () = assert!(size_of::<Flags>() == 48 && align_of::<Flags>() == 4);
const _: () = assert!(offset_of!(Flags, t1_flag) == 0);
const _: () = assert!(offset_of!(Flags, t0_flag) == 4);
const _: () = assert!(offset_of!(Flags, s_flag) == 8);
const _: () = assert!(offset_of!(Flags, m_flag) == 12);
const _: () = assert!(offset_of!(Flags, x_flag) == 16);
const _: () = assert!(offset_of!(Flags, n_flag) == 20);
const _: () = assert!(offset_of!(Flags, not_z_flag) == 24);
const _: () = assert!(offset_of!(Flags, v_flag) == 28);
const _: () = assert!(offset_of!(Flags, c_flag) == 32);
const _: () = assert!(offset_of!(Flags, int_mask) == 36);
const _: () = assert!(offset_of!(Flags, int_level) == 40);
const _: () = assert!(offset_of!(Flags, sr_save) == 44);
const _: () = assert!(size_of::<Queue>() == 16 && align_of::<Queue>() == 4);
const _: () = assert!(offset_of!(Queue, prefetch_queue) == 0);
const _: () = assert!(offset_of!(Queue, prefetch_count) == 4);
const _: () = assert!(offset_of!(Queue, pending_sync_clocks) == 8);
const _: () = assert!(offset_of!(Queue, precise_bus) == 12);
const _: () = assert!(size_of::<Fault>() == 24 && align_of::<Fault>() == 4);
const _: () = assert!(offset_of!(Fault, instruction_exception_vector) == 0);
const _: () = assert!(offset_of!(Fault, last_exception_vector) == 8);
const _: () = assert!(offset_of!(Fault, pending_fault_cause) == 16);
const _: () = assert!(offset_of!(Fault, mmu_fc_override) == 17);
const _: () = assert!(offset_of!(Fault, pending_fault_wdata) == 20);
const _: () = assert!(size_of::<Resume>() == 76 && align_of::<Resume>() == 4);
const _: () = assert!(offset_of!(Resume, some) == 0);
const _: () = assert!(offset_of!(Resume, pc) == 4);
const _: () = assert!(offset_of!(Resume, sr) == 8);
const _: () = assert!(offset_of!(Resume, dar) == 12);
const _: () = assert!(size_of::<Cpu>() == 364 && align_of::<Cpu>() == 4);
const _: () = assert!(offset_of!(Cpu, regs) == 0);
const _: () = assert!(offset_of!(Cpu, flow) == 160);
const _: () = assert!(offset_of!(Cpu, flags) == 200);
const _: () = assert!(offset_of!(Cpu, queue) == 248);
const _: () = assert!(offset_of!(Cpu, fault) == 264);
const _: () = assert!(offset_of!(Cpu, fault_resume) == 288);

unsafe extern "C" {
    pub fn leaf_get_sr(c: Cpu) -> u32;
    pub fn leaf_set_sr_noint_nosp(c: Cpu, sr: u16) -> Cpu;
    pub fn leaf_put_back_sr(c: Cpu, sr: u16) -> Cpu;
    pub fn leaf_set_ccr_internal(c: Cpu, ccr: u8) -> Cpu;
    pub fn leaf_sp_index(c: Cpu) -> usize;
    pub fn leaf_backup_sp(c: Cpu) -> Cpu;
    pub fn leaf_restore_sp(c: Cpu) -> Cpu;
    pub fn leaf_set_s_flag(c: Cpu, v: u32) -> Cpu;
    pub fn leaf_set_sm_flag(c: Cpu, v: u32) -> Cpu;
    pub fn leaf_set_sm_flag_nosp(c: Cpu, v: u32) -> Cpu;
    pub fn leaf_internal_cycles(c: Cpu, n: u32) -> Cpu;
    pub fn leaf_prefetch_enabled(c: Cpu) -> bool;
    pub fn leaf_address(c: Cpu, a: u32) -> u32;
    pub fn leaf_trace_t0_sr_write(c: Cpu) -> Cpu;
    pub fn leaf_trace_t0_68040_sync(c: Cpu) -> Cpu;
}

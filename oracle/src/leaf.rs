//! Thin functions over the lifted leaf functions, for comparisons record by record.

use crate::core::cpu::CpuCore;
use crate::core::{cpu, exceptions, execute};
use crate::record::{Record, cause};

/// Runs something on the core of a record and puts the fields back.
fn on<T>(kind: u8, r: &mut Record, f: impl FnOnce(&mut CpuCore) -> T) -> T {
    let mut core = r.to_core(kind);
    let answer = f(&mut core);
    *r = Record::from_core(&core);
    answer
}

/// The status does not depend on the kind.
pub fn get_sr(r: &Record) -> u16 {
    r.to_core(0).get_sr()
}

pub fn set_sr_noint_nosp(kind: u8, r: &mut Record, sr: u16) {
    on(kind, r, |core| core.set_sr_noint_nosp(sr))
}

pub fn set_ccr_internal(kind: u8, r: &mut Record, ccr: u8) {
    on(kind, r, |core| cpu::reach::set_ccr_internal(core, ccr))
}

pub fn sp_index(kind: u8, r: &Record) -> usize {
    cpu::reach::sp_index(&r.to_core(kind))
}

pub fn backup_sp(kind: u8, r: &mut Record) {
    on(kind, r, cpu::reach::backup_sp)
}

pub fn restore_sp(kind: u8, r: &mut Record) {
    on(kind, r, cpu::reach::restore_sp)
}

pub fn set_s_flag(kind: u8, r: &mut Record, value: u32) {
    on(kind, r, |core| core.set_s_flag(value))
}

pub fn set_sm_flag(kind: u8, r: &mut Record, value: u32) {
    on(kind, r, |core| core.set_sm_flag(value))
}

pub fn set_sm_flag_nosp(kind: u8, r: &mut Record, value: u32) {
    on(kind, r, |core| core.set_sm_flag_nosp(value))
}

pub fn internal_cycles(kind: u8, r: &mut Record, clocks: u32) {
    on(kind, r, |core| core.internal_cycles(clocks))
}

pub fn prefetch_enabled(kind: u8, r: &Record) -> bool {
    r.to_core(kind).prefetch_enabled()
}

pub fn address(kind: u8, r: &Record, address: u32) -> u32 {
    r.to_core(kind).address(address)
}

pub fn faulted(kind: u8, r: &Record) -> bool {
    r.to_core(kind).faulted()
}

pub fn check_trace(kind: u8, r: &mut Record) -> bool {
    on(kind, r, |core| core.check_trace())
}

pub fn trace_t0_sr_write(kind: u8, r: &mut Record) {
    on(kind, r, |core| core.trace_t0_sr_write())
}

pub fn trace_t0_68040_sync(kind: u8, r: &mut Record) {
    on(kind, r, |core| core.trace_t0_68040_sync())
}

pub fn set_irq(kind: u8, r: &mut Record, level: u8) {
    on(kind, r, |core| core.set_irq(level))
}

pub fn check_interrupts(kind: u8, r: &Record) -> bool {
    r.to_core(kind).check_interrupts()
}

pub fn is_040(kind: u8, r: &Record) -> bool {
    r.to_core(kind).is_040()
}

pub fn is_060(kind: u8, r: &Record) -> bool {
    r.to_core(kind).is_060()
}

/// Address mask and status mask of a kind, as the lifted code sets them.
pub fn masks(kind: u8) -> (u32, u32) {
    let core = Record::fresh(kind).to_core(kind);
    (core.address_mask, core.sr_mask)
}

/// Cycle answer of an entry by its vector.
pub fn exception_cycles(vector: u32) -> i32 {
    exceptions::reach::exception_cycles(&Record::fresh(1).to_core(1), vector)
}

/// Vector of an acknowledge response.
pub fn iack_vector(response: u32, level: u8) -> u32 {
    execute::reach::iack_vector(response, level)
}

/// Fault status long word of kind 11, the cause by its number.
pub fn fslw_060(write: bool, instruction: bool, size: u32, code: u16, number: u8) -> u32 {
    exceptions::reach::fslw_060(write, instruction, size, code, cause(number))
}

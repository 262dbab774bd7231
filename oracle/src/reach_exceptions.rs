// Part of the lifted module `exceptions`: a child may use its parent's private functions.

use crate::core::cpu::CpuCore;
use crate::stubs::mmu::MmuFaultCause;

pub fn exception_cycles(core: &CpuCore, vector: u32) -> i32 {
    core.exception_cycles(vector)
}

pub fn fslw_060(
    write: bool,
    instruction: bool,
    size: u32,
    code: u16,
    cause: Option<MmuFaultCause>,
) -> u32 {
    super::fslw_060(write, instruction, size, code, cause)
}

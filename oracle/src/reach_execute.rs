// Part of the lifted module `execute`: a child may use its parent's private functions.

use crate::bus::Bus;
use crate::core::cpu::CpuCore;

pub fn check_and_service_interrupts(core: &mut CpuCore, bus: &mut Bus) -> bool {
    core.check_and_service_interrupts(bus)
}

pub fn iack_vector(response: u32, level: u8) -> u32 {
    CpuCore::iack_vector(response, level)
}

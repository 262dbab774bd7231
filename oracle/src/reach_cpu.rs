// Part of the lifted module `cpu`: a child may use its parent's private functions.

use super::CpuCore;
use crate::bus::Bus;

pub fn sp_index(core: &CpuCore) -> usize {
    core.sp_index()
}

pub fn backup_sp(core: &mut CpuCore) {
    core.backup_sp();
}

pub fn restore_sp(core: &mut CpuCore) {
    core.restore_sp();
}

pub fn set_ccr_internal(core: &mut CpuCore, ccr: u8) {
    core.set_ccr_internal(ccr);
}

pub fn prefetch_read(core: &mut CpuCore, bus: &mut Bus, address: u32) -> Option<u16> {
    core.prefetch_read(bus, address)
}

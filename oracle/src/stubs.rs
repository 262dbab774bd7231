//! What the lifted text names and the source at hand does not have.
//!
//! Types of fields that the taken functions never read, and functions that they never reach with
//! the PMMU off. lift.py copies the marked lines into LIFTED.txt.

// stub: mmu - module not at hand; with the PMMU off only the fault causes are used
pub mod mmu {
    use crate::core::cpu::CpuCore;
    use crate::core::memory::AddressBus;

    // stub: mmu::MmuFaultCause - the eight causes that fslw_060 names; their true order is not known
    #[derive(Debug, Clone, Copy, PartialEq, Eq)]
    pub enum MmuFaultCause {
        PointerA,
        PointerB,
        Indirect,
        PageFault,
        WriteProtect,
        SupervisorProtect,
        TableWalkBusError,
        AccessBusError,
    }

    // stub: mmu::MmuFaultKind - unreachable with the PMMU off
    #[derive(Debug, Clone, Copy)]
    pub enum MmuFaultKind {
        BusError,
        ConfigurationError,
        IllegalOperation,
        AccessLevelViolation,
    }

    // stub: mmu::MmuFault - unreachable with the PMMU off
    #[derive(Debug, Clone, Copy)]
    pub struct MmuFault {
        pub kind: MmuFaultKind,
        pub address: u32,
        pub cause: MmuFaultCause,
    }

    // stub: mmu::Atc - field never read with the PMMU off
    #[derive(Debug, Default)]
    pub struct Atc;

    // stub: mmu::Atc030 - field never read with the PMMU off
    #[derive(Debug, Default)]
    pub struct Atc030;

    // stub: mmu::ResidentMmu - field of the batch engine, never read here
    #[derive(Debug, Default)]
    pub struct ResidentMmu;

    // stub: mmu::translate_address - unreachable with the PMMU off, so it stops the program
    pub fn translate_address<B: AddressBus>(
        _core: &mut CpuCore,
        _bus: &mut B,
        _address: u32,
        _write: bool,
        _supervisor: bool,
        _instruction: bool,
    ) -> Result<u32, MmuFault> {
        panic!("the PMMU is off in every case")
    }
}

// stub: fpu::FloatX80 - floating-point values are left out by the scope
#[derive(Debug, Default, Clone, Copy)]
pub struct FloatX80;

// stub: op_cache::CachedOp - the decode table is left out by the scope and stays None
#[derive(Debug, Clone, Copy)]
pub struct CachedOp;

// stub: window::Region, window::NO_CODE_PAGE - fields of the batch engine, never read here
pub mod window {
    #[derive(Debug, Default, Clone, Copy)]
    pub struct Region;
    pub const NO_CODE_PAGE: u32 = u32::MAX;
}

// stub: trace_jit::TRACE_PC_NONE - fields of the JIT, left out by the scope
pub mod trace_jit {
    pub const TRACE_PC_NONE: u32 = u32::MAX;
}

// stub: timing_060::Oep060Timing - field oep060, left out by the scope
pub mod timing_060 {
    #[derive(Debug, Default)]
    pub struct Oep060Timing;
}

// stub: CpuCore::break_060_pipeline - taken to touch only oep060, which the scope leaves out
impl crate::core::cpu::CpuCore {
    pub(crate) fn break_060_pipeline(&mut self) {}
}

//! The record: the fields of the core that a case can see, and the way to a core and back.

use crate::core::cpu::CpuCore;
use crate::core::types::CpuType;
use crate::stubs::mmu::MmuFaultCause;

/// Program counter, status and registers kept by a trigger.
pub type Resume = (u32, u16, [u32; 16]);

/// The fields by their Rust names, in the order of the text format.
#[derive(Debug, Clone, PartialEq, Eq)]
pub struct Record {
    pub dar: [u32; 16],
    pub dar_save: [u32; 16],
    pub sr_save: u16,
    pub ppc: u32,
    pub pc: u32,
    pub sp: [u32; 8],
    pub vbr: u32,
    pub ir: u32,
    pub fpiar: u32,
    pub t1_flag: u32,
    pub t0_flag: u32,
    pub s_flag: u32,
    pub m_flag: u32,
    pub x_flag: u32,
    pub n_flag: u32,
    pub not_z_flag: u32,
    pub v_flag: u32,
    pub c_flag: u32,
    pub int_mask: u32,
    pub int_level: u32,
    pub stopped: u32,
    pub change_of_flow: bool,
    pub loop_mode: bool,
    pub prefetch_queue: [u16; 2],
    pub prefetch_count: u8,
    pub pending_sync_clocks: u32,
    pub precise_bus: bool,
    pub run_mode: u32,
    pub exception_processing: bool,
    pub instruction_exception_vector: Option<u32>,
    pub last_exception_vector: Option<u32>,
    /// 0 none, 1 to 8 the causes.
    pub pending_fault_cause: u8,
    pub mmu_fc_override: Option<u8>,
    pub pending_fault_wdata: u32,
    pub fault_resume: Option<Resume>,
    pub cycles_remaining: i32,
}

/// The fields that stand in both types under one name and type.
macro_rules! alike {
    ($then:ident, $a:expr, $b:expr) => {
        $then!($a, $b, dar dar_save sr_save ppc pc sp vbr ir fpiar t1_flag t0_flag s_flag m_flag
            x_flag n_flag not_z_flag v_flag c_flag int_mask int_level stopped change_of_flow
            loop_mode prefetch_queue prefetch_count pending_sync_clocks precise_bus run_mode
            exception_processing instruction_exception_vector last_exception_vector
            mmu_fc_override pending_fault_wdata fault_resume cycles_remaining)
    };
}

macro_rules! put {
    ($to:expr, $from:expr, $($f:ident)*) => { $($to.$f = $from.$f;)* };
}

macro_rules! build {
    ($core:expr, $cause:expr, $($f:ident)*) => {
        Record { pending_fault_cause: $cause, $($f: $core.$f,)* }
    };
}

impl Record {
    /// What `new` and then `set_cpu_type` leave; above 11 there is no type to set.
    pub fn fresh(kind: u8) -> Record {
        Record::from_core(&fresh_core(kind))
    }

    /// A core of the kind with these fields.
    pub fn to_core(&self, kind: u8) -> CpuCore {
        let mut core = fresh_core(kind);
        self.put(&mut core);
        core
    }

    /// Sets these fields of a core.
    pub fn put(&self, core: &mut CpuCore) {
        alike!(put, core, self);
        core.pending_fault_cause = cause(self.pending_fault_cause);
    }

    pub fn from_core(core: &CpuCore) -> Record {
        let number = cause_number(core.pending_fault_cause);
        alike!(build, core, number)
    }
}

fn fresh_core(kind: u8) -> CpuCore {
    let mut core = CpuCore::new();
    if let Some(t) = cpu_type(kind) {
        core.set_cpu_type(t);
    }
    core
}

/// The kinds are the numbers of `CpuType`.
pub fn cpu_type(kind: u8) -> Option<CpuType> {
    const ALL: [CpuType; 12] = [
        CpuType::Invalid,
        CpuType::M68000,
        CpuType::M68010,
        CpuType::M68EC020,
        CpuType::M68020,
        CpuType::M68EC030,
        CpuType::M68030,
        CpuType::M68EC040,
        CpuType::M68LC040,
        CpuType::M68040,
        CpuType::SCC68070,
        CpuType::M68060,
    ];
    let t = ALL.get(kind as usize).copied()?;
    assert_eq!(t as u32, u32::from(kind));
    Some(t)
}

const CAUSES: [MmuFaultCause; 8] = [
    MmuFaultCause::PointerA,
    MmuFaultCause::PointerB,
    MmuFaultCause::Indirect,
    MmuFaultCause::PageFault,
    MmuFaultCause::WriteProtect,
    MmuFaultCause::SupervisorProtect,
    MmuFaultCause::TableWalkBusError,
    MmuFaultCause::AccessBusError,
];

/// The cause of a number of the text format: 0 none, 1 to 8 the causes.
pub fn cause(number: u8) -> Option<MmuFaultCause> {
    match number {
        0 => None,
        n => Some(CAUSES[n as usize - 1]),
    }
}

pub fn cause_number(cause: Option<MmuFaultCause>) -> u8 {
    match cause {
        None => 0,
        Some(c) => 1 + CAUSES.iter().position(|&k| k == c).unwrap() as u8,
    }
}

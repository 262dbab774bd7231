//! The fields of the record, each said once: a plain struct of them, and accessors of the lent one.

use crate::core::Core;
use crate::{FaultCause, mirror};

/// What a trigger keeps for the instruction that faulted.
#[derive(Debug, Clone, Copy, PartialEq, Eq, Hash)]
pub struct Resume {
    /// The program counter.
    pub pc: u32,
    /// The status register.
    pub sr: u16,
    /// D0 to D7, A0 to A7.
    pub dar: [u32; 16],
}

/// The ways of a field between the lent record and Rust: `get` and `put`.
mod plain {
    pub fn get<T: Copy>(place: &T) -> T {
        *place
    }
    pub fn put<T>(place: &mut T, value: T) {
        *place = value;
    }
}

/// A byte that is set where it is not 0.
mod flag {
    pub fn get(place: &u8) -> bool {
        *place != 0
    }
    pub fn put(place: &mut u8, value: bool) {
        *place = value.into();
    }
}

/// An option; none is a flag of 0 and a value of 0.
mod vector {
    use crate::mirror::LentVector;
    pub fn get(place: &LentVector) -> Option<u32> {
        (place.some != 0).then_some(place.value)
    }
    pub fn put(place: &mut LentVector, value: Option<u32>) {
        *place = LentVector { some: value.is_some().into(), value: value.unwrap_or(0) };
    }
}

mod code {
    use crate::mirror::LentCode;
    pub fn get(place: &LentCode) -> Option<u8> {
        (place.some != 0).then_some(place.value)
    }
    pub fn put(place: &mut LentCode, value: Option<u8>) {
        *place = LentCode { some: value.is_some().into(), value: value.unwrap_or(0) };
    }
}

/// A number that is read as none where it is 0 or above 8.
mod cause {
    use crate::FaultCause;
    pub fn get(place: &u8) -> Option<FaultCause> {
        FaultCause::read(*place)
    }
    pub fn put(place: &mut u8, value: Option<FaultCause>) {
        *place = FaultCause::number(value);
    }
}

mod resume {
    use super::Resume;
    use crate::mirror::LentResume;
    pub fn get(place: &LentResume) -> Option<Resume> {
        let LentResume { some, pc, sr, dar } = *place;
        (some != 0).then_some(Resume { pc, sr, dar })
    }
    pub fn put(place: &mut LentResume, value: Option<Resume>) {
        let Resume { pc, sr, dar } = value.unwrap_or(Resume { pc: 0, sr: 0, dar: [0; 16] });
        *place = LentResume { some: value.is_some().into(), pc, sr, dar };
    }
}

macro_rules! fields {
    (
        arrays {
            $($(#[doc = $array_doc:literal])*
            $array:ident, $array_mut:ident: $array_type:ty = $group:ident;)*
        }
        values {
            $($(#[doc = $doc:literal])*
            $name:ident, $(#[doc = $set_doc:literal])* $set:ident: $type:ty =
                $way:ident $($place:ident).+;)*
        }
    ) => {
        /// The processor as the calls see it, a plain struct with the field names of the Rust.
        ///
        /// Any values may be given. Some are refused, by number: `s_flag` must be 0 or 4, `m_flag` 0 or 2,
        /// `mmu_fc_override` at most 7, `cpu_type` at most 11, `vbr` even on the kinds 1, 2 and 10.
        /// [`Core::set_record`] and [`Core::record`] convert it; a call over a [`Core`] converts nothing.
        #[derive(Debug, Clone, PartialEq, Eq)]
        pub struct Record {
            $($(#[doc = $array_doc])* pub $array: $array_type,)*
            $($(#[doc = $doc])* pub $name: $type,)*
        }

        impl From<&mirror::LentCpu> for Record {
            fn from(cpu: &mirror::LentCpu) -> Record {
                Record {
                    $($array: cpu.$group.$array,)*
                    $($name: $way::get(&cpu.$($place).+),)*
                }
            }
        }

        impl Record {
            /// Lays the fields into a lent record; none is a flag of 0 and values of 0.
            pub(crate) fn put(&self, cpu: &mut mirror::LentCpu) {
                $(cpu.$group.$array = self.$array;)*
                $($way::put(&mut cpu.$($place).+, self.$name);)*
            }
        }

        /// The fields of the record, by the names of the Rust.
        impl Core {
            $(
                $(#[doc = $array_doc])*
                pub fn $array(&self) -> &$array_type {
                    &self.lent().cpu.$group.$array
                }
                #[doc = concat!("[`Core::", stringify!($array), "`], to be changed.")]
                pub fn $array_mut(&mut self) -> &mut $array_type {
                    &mut self.lent_mut().cpu.$group.$array
                }
            )*
            $(
                $(#[doc = $doc])*
                pub fn $name(&self) -> $type {
                    $way::get(&self.lent().cpu.$($place).+)
                }
                #[doc = concat!("Sets [`Core::", stringify!($name), "`].")]
                $(#[doc = $set_doc])*
                pub fn $set(&mut self, value: $type) {
                    $way::put(&mut self.lent_mut().cpu.$($place).+, value);
                }
            )*
        }
    };
}

fields! {
    arrays {
        /// D0 to D7, A0 to A7.
        dar, dar_mut: [u32; 16] = regs;
        /// The registers before the instruction.
        dar_save, dar_save_mut: [u32; 16] = regs;
        /// Saved stack pointers: 0 user, 4 interrupt, 6 master. The entry of the stack in use is stale: A7 counts, which
        /// is what the Rust's `sp()` gives.
        sp, sp_mut: [u32; 8] = regs;
    }
    values {
        /// The kind of processor, a number of `CpuType`.
        cpu_type, set_cpu_type: u8 = plain flow.cpu_type;
        /// The status register before the instruction.
        sr_save, set_sr_save: u16 = plain flags.sr_save;
        /// The program counter before the instruction.
        ppc, set_ppc: u32 = plain flow.ppc;
        /// The program counter.
        pc, set_pc: u32 = plain flow.pc;
        /// The vector base.
        vbr, set_vbr: u32 = plain flow.vbr;
        /// The instruction word.
        ir, set_ir: u32 = plain flow.ir;
        /// The address of the last floating-point instruction.
        fpiar, set_fpiar: u32 = plain flow.fpiar;
        /// Trace: 0 or 0x8000.
        t1_flag, set_t1_flag: u32 = plain flags.t1_flag;
        /// Trace on change of flow: 0 or 0x4000.
        t0_flag, set_t0_flag: u32 = plain flags.t0_flag;
        /// Supervisor: 0 or 4.
        s_flag,
        /// The field alone: A7 stays and becomes the pointer of the stack that S and M select. Unlike the Rust's function
        /// of that name; [`Core::set_sr`] swaps.
        set_s_flag: u32 = plain flags.s_flag;
        /// Master: 0 or 2.
        m_flag,
        /// The field alone: A7 stays and becomes the pointer of the stack that S and M select. [`Core::set_sr`] swaps.
        set_m_flag: u32 = plain flags.m_flag;
        /// Extend: bit 8.
        x_flag, set_x_flag: u32 = plain flags.x_flag;
        /// Negative: bit 7.
        n_flag, set_n_flag: u32 = plain flags.n_flag;
        /// Zero where it is 0.
        not_z_flag, set_not_z_flag: u32 = plain flags.not_z_flag;
        /// Overflow: bit 7.
        v_flag, set_v_flag: u32 = plain flags.v_flag;
        /// Carry: bit 8.
        c_flag, set_c_flag: u32 = plain flags.c_flag;
        /// The interrupt mask, in bits 8 to 10.
        int_mask, set_int_mask: u32 = plain flags.int_mask;
        /// The interrupt level that is asked for. The interrupt call takes its low 3 bits, [`Call::CheckInterrupts`](crate::Call::CheckInterrupts)
        /// all of it.
        int_level, set_int_level: u32 = plain flags.int_level;
        /// Not 0 while stopped.
        stopped, set_stopped: u32 = plain flow.stopped;
        /// Whether the instruction changed the flow.
        change_of_flow, set_change_of_flow: bool = flag flow.change_of_flow;
        /// Whether the 68010's loop mode is on.
        loop_mode, set_loop_mode: bool = flag flow.loop_mode;
        /// The words fetched ahead.
        prefetch_queue, set_prefetch_queue: [u16; 2] = plain queue.prefetch_queue;
        /// How many of them count.
        prefetch_count, set_prefetch_count: u8 = plain queue.prefetch_count;
        /// Clocks that wait to be reported.
        pending_sync_clocks, set_pending_sync_clocks: u32 = plain queue.pending_sync_clocks;
        /// Whether accesses are made one by one.
        precise_bus, set_precise_bus: bool = flag queue.precise_bus;
        /// 1 after a fault.
        run_mode, set_run_mode: u32 = plain flow.run_mode;
        /// Whether an entry is under way.
        exception_processing, set_exception_processing: bool = flag flow.exception_processing;
        /// The vector that the instruction took.
        instruction_exception_vector, set_instruction_exception_vector: Option<u32> =
            vector fault.instruction_exception_vector;
        /// The vector taken last.
        last_exception_vector, set_last_exception_vector: Option<u32> =
            vector fault.last_exception_vector;
        /// The cause that waits for the next bus error.
        pending_fault_cause, set_pending_fault_cause: Option<FaultCause> =
            cause fault.pending_fault_cause;
        /// A function code in place of the processor's.
        mmu_fc_override, set_mmu_fc_override: Option<u8> = code fault.mmu_fc_override;
        /// The value of the write that faulted.
        pending_fault_wdata, set_pending_fault_wdata: u32 = plain fault.pending_fault_wdata;
        /// What a trigger kept.
        fault_resume, set_fault_resume: Option<Resume> = resume fault_resume;
        /// Cycles left.
        cycles_remaining, set_cycles_remaining: i32 = plain flow.cycles_remaining;
    }
}

impl Record {
    /// The record of a processor of that kind after the Rust's `new` and `set_cpu_type`.
    ///
    /// ```
    /// use m68k_host::{Kind, Record};
    ///
    /// let record = Record::fresh(Kind::M68010);
    /// assert_eq!((record.cpu_type, record.s_flag, record.int_mask), (2, 4, 0x700));
    /// ```
    pub fn fresh(kind: impl Into<u8>) -> Record {
        Core::fresh(kind).record()
    }
}

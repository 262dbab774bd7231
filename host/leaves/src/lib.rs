//! The small functions of the record, which take it by value: the status register, the stack banks, clocks. They are there to be compared
//! with the lifted Rust, one by one (tests/leaves.rs); no program that runs a processor needs them.

mod mirror;

pub use mirror::{Cpu, Fault, Flags, Flow, OptionalCode, OptionalVector, Queue, Regs, Resume};

/// Functions of the archive, as they are.
macro_rules! leaves {
    ($($name:ident = $raw:ident($($arg:ident: $t:ty)?) -> $gives:ty;)*) => { $(
        pub fn $name(cpu: Cpu $(, $arg: $t)?) -> $gives {
            // Sound: it is proved for every record and number, takes and gives plain values in the layout of mirror.rs, and touches
            // no memory of its caller's.
            unsafe { mirror::$raw(cpu $(, $arg)?) }
        }
    )* };
}

leaves! {
    get_sr = leaf_get_sr() -> u32;
    set_sr_noint_nosp = leaf_set_sr_noint_nosp(sr: u16) -> Cpu;
    put_back_sr = leaf_put_back_sr(sr: u16) -> Cpu;
    set_ccr_internal = leaf_set_ccr_internal(ccr: u8) -> Cpu;
    sp_index = leaf_sp_index() -> usize;
    backup_sp = leaf_backup_sp() -> Cpu;
    restore_sp = leaf_restore_sp() -> Cpu;
    set_s_flag = leaf_set_s_flag(value: u32) -> Cpu;
    set_sm_flag = leaf_set_sm_flag(value: u32) -> Cpu;
    set_sm_flag_nosp = leaf_set_sm_flag_nosp(value: u32) -> Cpu;
    internal_cycles = leaf_internal_cycles(clocks: u32) -> Cpu;
    prefetch_enabled = leaf_prefetch_enabled() -> bool;
    address = leaf_address(address: u32) -> u32;
    trace_t0_sr_write = leaf_trace_t0_sr_write() -> Cpu;
    trace_t0_68040_sync = leaf_trace_t0_68040_sync() -> Cpu;
}

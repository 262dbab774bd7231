// Written by mirror.py from the Rattle sources: do not edit.

#![deny(dead_code)] // a call that Rust does not offer

use crate::call::Gives::{Cycles, Done, Flag, Value};
use crate::call::Numbered;

pub const TAKE_EXCEPTION: Numbered = Numbered::new(1, "take_exception", 1, Cycles);
pub const TRAP: Numbered = Numbered::new(2, "trap", 1, Cycles);
pub const TAKE_GROUP2_EXCEPTION: Numbered = Numbered::new(3, "take_group2_exception", 1, Cycles);
pub const EXCEPTION_CHK: Numbered = Numbered::new(4, "exception_chk", 0, Cycles);
pub const EXCEPTION_ZERO_DIVIDE: Numbered = Numbered::new(5, "exception_zero_divide", 0, Cycles);
pub const EXCEPTION_PRIVILEGE: Numbered = Numbered::new(6, "exception_privilege", 0, Cycles);
pub const EXCEPTION_TRACE: Numbered = Numbered::new(7, "exception_trace", 0, Cycles);
pub const EXCEPTION_ADDRESS_ERROR: Numbered =
    Numbered::new(8, "exception_address_error", 3, Cycles);
pub const EXCEPTION_BUS_ERROR: Numbered = Numbered::new(9, "exception_bus_error", 5, Cycles);
pub const TAKE_FP_UNIMP_060: Numbered = Numbered::new(10, "take_fp_unimp_060", 1, Cycles);
pub const TAKE_FP_DISABLED_060: Numbered = Numbered::new(11, "take_fp_disabled_060", 0, Cycles);
pub const TAKE_ALINE_EXCEPTION: Numbered = Numbered::new(12, "take_aline_exception", 0, Cycles);
pub const TAKE_FLINE_EXCEPTION: Numbered = Numbered::new(13, "take_fline_exception", 0, Cycles);
pub const TAKE_TRAP_EXCEPTION: Numbered = Numbered::new(14, "take_trap_exception", 1, Cycles);
pub const TAKE_BKPT_EXCEPTION: Numbered = Numbered::new(15, "take_bkpt_exception", 0, Cycles);
pub const TAKE_ILLEGAL_EXCEPTION: Numbered = Numbered::new(16, "take_illegal_exception", 0, Cycles);
pub const TRIGGER_ADDRESS_ERROR: Numbered = Numbered::new(17, "trigger_address_error", 3, Done);
pub const TRIGGER_BUS_ERROR: Numbered = Numbered::new(18, "trigger_bus_error", 4, Done);
pub const CHECK_TRACE: Numbered = Numbered::new(19, "check_trace", 0, Flag);
pub const SET_IRQ: Numbered = Numbered::new(20, "set_irq", 1, Done);
pub const CHECK_INTERRUPTS: Numbered = Numbered::new(21, "check_interrupts", 0, Flag);
pub const CHECK_AND_SERVICE_INTERRUPTS: Numbered =
    Numbered::new(22, "check_and_service_interrupts", 0, Flag);
pub const READ_16: Numbered = Numbered::new(23, "read_16", 1, Value);
pub const READ_32: Numbered = Numbered::new(24, "read_32", 1, Value);
pub const WRITE_16: Numbered = Numbered::new(25, "write_16", 2, Done);
pub const WRITE_32: Numbered = Numbered::new(26, "write_32", 2, Done);
pub const PUSH_16: Numbered = Numbered::new(27, "push_16", 1, Done);
pub const PUSH_32: Numbered = Numbered::new(28, "push_32", 1, Done);
pub const PREFETCH_FIRST: Numbered = Numbered::new(29, "prefetch_first", 0, Done);
pub const PREFETCH_SECOND: Numbered = Numbered::new(30, "prefetch_second", 0, Done);

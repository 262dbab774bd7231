//! The calls, and their way over the boundary.

use crate::mirror::RawCall;
use crate::{Answer, FaultCause, numbers};
use std::fmt;

/// A call, by the name of the Rust's function.
#[derive(Debug, Clone, Copy, PartialEq, Eq, Hash)]
#[non_exhaustive]
pub enum Call {
    /// Entry by a vector.
    TakeException(u32),
    /// TRAP instruction, by its number, of which the low 4 bits count.
    Trap(u8),
    /// Entry with the instruction's address stacked where the kind has room for it.
    TakeGroup2Exception(u32),
    /// CHK.
    ExceptionChk,
    /// Divide by zero.
    ExceptionZeroDivide,
    /// Privilege violation.
    ExceptionPrivilege,
    /// Trace.
    ExceptionTrace,
    /// Address error.
    ExceptionAddressError {
        /// The address of the access.
        address: u32,
        /// Whether it was a write.
        write: bool,
        /// Whether an instruction was fetched.
        instruction: bool,
    },
    /// Bus error.
    ExceptionBusError {
        /// The address of the access.
        address: u32,
        /// Whether it was a write.
        write: bool,
        /// Whether an instruction was fetched.
        instruction: bool,
        /// Its bytes.
        size: u32,
        /// Why it faulted, where that is known.
        cause: Option<FaultCause>,
    },
    /// Floating-point instruction that the 68060 leaves to software, with its effective address.
    TakeFpUnimp060(u32),
    /// Floating-point instruction while the 68060's unit is off.
    TakeFpDisabled060,
    /// Instruction 0xAnnn.
    TakeAlineException,
    /// Instruction 0xFnnn.
    TakeFlineException,
    /// TRAP met while an instruction is carried out, by its number, of which the low 4 bits count.
    TakeTrapException(u8),
    /// BKPT.
    TakeBkptException,
    /// Illegal instruction.
    TakeIllegalException,
    /// An access at an odd address faults.
    TriggerAddressError {
        /// The address of the access.
        address: u32,
        /// Whether it was a write.
        write: bool,
        /// Whether an instruction was fetched.
        instruction: bool,
    },
    /// An access that is not served faults.
    TriggerBusError {
        /// The address of the access.
        address: u32,
        /// Whether it was a write.
        write: bool,
        /// Whether an instruction was fetched.
        instruction: bool,
        /// Its bytes.
        size: u32,
    },
    /// Does the instruction ask for a trace exception?
    CheckTrace,
    /// A device asks for an interrupt of a level, of which the low 3 bits count: 8 is none, as 0.
    SetIrq(u8),
    /// Does an interrupt wait, by the raw fields?
    CheckInterrupts,
    /// Take an interrupt if one is to be taken.
    CheckAndServiceInterrupts,
    /// Guarded read of a word.
    Read16(u32),
    /// Guarded read of a long.
    Read32(u32),
    /// Guarded write of a word: address, value.
    Write16(u32, u16),
    /// Guarded write of a long: address, value.
    Write32(u32, u32),
    /// Guarded push of a word.
    Push16(u16),
    /// Guarded push of a long.
    Push32(u32),
    /// First word of the prefetch queue.
    PrefetchFirst,
    /// Second word of the prefetch queue.
    PrefetchSecond,
}

/// What the answer of a call is.
#[derive(Debug, Clone, Copy, PartialEq, Eq)]
pub(crate) enum Gives {
    Cycles,
    Flag,
    Value,
    Done,
}

impl Gives {
    /// The answer of a call that said so.
    pub(crate) fn answer(self, number: u32, events: u32) -> Answer {
        match self {
            Gives::Cycles => Answer::Cycles { cycles: number, events },
            Gives::Flag => Answer::Flag { set: number != 0, events },
            Gives::Value => Answer::Value { value: number, events },
            Gives::Done => Answer::Done { events },
        }
    }
}

/// A call of the proved code: its number and name, how many arguments it reads, what it answers.
#[derive(Debug, Clone, Copy, PartialEq, Eq)]
pub(crate) struct Numbered {
    number: u32,
    name: &'static str,
    arguments: usize,
    gives: Gives,
}

impl Numbered {
    pub(crate) const fn new(
        number: u32,
        name: &'static str,
        arguments: usize,
        gives: Gives,
    ) -> Numbered {
        Numbered { number, name, arguments, gives }
    }
}

impl Call {
    /// The call of the proved code, and its arguments in their order.
    fn encode(self) -> (Numbered, [u32; 5]) {
        let one = |a| [a, 0, 0, 0, 0];
        let two = |a, b| [a, b, 0, 0, 0];
        let at = |address, write: bool, instruction: bool, size, cause| {
            [address, write.into(), instruction.into(), size, u32::from(FaultCause::number(cause))]
        };
        let none = [0; 5];
        match self {
            Call::TakeException(vector) => (numbers::TAKE_EXCEPTION, one(vector)),
            Call::Trap(n) => (numbers::TRAP, one(n.into())),
            Call::TakeGroup2Exception(vector) => (numbers::TAKE_GROUP2_EXCEPTION, one(vector)),
            Call::ExceptionChk => (numbers::EXCEPTION_CHK, none),
            Call::ExceptionZeroDivide => (numbers::EXCEPTION_ZERO_DIVIDE, none),
            Call::ExceptionPrivilege => (numbers::EXCEPTION_PRIVILEGE, none),
            Call::ExceptionTrace => (numbers::EXCEPTION_TRACE, none),
            Call::ExceptionAddressError { address, write, instruction } => {
                (numbers::EXCEPTION_ADDRESS_ERROR, at(address, write, instruction, 0, None))
            }
            Call::ExceptionBusError { address, write, instruction, size, cause } => {
                (numbers::EXCEPTION_BUS_ERROR, at(address, write, instruction, size, cause))
            }
            Call::TakeFpUnimp060(ea) => (numbers::TAKE_FP_UNIMP_060, one(ea)),
            Call::TakeFpDisabled060 => (numbers::TAKE_FP_DISABLED_060, none),
            Call::TakeAlineException => (numbers::TAKE_ALINE_EXCEPTION, none),
            Call::TakeFlineException => (numbers::TAKE_FLINE_EXCEPTION, none),
            Call::TakeTrapException(n) => (numbers::TAKE_TRAP_EXCEPTION, one(n.into())),
            Call::TakeBkptException => (numbers::TAKE_BKPT_EXCEPTION, none),
            Call::TakeIllegalException => (numbers::TAKE_ILLEGAL_EXCEPTION, none),
            Call::TriggerAddressError { address, write, instruction } => {
                (numbers::TRIGGER_ADDRESS_ERROR, at(address, write, instruction, 0, None))
            }
            Call::TriggerBusError { address, write, instruction, size } => {
                (numbers::TRIGGER_BUS_ERROR, at(address, write, instruction, size, None))
            }
            Call::CheckTrace => (numbers::CHECK_TRACE, none),
            Call::SetIrq(n) => (numbers::SET_IRQ, one(n.into())),
            Call::CheckInterrupts => (numbers::CHECK_INTERRUPTS, none),
            Call::CheckAndServiceInterrupts => (numbers::CHECK_AND_SERVICE_INTERRUPTS, none),
            Call::Read16(address) => (numbers::READ_16, one(address)),
            Call::Read32(address) => (numbers::READ_32, one(address)),
            Call::Write16(address, value) => (numbers::WRITE_16, two(address, value.into())),
            Call::Write32(address, value) => (numbers::WRITE_32, two(address, value)),
            Call::Push16(value) => (numbers::PUSH_16, one(value.into())),
            Call::Push32(value) => (numbers::PUSH_32, one(value)),
            Call::PrefetchFirst => (numbers::PREFETCH_FIRST, none),
            Call::PrefetchSecond => (numbers::PREFETCH_SECOND, none),
        }
    }

    /// The number of the call over the boundary: 1 for [`Call::TakeException`] and so on.
    pub fn number(self) -> u32 {
        self.encode().0.number
    }

    /// The call as the boundary takes it, and what it answers.
    pub(crate) fn to_raw(self) -> (RawCall, Gives) {
        let (Numbered { number, gives, .. }, [a, b, c, d, e]) = self.encode();
        (RawCall { number, a, b, c, d, e }, gives)
    }
}

/// As the test cases write it: the name of the Rust's function, then each argument after a colon, in hexadecimal.
///
/// ```
/// assert_eq!(m68k_host::Call::Write16(0x40, 0x1234).to_string(), "write_16:40:1234");
/// ```
impl fmt::Display for Call {
    fn fmt(&self, f: &mut fmt::Formatter<'_>) -> fmt::Result {
        let (Numbered { name, arguments, .. }, values) = self.encode();
        f.write_str(name)?;
        values[..arguments].iter().try_for_each(|value| write!(f, ":{value:x}"))
    }
}

//! Causes of a fault.

use std::fmt;

/// Why an access faulted, where that is known: the Rust's `MmuFaultCause`.
#[derive(Debug, Clone, Copy, PartialEq, Eq, Hash)]
#[repr(u8)]
pub enum FaultCause {
    /// 1: a fault at the first level of the tables.
    PointerA = 1,
    /// 2: a fault at the second level of the tables.
    PointerB = 2,
    /// 3: a fault at an indirect descriptor.
    Indirect = 3,
    /// 4: no such page.
    PageFault = 4,
    /// 5: a write to a protected page.
    WriteProtect = 5,
    /// 6: a user access to a supervisor page.
    SupervisorProtect = 6,
    /// 7: a bus error while the tables were read.
    TableWalkBusError = 7,
    /// 8: a bus error of the access itself.
    AccessBusError = 8,
}

impl FaultCause {
    /// All causes, by their numbers from 1 on.
    pub const ALL: [FaultCause; 8] = [
        FaultCause::PointerA,
        FaultCause::PointerB,
        FaultCause::Indirect,
        FaultCause::PageFault,
        FaultCause::WriteProtect,
        FaultCause::SupervisorProtect,
        FaultCause::TableWalkBusError,
        FaultCause::AccessBusError,
    ];

    /// The number of a cause, 0 for none.
    pub fn number(cause: Option<FaultCause>) -> u8 {
        cause.map_or(0, u8::from)
    }

    /// The cause that the proved code reads a number as: none for 0 and above 8.
    pub fn read(number: u8) -> Option<FaultCause> {
        FaultCause::try_from(number).ok()
    }
}

impl From<FaultCause> for u8 {
    fn from(cause: FaultCause) -> u8 {
        cause as u8
    }
}

impl TryFrom<u8> for FaultCause {
    type Error = UnknownCause;

    fn try_from(number: u8) -> Result<FaultCause, UnknownCause> {
        let place = usize::from(number).checked_sub(1);
        place.and_then(|i| FaultCause::ALL.get(i)).copied().ok_or(UnknownCause(number))
    }
}

impl fmt::Display for FaultCause {
    fn fmt(&self, f: &mut fmt::Formatter<'_>) -> fmt::Result {
        write!(f, "{self:?}")
    }
}

/// A number that is no cause: 0 or above 8.
#[derive(Debug, Clone, Copy, PartialEq, Eq)]
pub struct UnknownCause(
    /// The number.
    pub u8,
);

impl fmt::Display for UnknownCause {
    fn fmt(&self, f: &mut fmt::Formatter<'_>) -> fmt::Result {
        write!(f, "{} is no cause of a fault", self.0)
    }
}

impl std::error::Error for UnknownCause {}

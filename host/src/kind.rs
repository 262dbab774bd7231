//! The kinds of processor.

use std::fmt;

/// A kind of processor, by the names and numbers of the Rust's `CpuType`.
///
/// The record has room for 256 kinds, of which these 12 are known; a call on another is refused
/// ([`Refusal::Kind`](crate::Refusal::Kind)). So a kind is a byte where a record holds it ([`Core::cpu_type`](crate::Core::cpu_type),
/// [`Record::cpu_type`](crate::Record::cpu_type)), and what makes a core or a record takes either: `Core::fresh(Kind::M68010)`,
/// `Core::fresh(12)`.
///
/// ```
/// use m68k_host::{Core, Kind};
///
/// assert_eq!(Kind::try_from(2), Ok(Kind::M68010));
/// assert_eq!(Core::fresh(Kind::M68060).cpu_type(), 11);
/// assert_eq!(Core::fresh(12).kind().unwrap_err().to_string(), "12 is no kind of processor");
/// ```
#[derive(Debug, Clone, Copy, PartialEq, Eq, PartialOrd, Ord, Hash)]
#[repr(u8)]
pub enum Kind {
    /// 0: before a processor is chosen.
    Invalid = 0,
    /// 1: MC68000.
    M68000 = 1,
    /// 2: MC68010.
    M68010 = 2,
    /// 3: MC68EC020.
    M68EC020 = 3,
    /// 4: MC68020.
    M68020 = 4,
    /// 5: MC68EC030.
    M68EC030 = 5,
    /// 6: MC68030.
    M68030 = 6,
    /// 7: MC68EC040.
    M68EC040 = 7,
    /// 8: MC68LC040.
    M68LC040 = 8,
    /// 9: MC68040.
    M68040 = 9,
    /// 10: the Philips SCC68070.
    SCC68070 = 10,
    /// 11: MC68060.
    M68060 = 11,
}

impl Kind {
    /// All kinds, by their numbers.
    pub const ALL: [Kind; 12] = [
        Kind::Invalid,
        Kind::M68000,
        Kind::M68010,
        Kind::M68EC020,
        Kind::M68020,
        Kind::M68EC030,
        Kind::M68030,
        Kind::M68EC040,
        Kind::M68LC040,
        Kind::M68040,
        Kind::SCC68070,
        Kind::M68060,
    ];
}

impl From<Kind> for u8 {
    fn from(kind: Kind) -> u8 {
        kind as u8
    }
}

impl TryFrom<u8> for Kind {
    type Error = UnknownKind;

    fn try_from(number: u8) -> Result<Kind, UnknownKind> {
        Kind::ALL.get(usize::from(number)).copied().ok_or(UnknownKind(number))
    }
}

impl fmt::Display for Kind {
    fn fmt(&self, f: &mut fmt::Formatter<'_>) -> fmt::Result {
        write!(f, "{self:?}")
    }
}

/// A number above 11, which is no kind.
#[derive(Debug, Clone, Copy, PartialEq, Eq)]
pub struct UnknownKind(
    /// The number.
    pub u8,
);

impl fmt::Display for UnknownKind {
    fn fmt(&self, f: &mut fmt::Formatter<'_>) -> fmt::Result {
        write!(f, "{} is no kind of processor", self.0)
    }
}

impl std::error::Error for UnknownKind {}

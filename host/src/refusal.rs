//! Refusals, by number.

use std::fmt;
use std::num::NonZeroU32;

/// Why a call, a return or a walk was refused: of 1 to 10 the lowest that applies; 11 to 13 are met by a
/// return on its way. Record, bus, store and log are as they came.
#[derive(Debug, Clone, Copy, PartialEq, Eq, Hash)]
#[non_exhaustive]
pub enum Refusal {
    /// 1: `s_flag` is not 0 or 4, or `m_flag` is not 0 or 2.
    Mode,
    /// 2: `vbr` is odd on kind 1, 2 or 10.
    VectorBase,
    /// 3: an interrupt call with `cycles_remaining` below -2,147,483,602.
    Cycles,
    /// 4: `mmu_fc_override` is above 7.
    FunctionCode,
    /// 5: the store has more than 65,536 bytes or ends past 2^32.
    Store,
    /// 6: more than 8 windows, or one that ends past 2^32.
    Windows,
    /// 7: the log has fewer than 192 words.
    Log,
    /// 8: the vector is above 255.
    Vector,
    /// 9: the kind is above 11, or a floating-point entry meets another kind than 11.
    Kind,
    /// 10: a walk is lent fewer than four words for each row.
    Rows,
    /// 11: a return in user mode.
    User,
    /// 12: bytes of a frame are not served, or A7 is odd on kind 1, 2 or 10.
    Frame,
    /// 13: the kind takes no frame of that format, or format 1 stands under format 1.
    Format,
    /// Any other number: 99 where no call has the number that was asked for, which no [`Call`](crate::Call) has.
    Other(
        /// The number.
        NonZeroU32,
    ),
}

/// The refusals from 1 on, and what each says.
const NAMED: [(Refusal, &str); 13] = [
    (Refusal::Mode, "impossible mode"),
    (Refusal::VectorBase, "odd vector base"),
    (Refusal::Cycles, "too few cycles remaining"),
    (Refusal::FunctionCode, "function code above 7"),
    (Refusal::Store, "store too long"),
    (Refusal::Windows, "too many windows, or one too long"),
    (Refusal::Log, "log under 192 words"),
    (Refusal::Vector, "vector above 255"),
    (Refusal::Kind, "wrong kind"),
    (Refusal::Rows, "row buffer too short"),
    (Refusal::User, "return in user mode"),
    (Refusal::Frame, "frame not served"),
    (Refusal::Format, "wrong frame format"),
];

impl Refusal {
    /// The refusal of a number; 0 is none.
    ///
    /// ```
    /// use m68k_host::Refusal;
    ///
    /// assert_eq!(Refusal::from_number(0), None);
    /// assert_eq!(Refusal::from_number(8), Some(Refusal::Vector));
    /// assert_eq!(Refusal::Vector.to_string(), "refused 8: vector above 255");
    /// ```
    pub fn from_number(number: u32) -> Option<Refusal> {
        NonZeroU32::new(number).map(Refusal::from)
    }

    fn place(self) -> Option<usize> {
        NAMED.iter().position(|(refusal, _)| *refusal == self)
    }

    /// The number of the refusal.
    pub fn number(self) -> u32 {
        match self {
            Refusal::Other(number) => number.get(),
            named => 1 + named.place().expect("every other refusal has a name") as u32,
        }
    }
}

impl From<NonZeroU32> for Refusal {
    fn from(number: NonZeroU32) -> Refusal {
        let place = number.get() as usize - 1;
        NAMED.get(place).map_or(Refusal::Other(number), |(refusal, _)| *refusal)
    }
}

impl fmt::Display for Refusal {
    fn fmt(&self, f: &mut fmt::Formatter<'_>) -> fmt::Result {
        let why = self.place().map_or("not accepted", |i| NAMED[i].1);
        write!(f, "refused {}: {why}", self.number())
    }
}

impl std::error::Error for Refusal {}

#[cfg(test)]
mod tests {
    use super::*;

    #[test]
    fn numbers_survive_the_refusal() {
        for number in (1..200).chain([u32::MAX]) {
            let refusal = Refusal::from_number(number).unwrap();
            assert_eq!(refusal.number(), number);
            assert_eq!(matches!(refusal, Refusal::Other(_)), number > 13);
        }
    }
}

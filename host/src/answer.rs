//! What an accepted call answers.

use crate::event::{Event, Events};
use std::fmt;

/// The answer of a call that was accepted, with the number of its events: so many times three words of the log
/// were written, from its start on.
#[derive(Debug, Clone, Copy, PartialEq, Eq, Hash)]
#[non_exhaustive]
pub enum Answer {
    /// Of an entry: its cycles, 0 where it met another entry under way.
    Cycles {
        /// The cycles.
        cycles: u32,
        /// The number of events.
        events: u32,
    },
    /// Of [`Call::CheckTrace`](crate::Call::CheckTrace), [`Call::CheckInterrupts`](crate::Call::CheckInterrupts)
    /// and [`Call::CheckAndServiceInterrupts`](crate::Call::CheckAndServiceInterrupts): yes or no.
    Flag {
        /// Whether there is a trace, an interrupt that waits, an interrupt taken.
        set: bool,
        /// The number of events.
        events: u32,
    },
    /// Of a read: its value.
    Value {
        /// The value, 0 where the read was not served.
        value: u32,
        /// The number of events.
        events: u32,
    },
    /// Of the rest.
    Done {
        /// The number of events.
        events: u32,
    },
}

impl Answer {
    /// The number of events.
    pub fn count(self) -> u32 {
        match self {
            Answer::Cycles { events, .. }
            | Answer::Flag { events, .. }
            | Answer::Value { events, .. }
            | Answer::Done { events } => events,
        }
    }

    /// The answer in one number: cycles, 0 or 1, the value, or 0.
    pub fn number(self) -> u32 {
        match self {
            Answer::Cycles { cycles, .. } => cycles,
            Answer::Flag { set, .. } => set.into(),
            Answer::Value { value, .. } => value,
            Answer::Done { .. } => 0,
        }
    }

    /// The events of the call, read off the log that it was lent.
    ///
    /// ```
    /// use m68k_host::{Call, Core, Kind};
    ///
    /// let (mut core, mut log) = (Core::fresh(Kind::M68020), [0; 192]);
    /// let answer = core.call(Call::Write16(0x40, 0x1234), &mut [0; 0x100], &mut log)?;
    /// let told: Vec<String> = answer.events(&log).map(|event| event.to_string()).collect();
    /// assert_eq!(told, ["write word 00000040 1234"]);
    /// # Ok::<(), m68k_host::Refusal>(())
    /// ```
    pub fn events(self, log: &[u32]) -> Events<'_> {
        Event::all(log, self.count())
    }
}

impl fmt::Display for Answer {
    fn fmt(&self, f: &mut fmt::Formatter<'_>) -> fmt::Result {
        match self {
            Answer::Cycles { cycles, .. } => write!(f, "{cycles} cycles")?,
            Answer::Flag { set, .. } => write!(f, "{}", if *set { "yes" } else { "no" })?,
            Answer::Value { value, .. } => write!(f, "value {value:08X}")?,
            Answer::Done { .. } => write!(f, "done")?,
        }
        write!(f, ", {} events", self.count())
    }
}

//! Exception, fault, trace and interrupt entry of the M68000 family: a safe way to the proved code.
//!
//! The work is done by functions of a static library that is proved and compiled from Rattle. A [`Core`] is the
//! record of a processor and what its bus is like, in the layout of that library: its methods [`Core::call`],
//! [`Core::return_from`] and [`Core::walk`] lend it in place, and convert nothing. Memory is a slice of bytes
//! that is lent to each call, the log of bus events a slice of words. A [`Record`] is the same fields as a plain
//! struct with options. Memory over 65,536 bytes is in [`large`].
//!
//! What is refused is refused by the proved code, by number: nothing is tested here first.
//!
//! # Examples
//!
//! TRAP #15 on a 68010, what it did on the bus, and the return from it:
//!
//! ```
//! use m68k_host::{Answer, Call, Core, Event, Kind, Size};
//!
//! let mut core = Core::fresh(Kind::M68010);
//! core.set_pc(0x1000);
//! core.dar_mut()[15] = 0x8000;
//! let mut store = vec![0; 65_536];
//! store[0xBC..0xC0].copy_from_slice(&0x2000_u32.to_be_bytes());
//! let mut log = [0; 192];
//!
//! let answer = core.call(Call::Trap(15), &mut store, &mut log)?;
//!
//! assert_eq!(answer, Answer::Cycles { cycles: 34, events: 9 });
//! assert_eq!((core.pc(), core.dar()[15]), (0x2000, 0x7FF8));
//! assert_eq!(store[0x7FF8..0x8000], [0x27, 0x00, 0x00, 0x00, 0x10, 0x00, 0x00, 0xBC]);
//! let first = answer.events(&log).find(|event| !matches!(event, Event::Sync { .. }));
//! let write = Event::Write { size: Size::Word, address: 0x7FFE, value: 0xBC, served: true };
//! assert_eq!(first, Some(write));
//!
//! let row = core.return_from(&store)?;
//!
//! assert_eq!((row.status, row.address, row.offset), (0x2700, 0x1000, 0xBC));
//! assert_eq!((core.pc(), core.dar()[15]), (0x1000, 0x8000));
//! # Ok::<(), m68k_host::Refusal>(())
//! ```

#![deny(missing_docs)]

#[cfg(test)]
extern crate self as m68k_host;

mod answer;
mod call;
mod cause;
mod core;
mod event;
mod kind;
pub mod large;
mod mirror;
mod numbers;
#[cfg(test)]
#[path = "../tests/random/mod.rs"]
mod random;
mod record;
mod refusal;
mod row;
#[cfg(feature = "ways")]
mod ways;

pub use crate::core::{Core, Window};
pub use answer::Answer;
pub use call::Call;
pub use cause::{FaultCause, UnknownCause};
pub use event::{Event, Events, Size};
pub use kind::{Kind, UnknownKind};
pub use record::{Record, Resume};
pub use refusal::Refusal;
pub use row::{Row, Walked};

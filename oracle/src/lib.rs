//! The oracle: runs the lifted Rust of crate m68k 0.15.1 on test cases.
//!
//! `parse` reads a case, `run` answers it, `format` writes the answer. `core` is the lifted text;
//! the rest is written from the project's papers.

pub mod against;
pub mod bus;
pub mod calls;
pub mod case;
pub mod generate;
pub mod leaf;
pub mod measure;
pub mod nest;
pub mod record;
pub mod rng;
pub mod session;
pub mod sessions;
pub mod stubs;
pub mod text;
pub mod transcript;
pub mod unwind;

pub use calls::run;
pub use case::{Call, Case, Outcome, Row, Store};
pub use record::Record;
pub use text::{format, format_case, parse};

// The lifted text looks for it at the root of its crate.
use stubs::mmu;

include!(concat!(env!("ORACLE_LIFTED"), "/lifted.rs"));

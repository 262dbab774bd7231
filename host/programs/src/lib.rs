//! What the programs over `m68k_host` are made of: [`cases`] answers test cases in text; [`measure`] makes one call over and over;
//! [`session`] plays sessions, [`stack`] finds their frames, [`view`] shows them in the words of [`words`].

#![deny(missing_docs)]

pub mod cases;
pub mod measure;
#[cfg(test)]
#[path = "../../tests/random/mod.rs"]
mod random;
pub mod session;
pub mod stack;
pub mod view;
pub mod words;

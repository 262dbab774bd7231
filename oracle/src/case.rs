//! A case and its outcome, as values.

use crate::bus::{Bus, Event};
use crate::record::Record;

/// Most bytes that a store may have; more are claimed only in order to be refused.
pub const STORE_LIMIT: u64 = 65_536;

#[derive(Debug, Clone, Copy, PartialEq, Eq)]
pub enum Call {
    TakeException(u32),
    Trap(u8),
    TakeGroup2Exception(u32),
    ExceptionChk,
    ExceptionZeroDivide,
    ExceptionPrivilege,
    ExceptionTrace,
    ExceptionAddressError { address: u32, write: bool, instruction: bool },
    ExceptionBusError { address: u32, write: bool, instruction: bool, size: u32, cause: u8 },
    TakeFpUnimp060(u32),
    TakeFpDisabled060,
    TakeAlineException,
    TakeFlineException,
    TakeTrapException(u8),
    TakeBkptException,
    TakeIllegalException,
    TriggerAddressError { address: u32, write: bool, instruction: bool },
    TriggerBusError { address: u32, write: bool, instruction: bool, size: u32 },
    CheckTrace,
    SetIrq(u8),
    CheckInterrupts,
    CheckAndServiceInterrupts,
    Read16(u32),
    Read32(u32),
    Write16(u32, u16),
    Write32(u32, u32),
    Push16(u16),
    Push32(u32),
    PrefetchFirst,
    PrefetchSecond,
    Return,
    Walk { n: u32, words: u32 },
}

/// The store as a case describes it; the length is as claimed and may be refused.
#[derive(Debug, Clone, PartialEq, Eq)]
pub struct Store {
    pub base: u32,
    pub len: u64,
    pub fill: u32,
    pub patch: Vec<(u32, Vec<u8>)>,
    pub win: Vec<(u32, u32)>,
    pub ack: [u32; 8],
}

#[derive(Debug, Clone, PartialEq, Eq)]
pub struct Case {
    pub call: Call,
    pub kind: u8,
    pub record: Record,
    pub store: Store,
    /// Words in the lent log.
    pub log: u32,
}

/// Format, status, address, offset.
pub type Row = [u32; 4];

#[derive(Debug, Clone, PartialEq, Eq)]
pub struct Outcome {
    /// 0 or the number.
    pub refused: u8,
    pub answer: i64,
    pub events: Vec<Event>,
    pub rows: Vec<Row>,
    /// Runs of store bytes that differ from the input, by offset.
    pub changes: Vec<(u32, Vec<u8>)>,
    /// `get_sr` after the call.
    pub status: u16,
    /// The kind after the call.
    pub kind: u8,
    /// The record after the call.
    pub record: Record,
}

impl Store {
    /// 65,536 zero bytes at 0, no windows, no response but "no vector".
    pub fn fresh() -> Store {
        Store { base: 0, len: STORE_LIMIT, fill: 0, patch: vec![], win: vec![], ack: [u32::MAX; 8] }
    }

    /// Bytes that exist: the length as claimed, or the limit.
    pub fn size(&self) -> usize {
        self.len.min(STORE_LIMIT) as usize
    }

    /// The bytes that the fill and the patches give.
    pub fn bytes(&self) -> Vec<u8> {
        let mut bytes = vec![0; self.size()];
        if self.fill != 0 {
            for (i, b) in bytes.iter_mut().enumerate() {
                let i = i as u32;
                *b = ((i * 31).wrapping_add(self.fill) ^ (i >> 8)) as u8;
            }
        }
        for (at, patch) in &self.patch {
            let at = *at as usize;
            bytes[at..at + patch.len()].copy_from_slice(patch);
        }
        bytes
    }

    /// The bus of these bytes with a log of so many words.
    pub fn bus(&self, bytes: Vec<u8>, room: u32) -> Bus {
        Bus {
            base: self.base,
            bytes,
            windows: self.win.clone(),
            responses: self.ack,
            room,
            events: vec![],
            written: (usize::MAX, 0),
        }
    }
}

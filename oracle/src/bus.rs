//! Store, windows, responses and log as a bus for the lifted code.

use crate::core::memory::{AddressBus, BusFault, BusFaultKind};

const READ_WORD: u32 = 1;
const READ_LONG: u32 = 2;
const WRITE_WORD: u32 = 3;
const WRITE_LONG: u32 = 4;
const SYNC: u32 = 5;
const ACKNOWLEDGE: u32 = 6;
const RELEASE: u32 = 7;
/// Added to the code of an access that is not served.
const NOT_SERVED: u32 = 16;

/// Code, address, value.
pub type Event = [u32; 3];

/// The lent store, its windows and responses, and the lent log.
#[derive(Debug, Clone)]
pub struct Bus {
    pub base: u32,
    pub bytes: Vec<u8>,
    pub windows: Vec<(u32, u32)>,
    pub responses: [u32; 8],
    /// Words in the lent log.
    pub room: u32,
    pub events: Vec<Event>,
    /// Offsets that hold every byte written, to find changes quickly.
    pub written: (usize, usize),
}

impl Bus {
    /// Offset of an access of `n` bytes if all lie in the store and none in a window.
    pub fn served(&self, address: u32, n: u32) -> Option<usize> {
        let (first, end) = (u64::from(address), u64::from(address) + u64::from(n));
        let base = u64::from(self.base);
        if first < base || end > base + self.bytes.len() as u64 {
            return None;
        }
        let hit = |&(start, length): &(u32, u32)| {
            let start = u64::from(start);
            length != 0 && first < start + u64::from(length) && start < end
        };
        if self.windows.iter().any(hit) {
            return None;
        }
        Some((first - base) as usize)
    }

    /// A byte of the store if it is served.
    pub fn byte(&self, address: u32) -> Option<u8> {
        self.served(address, 1).map(|at| self.bytes[at])
    }

    fn log(&mut self, code: u32, address: u32, value: u32) {
        assert!((self.events.len() + 1) * 3 <= self.room as usize, "the log is full");
        self.events.push([code, address, value]);
    }

    /// A read: its value, or nothing where it is not served.
    fn read(&mut self, code: u32, address: u32, n: u32) -> Option<u32> {
        let Some(at) = self.served(address, n) else {
            self.log(code + NOT_SERVED, address, 0);
            return None;
        };
        let bytes = &self.bytes[at..at + n as usize];
        let value = bytes.iter().fold(0, |v, &b| v << 8 | u32::from(b));
        self.log(code, address, value);
        Some(value)
    }

    /// A write: whether it was served.
    fn write(&mut self, code: u32, address: u32, n: u32, value: u32) -> bool {
        let Some(at) = self.served(address, n) else {
            self.log(code + NOT_SERVED, address, value);
            return false;
        };
        let n = n as usize;
        self.bytes[at..at + n].copy_from_slice(&value.to_be_bytes()[4 - n..]);
        self.written = (self.written.0.min(at), self.written.1.max(at + n));
        self.log(code, address, value);
        true
    }
}

fn fault(address: u32) -> BusFault {
    BusFault { kind: BusFaultKind::BusError, address }
}

/// Guarded accesses report that they were not served; raw ones read 0 and go on.
impl AddressBus for Bus {
    fn read_byte(&mut self, _: u32) -> u8 {
        panic!("no taken function reads a byte")
    }

    fn write_byte(&mut self, _: u32, _: u8) {
        panic!("no taken function writes a byte")
    }

    fn read_word(&mut self, address: u32) -> u16 {
        self.read(READ_WORD, address, 2).unwrap_or(0) as u16
    }

    fn read_long(&mut self, address: u32) -> u32 {
        self.read(READ_LONG, address, 4).unwrap_or(0)
    }

    fn write_word(&mut self, address: u32, value: u16) {
        self.write(WRITE_WORD, address, 2, u32::from(value));
    }

    fn write_long(&mut self, address: u32, value: u32) {
        self.write(WRITE_LONG, address, 4, value);
    }

    fn try_read_word(&mut self, address: u32) -> Result<u16, BusFault> {
        self.read(READ_WORD, address, 2).map(|v| v as u16).ok_or(fault(address))
    }

    fn try_read_long(&mut self, address: u32) -> Result<u32, BusFault> {
        self.read(READ_LONG, address, 4).ok_or(fault(address))
    }

    fn try_write_word(&mut self, address: u32, value: u16) -> Result<(), BusFault> {
        let served = self.write(WRITE_WORD, address, 2, u32::from(value));
        if served { Ok(()) } else { Err(fault(address)) }
    }

    fn try_write_long(&mut self, address: u32, value: u32) -> Result<(), BusFault> {
        let served = self.write(WRITE_LONG, address, 4, value);
        if served { Ok(()) } else { Err(fault(address)) }
    }

    fn sync(&mut self, clocks: u32) {
        self.log(SYNC, 0, clocks);
    }

    fn interrupt_acknowledge(&mut self, level: u8) -> u32 {
        let response = self.responses[level as usize];
        self.log(ACKNOWLEDGE, u32::from(level), response);
        response
    }

    fn ipl_release_sample(&mut self) {
        self.log(RELEASE, 0, 0);
    }
}

//! What returns and walks read off a stack.

use crate::Refusal;
use std::fmt;

/// What one return read: a frame, or two where the first has format 1.
#[derive(Debug, Clone, Copy, PartialEq, Eq, Hash)]
pub struct Row {
    /// Format of the first frame; 0 on kind 1, whose frames have none.
    pub format: u32,
    /// The status stacked in the last frame taken.
    pub status: u32,
    /// The address stacked there.
    pub address: u32,
    /// The vector's offset stacked there, vector × 4; 0 on kind 1.
    pub offset: u32,
}

impl From<[u32; 4]> for Row {
    fn from([format, status, address, offset]: [u32; 4]) -> Row {
        Row { format, status, address, offset }
    }
}

impl From<Row> for [u32; 4] {
    fn from(row: Row) -> [u32; 4] {
        [row.format, row.status, row.address, row.offset]
    }
}

impl fmt::Display for Row {
    /// As the session program prints it.
    fn fmt(&self, f: &mut fmt::Formatter<'_>) -> fmt::Result {
        let Row { format, status, address, offset } = self;
        write!(f, "{format:X} {status:04X} {address:08X} {offset:03X}")
    }
}

/// What a walk answers.
#[derive(Debug, Clone, Copy, PartialEq, Eq, Hash)]
#[must_use]
pub struct Walked {
    /// Rows read: so many times four words of the buffer were written, from its start on.
    pub count: u32,
    /// What ended the walk before it had all its rows; the rows read until then are kept.
    pub refused: Option<Refusal>,
}

impl Walked {
    /// The rows read, off the buffer that the walk was lent.
    pub fn rows(self, buffer: &[u32]) -> impl ExactSizeIterator<Item = Row> + '_ {
        let words = buffer.len().min((self.count as usize).saturating_mul(4));
        buffer[..words].chunks_exact(4).map(|row| Row::from([row[0], row[1], row[2], row[3]]))
    }
}

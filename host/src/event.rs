//! The events of the bus, as a log has them.

use std::fmt;

/// How much an access moves.
#[derive(Debug, Clone, Copy, PartialEq, Eq, PartialOrd, Ord, Hash)]
pub enum Size {
    /// 2 bytes.
    Word,
    /// 4 bytes.
    Long,
}

impl Size {
    /// How many bytes.
    pub fn bytes(self) -> u32 {
        match self {
            Size::Word => 2,
            Size::Long => 4,
        }
    }
}

impl fmt::Display for Size {
    fn fmt(&self, f: &mut fmt::Formatter<'_>) -> fmt::Result {
        f.write_str(match self {
            Size::Word => "word",
            Size::Long => "long",
        })
    }
}

/// An event of the bus: three words of the log. Addresses are as the kind puts them on the bus.
#[derive(Debug, Clone, Copy, PartialEq, Eq, Hash)]
#[non_exhaustive]
pub enum Event {
    /// A read.
    Read {
        /// How much.
        size: Size,
        /// The first address.
        address: u32,
        /// What was read, 0 where it was not served.
        value: u32,
        /// Whether all its bytes were in the store and none in a window.
        served: bool,
    },
    /// A write.
    Write {
        /// How much.
        size: Size,
        /// The first address.
        address: u32,
        /// What was to be written.
        value: u32,
        /// Whether it was served; else nothing was stored.
        served: bool,
    },
    /// Clocks of internal work, reported before the next access.
    Sync {
        /// How many.
        clocks: u32,
    },
    /// An interrupt was acknowledged.
    Acknowledge {
        /// The level.
        level: u32,
        /// What the device answered; 0xFFFFFFFF for no vector.
        response: u32,
    },
    /// The sample of the interrupt lines was released.
    Release,
    /// Words that are none of these: no call writes such.
    Other(
        /// Code, address, value.
        [u32; 3],
    ),
}

/// What is added to the code of an access that was not served.
const NOT_SERVED: u32 = 16;

impl Event {
    /// The first `count` events of a log; fewer where it has fewer.
    pub fn all(log: &[u32], count: u32) -> Events<'_> {
        let words = usize::try_from(count).unwrap_or(usize::MAX).saturating_mul(3);
        Events(log[..log.len().min(words)].chunks_exact(3))
    }

    /// The address and the bytes of an access, and whether it was served; none of another event.
    pub fn access(self) -> Option<(u32, Size, bool)> {
        match self {
            Event::Read { size, address, served, .. }
            | Event::Write { size, address, served, .. } => Some((address, size, served)),
            _ => None,
        }
    }
}

impl From<[u32; 3]> for Event {
    fn from(words: [u32; 3]) -> Event {
        let [code, address, value] = words;
        let served = code < NOT_SERVED;
        match (code % NOT_SERVED, code / NOT_SERVED) {
            (1, 0 | 1) => Event::Read { size: Size::Word, address, value, served },
            (2, 0 | 1) => Event::Read { size: Size::Long, address, value, served },
            (3, 0 | 1) => Event::Write { size: Size::Word, address, value, served },
            (4, 0 | 1) => Event::Write { size: Size::Long, address, value, served },
            (5, 0) if address == 0 => Event::Sync { clocks: value },
            (6, 0) => Event::Acknowledge { level: address, response: value },
            (7, 0) if address == 0 && value == 0 => Event::Release,
            _ => Event::Other(words),
        }
    }
}

impl From<Event> for [u32; 3] {
    fn from(event: Event) -> [u32; 3] {
        let code = |first: u32, size: Size, served: bool| {
            first + u32::from(size == Size::Long) + if served { 0 } else { NOT_SERVED }
        };
        match event {
            Event::Read { size, address, value, served } => [code(1, size, served), address, value],
            Event::Write { size, address, value, served } => {
                [code(3, size, served), address, value]
            }
            Event::Sync { clocks } => [5, 0, clocks],
            Event::Acknowledge { level, response } => [6, level, response],
            Event::Release => [7, 0, 0],
            Event::Other(words) => words,
        }
    }
}

impl fmt::Display for Event {
    fn fmt(&self, f: &mut fmt::Formatter<'_>) -> fmt::Result {
        let mut access = |what: &str, size: Size, address: u32, value: u32, served: bool| {
            let digits = 2 * size.bytes() as usize;
            let end = if served { "" } else { " not served" };
            write!(f, "{what} {size} {address:08X} {value:0digits$X}{end}")
        };
        match *self {
            Event::Read { size, address, value, served } => {
                access("read", size, address, value, served)
            }
            Event::Write { size, address, value, served } => {
                access("write", size, address, value, served)
            }
            Event::Sync { clocks } => write!(f, "sync {clocks}"),
            Event::Acknowledge { level, response } => {
                write!(f, "acknowledge level {level} {response:08X}")
            }
            Event::Release => f.write_str("release"),
            Event::Other([code, address, value]) => {
                write!(f, "event {code} {address:08X} {value:08X}")
            }
        }
    }
}

/// The events of a log, in their order.
#[derive(Debug, Clone)]
pub struct Events<'a>(std::slice::ChunksExact<'a, u32>);

impl Iterator for Events<'_> {
    type Item = Event;

    fn next(&mut self) -> Option<Event> {
        self.0.next().map(|words| Event::from([words[0], words[1], words[2]]))
    }

    fn size_hint(&self) -> (usize, Option<usize>) {
        self.0.size_hint()
    }
}

impl ExactSizeIterator for Events<'_> {}

#[cfg(test)]
mod tests {
    use super::*;

    #[test]
    fn words_survive_the_event() {
        for code in (0..64).chain([u32::MAX]) {
            for words in [[code, 0, 0], [code, 0, 9], [code, 0x1234, 0], [code, 7, u32::MAX]] {
                assert_eq!(<[u32; 3]>::from(Event::from(words)), words);
            }
        }
    }

    #[test]
    fn a_short_log_gives_what_it_has() {
        assert_eq!(Event::all(&[7, 0, 0, 7, 0], 2).len(), 1);
        assert_eq!(
            Event::all(&[7, 0, 0, 5, 0, 4], u32::MAX).last(),
            Some(Event::Sync { clocks: 4 })
        );
        assert_eq!(Event::all(&[], 3).next(), None);
    }
}

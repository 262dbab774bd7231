//! The frames that are drawn for an entry are the bytes that it wrote, on random sessions.

use m68k_programs::session::{Outcome, Session, Step};
use m68k_programs::stack::{Fault, Placed, address, entered, stacked, taken};
use m68k_programs::words;
use std::collections::BTreeSet;

/// Numbers by a seed.
struct Numbers(u64);

impl Numbers {
    fn below(&mut self, limit: u32) -> u32 {
        self.0 = self.0.wrapping_mul(6_364_136_223_846_793_005).wrapping_add(1);
        ((self.0 >> 33) as u32) % limit
    }

    fn of<T: Copy>(&mut self, all: &[T]) -> T {
        all[self.below(all.len() as u32) as usize]
    }
}

/// A line of a session that stacks and returns much, with pointers inside, outside and at the edges.
fn line(numbers: &mut Numbers) -> String {
    let pointer =
        [0x8000u32, 0x7FF8, 0x7FFA, 0x7000, 0x7001, 0x2, 0x4, 0x10004, 0x20_0000, 0xFFFF_FFFE];
    match numbers.below(16) {
        0 => format!("a7 {:X}", numbers.of(&pointer)),
        1 => format!("pc {:X}", numbers.below(0x10000)),
        2 => format!(
            "long {:X} {:X}",
            numbers.below(48) * 4,
            numbers.of(&[0x2000, 0x2001, 0x20_0000])
        ),
        3 => format!("long 7FF8 {:X}", numbers.of(&[0x3000_0000u32, 0x2000_0000, 0, 0x1000_0000])),
        4 => "a7 7FF8".into(),
        5..=7 => format!("trap {:X}", numbers.below(16)),
        8 => format!("exc {:X}", numbers.of(&[2, 3, 4, 5, 24, 255])),
        9..=12 => format!("irq {}", numbers.of(&[7, 7, 6, 3, 1])),
        _ => "ret".into(),
    }
}

fn bytes_of(frames: &[Placed]) -> BTreeSet<u32> {
    frames.iter().flat_map(|frame| frame.start..frame.start + frame.length() as u32).collect()
}

/// The addresses that were written and stored.
fn written(step: &Step) -> BTreeSet<u32> {
    let width = |code| if code == 3 { 2 } else { 4 };
    let writes = step.events.iter().filter(|event| matches!(event[0], 3 | 4));
    writes.flat_map(|event| event[1]..event[1] + width(event[0])).collect()
}

/// What was met, so that the test is known to have tried it.
#[derive(Default, Debug)]
struct Met {
    plain: u32,
    doubles: u32,
    errors: u32,
    faults: u32,
    earlier: u32,
    returns: u32,
}

fn look(step: &Step, session: &Session, met: &mut Met) {
    let kind = step.after.cpu_type();
    let seen = stacked(step, &session.store);
    match seen.fault {
        None => {
            assert_eq!(bytes_of(&seen.frames), written(step), "kind {kind}: {step:?}");
            assert_eq!(seen.frames[0].start, address(&step.after, step.after.dar()[15]));
            met.plain += u32::from(seen.frames.len() == 1);
            met.doubles += u32::from(seen.frames.len() == 2);
        }
        Some(Fault::Earlier) => {
            assert!(written(step).is_empty() && seen.errors.is_empty());
            met.earlier += 1;
        }
        Some(_) => met.faults += 1,
    }
    for (vector, frame) in &seen.errors {
        assert!(matches!(vector, 2 | 3), "kind {kind}: vector {vector}");
        met.errors += 1;
        let Some(bytes) = frame.bytes(&session.store) else { continue };
        let length = match kind {
            1 => words::length(words::ERROR_68000),
            2 | 10 => 58,
            11 => 16,
            7..=9 => 60,
            _ => 92,
        };
        assert_eq!(bytes.len(), length, "kind {kind}");
        if kind != 1 {
            let word = u32::from(bytes[6]) << 8 | u32::from(bytes[7]);
            assert_eq!(word % 0x1000, vector * 4, "kind {kind}");
        }
        assert!(written(step).contains(&frame.start));
    }
}

/// The frames that a return takes end where A7 then is, on the stack that it took them from.
fn look_back(step: &Step, session: &Session, met: &mut Met) {
    let Outcome::Returned(row) = &step.outcome else { return };
    let frames = taken(&step.before, &session.store);
    let last = frames.last().unwrap();
    let bytes = last.bytes(&session.store).unwrap();
    assert_eq!(row.status, u32::from(bytes[0]) << 8 | u32::from(bytes[1]));
    assert_eq!(row.address, u32::from_be_bytes(bytes[2..6].try_into().unwrap()));
    assert_eq!(frames.len() == 2, row.format == 1);
    met.returns += 1;
}

#[test]
fn frames_are_what_was_written() {
    let (mut numbers, mut met) = (Numbers(68_010), Met::default());
    for round in 0..4000 {
        let mut session = Session::default();
        session.step(format!("kind {}", round % 12).as_bytes());
        session.step(b"a7 8000");
        // One in two starts with M set and the mask 0, where the kind has M.
        let master = ["long 7FF8 30000000", "long 7FFC 10000000", "a7 7FF8", "ret", "a7 6000"];
        for line in master.iter().filter(|_| round / 12 % 2 == 1) {
            session.step(line.as_bytes());
        }
        for _ in 0..30 {
            let step = session.step(line(&mut numbers).as_bytes());
            if entered(&step) {
                look(&step, &session, &mut met);
            }
            look_back(&step, &session, &mut met);
        }
    }
    let Met { plain, doubles, errors, faults, earlier, returns } = met;
    let least = [plain, doubles, errors, faults, earlier, returns].into_iter().min();
    assert!(least >= Some(100), "{met:?}");
}

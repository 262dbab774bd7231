//! The boundary as a user meets it: a call's bytes and events, and the limits of what is lent.

mod random;

use m68k_host::{Answer, Call, Core, Event, FaultCause, Kind, Record, Refusal, Size, Window};
use random::{Numbers, any_call, any_record, likely_core};

/// Every call once.
fn calls() -> [Call; 30] {
    let (address, write, instruction, size) = (0x40, true, false, 2);
    [
        Call::TakeException(0x20),
        Call::Trap(1),
        Call::TakeGroup2Exception(6),
        Call::ExceptionChk,
        Call::ExceptionZeroDivide,
        Call::ExceptionPrivilege,
        Call::ExceptionTrace,
        Call::ExceptionAddressError { address, write, instruction },
        Call::ExceptionBusError {
            address,
            write,
            instruction,
            size,
            cause: Some(FaultCause::Indirect),
        },
        Call::TakeFpUnimp060(0x1234),
        Call::TakeFpDisabled060,
        Call::TakeAlineException,
        Call::TakeFlineException,
        Call::TakeTrapException(2),
        Call::TakeBkptException,
        Call::TakeIllegalException,
        Call::TriggerAddressError { address, write, instruction },
        Call::TriggerBusError { address, write, instruction, size },
        Call::CheckTrace,
        Call::SetIrq(3),
        Call::CheckInterrupts,
        Call::CheckAndServiceInterrupts,
        Call::Read16(0x40),
        Call::Read32(0x40),
        Call::Write16(0x40, 0x1234),
        Call::Write32(0x40, 0x1234_5678),
        Call::Push16(0x1234),
        Call::Push32(0x1234_5678),
        Call::PrefetchFirst,
        Call::PrefetchSecond,
    ]
}

/// What words of a log and of rows are before a call.
const UNWRITTEN: u32 = 0xEEEE_EEEE;

#[test]
fn a_word_goes_to_its_place() {
    let (mut core, mut log, mut store) = (Core::fresh(Kind::M68020), [0; 192], [0; 16]);
    core.set_base(0x1000);
    let done = core.call(Call::Write16(0x1004, 0xABCD), &mut store, &mut log);
    assert_eq!(done, Ok(Answer::Done { events: 1 }));
    assert_eq!(store[4..6], [0xAB, 0xCD]);
    assert_eq!(log[..3], [3, 0x1004, 0xABCD]);
    let answer = core.call(Call::Read32(0x1002), &mut store, &mut log).unwrap();
    assert_eq!(answer, Answer::Value { value: 0xABCD, events: 1 });
    let read = Event::Read { size: Size::Long, address: 0x1002, value: 0xABCD, served: true };
    assert_eq!(answer.events(&log).collect::<Vec<_>>(), [read]);
}

/// What each call answers: an entry its cycles, a check a flag, a read a value.
#[test]
fn answers_are_of_their_sort() {
    for (i, wanted) in calls().into_iter().enumerate() {
        let mut core = Core::fresh(if floating(wanted) { Kind::M68060 } else { Kind::M68000 });
        core.dar_mut()[15] = 0x200;
        let answer = core.call(wanted, &mut [0; 1024], &mut [0; 192]).unwrap();
        let right = match i {
            0..=15 => matches!(answer, Answer::Cycles { cycles: 34 | 38 | 40 | 50, .. }),
            18 | 20 | 21 => matches!(answer, Answer::Flag { set: false, .. }),
            22 | 23 => matches!(answer, Answer::Value { value: 0, .. }),
            _ => matches!(answer, Answer::Done { .. }),
        };
        assert!(right, "{wanted:?}: {answer:?}");
    }
}

/// Every call, on every kind, with no store and with one: it ends, and only its events are written.
#[test]
fn the_log_is_written_from_its_start() {
    for kind in 0..12 {
        for wanted in calls() {
            for len in [0, 65_536] {
                let (mut core, mut store) = (Core::fresh(kind), vec![0; len]);
                let mut log = [UNWRITTEN; 200];
                core.dar_mut()[15] = 0x8000;
                // A count that an earlier call left is not minded.
                core.set_events(40);
                let done = core.call(wanted, &mut store, &mut log);
                let count = done.map_or(0, Answer::count);
                assert_eq!(core.events(), if done.is_ok() { count } else { 40 }, "{wanted:?}");
                let events = Event::all(&log, count);
                assert!(events.len() == count as usize && !events.clone().any(other), "{wanted:?}");
                assert!(log[count as usize * 3..].iter().all(|&w| w == UNWRITTEN), "{wanted:?}");
            }
        }
    }
}

fn other(event: Event) -> bool {
    matches!(event, Event::Other(_))
}

/// Addresses go on the bus under the kind's mask.
#[test]
fn addresses_are_masked() {
    for kind in Kind::ALL {
        let (mut core, mut log) = (Core::fresh(kind), [0; 192]);
        let address = 0xAB00_0040;
        let answer = core.call(Call::Write16(address, 1), &mut [0; 64], &mut log).unwrap();
        let first = answer.events(&log).find_map(|event| event.access()).unwrap();
        assert_eq!(first, (address & core.address_mask(), Size::Word, false), "{kind}");
    }
}

/// Something that a number refuses, put into a case that is accepted.
type Spoil = fn(&mut Core, &mut Vec<u8>, &mut Vec<u32>);

/// What every call refuses that is given it: number, how, and whether a record alone has it.
const SPOILS: [(Refusal, Spoil, bool); 13] = [
    (Refusal::Mode, |core, _, _| core.set_s_flag(1), true),
    (Refusal::Mode, |core, _, _| core.set_m_flag(4), true),
    (Refusal::VectorBase, |core, _, _| core.set_vbr(1), true),
    (Refusal::FunctionCode, |core, _, _| core.set_mmu_fc_override(Some(8)), true),
    (Refusal::Store, |_, store, _| store.resize(65_537, 0), false),
    (Refusal::Store, |_, store, _| store.resize(1_000_000, 0), false),
    (Refusal::Store, |core, _, _| core.set_base(0xFFFF_FF00), false),
    (Refusal::Windows, |core, _, _| core.set_windows(&[Window { start: 0, length: 0 }; 9]), false),
    (Refusal::Windows, |core, _, _| core.set_windows(&[PAST]), false),
    (
        Refusal::Windows,
        |core, _, _| core.set_windows(&[Window { start: 0, length: 9 }, PAST]),
        false,
    ),
    (Refusal::Log, |_, _, log| log.truncate(191), false),
    (Refusal::Log, |_, _, log| log.clear(), false),
    (Refusal::Kind, |core, _, _| core.set_cpu_type(12), true),
];

/// A window that ends past 2^32.
const PAST: Window = Window { start: 0xFFFF_FFFF, length: 2 };

/// Calls that are given a record and nothing else.
fn record_alone(call: Call) -> bool {
    matches!(call, Call::CheckTrace | Call::SetIrq(_) | Call::CheckInterrupts)
}

fn floating(call: Call) -> bool {
    matches!(call, Call::TakeFpUnimp060(_) | Call::TakeFpDisabled060)
}

/// Performs a call on what some changes leave of a case that is accepted, on a kind that has it; if it is
/// refused, nothing may have changed.
fn refusal(wanted: Call, spoils: &[Spoil]) -> Option<Refusal> {
    let mut core = Core::fresh(if floating(wanted) { Kind::M68060 } else { Kind::M68010 });
    core.dar_mut()[15] = 0x200;
    *core.responses_mut() = [3; 8];
    core.set_events(77);
    let (mut store, mut log) = (vec![7; 1024], vec![9; 192]);
    for spoil in spoils {
        spoil(&mut core, &mut store, &mut log);
    }
    let before = (core.clone(), store.clone(), log.clone());
    let done = core.call(wanted, &mut store, &mut log);
    if done.is_err() {
        assert!((core, store, log) == before, "{wanted:?} changed something");
    }
    done.err()
}

/// Each number, each call that is given the matter, and that the others do not mind it.
#[test]
fn refused_calls_change_nothing() {
    for wanted in calls() {
        assert_eq!(refusal(wanted, &[]), None, "{wanted:?}");
        for (number, spoil, record) in SPOILS {
            // The floating-point entries are on kind 11, where a vector base may be odd.
            let even = number == Refusal::VectorBase && floating(wanted);
            let given = (record || !record_alone(wanted)) && !even;
            assert_eq!(refusal(wanted, &[spoil]), given.then_some(number), "{wanted:?} {number}");
        }
    }
}

/// Of two that apply, the lower.
#[test]
fn the_lowest_number_is_answered() {
    for (i, (low, first, _)) in SPOILS.into_iter().enumerate() {
        for (_, second, _) in SPOILS.into_iter().skip(i) {
            for wanted in [Call::ExceptionChk, Call::CheckAndServiceInterrupts, Call::Read16(0x40)]
            {
                // Kind 12 has no rule for the vector base.
                let mut spoils = vec![first, second];
                if low == Refusal::VectorBase {
                    spoils.push(|core, _, _| core.set_cpu_type(2));
                }
                assert_eq!(refusal(wanted, &spoils), Some(low), "{wanted:?}");
            }
        }
    }
}

/// The numbers that a call alone can bring about.
#[test]
fn some_calls_refuse_more() {
    for vector in [256, 257, 0x1_0006, u32::MAX] {
        for wanted in [Call::TakeException(vector), Call::TakeGroup2Exception(vector)] {
            assert_eq!(refusal(wanted, &[]), Some(Refusal::Vector), "{wanted:?}");
            let wrong: Spoil = |core, _, _| core.set_cpu_type(12);
            assert_eq!(refusal(wanted, &[wrong]), Some(Refusal::Vector), "{wanted:?}");
        }
    }
    for wanted in calls() {
        let scarce: Spoil = |core, _, _| core.set_cycles_remaining(-2_147_483_603);
        let interrupt = wanted == Call::CheckAndServiceInterrupts;
        assert_eq!(refusal(wanted, &[scarce]), interrupt.then_some(Refusal::Cycles), "{wanted:?}");
        let enough: Spoil = |core, _, _| core.set_cycles_remaining(-2_147_483_602);
        assert_eq!(refusal(wanted, &[enough]), None, "{wanted:?}");
        let other: Spoil = |core, _, _| core.set_cpu_type(9);
        assert_eq!(
            refusal(wanted, &[other]),
            floating(wanted).then_some(Refusal::Kind),
            "{wanted:?}"
        );
        let even: Spoil = |core, _, _| {
            core.set_cpu_type(11);
            core.set_vbr(0x81);
        };
        assert_eq!(refusal(wanted, &[even]), None, "{wanted:?}");
    }
}

#[test]
fn a_log_of_192_words_is_enough() {
    for (words, refused) in [(0, true), (191, true), (192, false), (193, false)] {
        let (mut core, mut store, mut log) = (Core::fresh(4), vec![0; 65_536], vec![5; words]);
        core.dar_mut()[15] = 0x8000;
        let done = core.call(Call::ExceptionChk, &mut store, &mut log);
        assert_eq!(done == Err(Refusal::Log), refused, "{words} words: {done:?}");
    }
}

/// Lengths at the limits, at the lowest and at the highest addresses.
#[test]
fn a_store_that_is_too_long_is_refused() {
    for (base, len, refused) in [
        (0, 0, false),
        (0, 1, false),
        (0, 191, false),
        (0, 65_535, false),
        (0, 65_536, false),
        (0, 65_537, true),
        (0xFFFF_0000, 65_536, false),
        (0xFFFF_0001, 65_536, true),
        (0xFFFF_0001, 65_535, false),
        (0xFFFF_FFFF, 0, false),
        (0xFFFF_FFFF, 1, false),
        (0xFFFF_FFFF, 2, true),
    ] {
        let (mut core, mut log) = (Core::fresh(4), [0; 192]);
        core.set_base(base);
        let done = core.call(Call::ExceptionChk, &mut vec![0; len], &mut log);
        assert_eq!(done == Err(Refusal::Store), refused, "{len} at {base:x}: {done:?}");
        let (mut rows, store) = ([0; 4], vec![0; len]);
        for refusal in [core.walk(1, &store, &mut rows).refused, core.return_from(&store).err()] {
            assert_eq!(refusal == Some(Refusal::Store), refused, "{len} at {base:x}: {refusal:?}");
        }
    }
}

/// The store at the top of all addresses: its last bytes are served, nothing wraps to address 0.
#[test]
fn a_store_at_the_top_of_the_addresses() {
    let mut store = vec![0; 16];
    let mut served = |address| {
        let (mut core, mut log) = (Core::fresh(Kind::M68020), [0; 192]);
        core.set_base(0xFFFF_FFF0);
        // The frame of a bus error is to lie elsewhere.
        core.sp_mut()[4] = 0x8000;
        let answer = core.call(Call::Write32(address, u32::MAX), &mut store, &mut log).unwrap();
        answer.events(&log).find_map(|event| event.access()).unwrap().2
    };
    assert!(served(0xFFFF_FFF0) && served(0xFFFF_FFFC));
    assert!(!served(0xFFFF_FFFE) && !served(0xFFFF_FFEE) && !served(0));
    assert_eq!(store, [0xFF, 0xFF, 0xFF, 0xFF, 0, 0, 0, 0, 0, 0, 0, 0, 0xFF, 0xFF, 0xFF, 0xFF]);
}

/// Windows that end with the addresses, windows behind the store, windows of no byte.
#[test]
fn windows_at_the_ends() {
    let end = |start: u32| Window { start, length: 0u32.wrapping_sub(start) };
    for (window, faults, refused) in [
        (Window { start: 0x40, length: 0 }, false, false),
        (Window { start: 0x3F, length: 1 }, false, false),
        (Window { start: 0x3F, length: 2 }, true, false),
        (Window { start: 0x41, length: 1 }, true, false),
        (Window { start: 0x42, length: 1 }, false, false),
        (end(0x42), false, false),
        (end(0x41), true, false),
        (Window { start: 0, length: u32::MAX }, true, false),
        (Window { start: 1, length: u32::MAX }, true, false),
        (Window { start: 2, length: u32::MAX }, false, true),
        (Window { start: 0x1_0000, length: 0xFFFF_0000 }, false, false),
        (Window { start: u32::MAX, length: 1 }, false, false),
        (PAST, false, true),
    ] {
        let (mut core, mut log) = (Core::fresh(Kind::M68020), [0; 192]);
        core.set_windows(&[window]);
        assert_eq!(core.windows().collect::<Vec<_>>(), [window]);
        let done = core.call(Call::Read16(0x40), &mut [7; 0x1000], &mut log);
        assert_eq!(done == Err(Refusal::Windows), refused, "{window:?}: {done:?}");
        let Ok(answer) = done else { continue };
        let first = answer.events(&log).find_map(|event| event.access()).unwrap();
        assert_eq!(first, (0x40, Size::Word, !faults), "{window:?}");
    }
}

#[test]
fn nine_windows_are_refused() {
    for (windows, refused) in [(0, false), (8, false), (9, true), (300, true)] {
        let (mut core, mut log) = (Core::fresh(4), [0; 192]);
        core.set_windows(&vec![Window { start: 0x100, length: 2 }; windows]);
        assert_eq!(core.windows().count(), windows.min(8));
        let done = core.call(Call::Read16(0x40), &mut [0; 512], &mut log);
        assert_eq!(done == Err(Refusal::Windows), refused, "{done:?}");
    }
}

#[test]
fn a_record_survives_the_core() {
    let mut numbers = Numbers(7);
    for _ in 0..1000 {
        let (record, mut core) = (any_record(&mut numbers), Core::fresh(numbers.next() as u8));
        core.set_record(&record);
        assert_eq!(core.record(), record);
        assert_eq!(Record::from(&Core::from(&record)), record);
        assert_eq!(core.dar(), &record.dar);
        assert_eq!((core.pc(), core.fault_resume()), (record.pc, record.fault_resume));
    }
}

/// Slices with bytes on both sides that no call may touch.
struct Guarded<T> {
    all: Vec<T>,
    guard: T,
    side: usize,
}

impl<T: Copy + PartialEq> Guarded<T> {
    fn new(len: usize, fill: T, guard: T) -> Guarded<T> {
        let side = 64;
        let mut all = vec![guard; len + 2 * side];
        all[side..side + len].fill(fill);
        Guarded { all, guard, side }
    }

    fn inside(&mut self) -> &mut [T] {
        let end = self.all.len() - self.side;
        &mut self.all[self.side..end]
    }

    fn holds(&self) -> bool {
        let (before, rest) = self.all.split_at(self.side);
        let after = &rest[rest.len() - self.side..];
        before.iter().chain(after).all(|x| *x == self.guard)
    }
}

/// How many random calls: a million, or as many as M68K_RANDOM_CALLS says.
fn turns() -> u32 {
    std::env::var("M68K_RANDOM_CALLS").map_or(1_000_000, |n| n.parse().expect("a number"))
}

/// Random calls, returns and walks over slices of their own size: nothing beside them is written, a refused one changes
/// nothing, an accepted one writes its events and no more, and only it changes the store.
#[test]
fn random_calls_stay_inside_what_is_lent() {
    let mut n = Numbers(68_010);
    let (mut accepted, mut refused) = (0u32, 0u32);
    for turn in 0..turns() {
        let base = n.of(&[0, 0x1000, 0xFF_0000, 0xFFFF_F000]);
        let len = match n.below(200) {
            0 => 0,
            1 => 65_536,
            2 => 65_537,
            3 => 191,
            _ => 64 + n.below(0xF80) as usize,
        };
        let words = n.of(&[192, 192, 192, 192, 192, 192, 193, 200, 191, 0]);
        let mut core = likely_core(&mut n, base, len as u32);
        if n.percent(2) {
            core.set_record(&any_record(&mut n));
        }
        let fill = n.of(&[0, 0x10, 0xA5]);
        let (mut store, mut log) =
            (Guarded::new(len, fill, 0x5A), Guarded::new(words, UNWRITTEN, 0x1234_5678));
        let mut rows = Guarded::new(n.below(20) as usize, UNWRITTEN, 0x8765_4321);
        let (before, call) = (core.clone(), any_call(&mut n));
        let ok = match n.below(8) {
            0 => core.return_from(store.inside()).is_ok(),
            1 => {
                let walked = core.walk(n.below(5), store.inside(), rows.inside());
                assert!(rows.inside()[walked.count as usize * 4..].iter().all(|&w| w == UNWRITTEN));
                assert!(core == before, "turn {turn}: a walk changed the core");
                walked.refused.is_none()
            }
            _ => {
                let done = core.call(call, store.inside(), log.inside());
                let count = done.map_or(0, Answer::count);
                assert!(Event::all(log.inside(), count).all(|event| !other(event)), "turn {turn}");
                assert!(log.inside()[count as usize * 3..].iter().all(|&w| w == UNWRITTEN));
                let writes = Event::all(log.inside(), count)
                    .any(|event| matches!(event, Event::Write { served: true, .. }));
                assert!(writes || store.inside().iter().all(|&b| b == fill), "turn {turn}");
                done.is_ok()
            }
        };
        assert!(store.holds() && log.holds() && rows.holds(), "turn {turn}: written outside");
        assert!(ok || core == before, "turn {turn}: a refused call changed the core");
        *if ok { &mut accepted } else { &mut refused } += 1;
    }
    assert!(
        accepted > turns() / 4 && refused > turns() / 50,
        "{accepted} accepted, {refused} refused"
    );
}

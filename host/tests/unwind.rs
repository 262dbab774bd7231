//! Return and walk as a user meets them: every refusal with nothing changed, rows that are kept, words
//! behind them that stay.

use m68k_host::{Call, Core, Kind, Refusal, Row, Walked, Window};

/// What the words of a buffer are before a walk.
const UNWRITTEN: u32 = 0xEEEE_EEEE;

/// A core of a kind with A7 at 0x100, in supervisor mode.
fn core(kind: impl Into<u8>) -> Core {
    let mut core = Core::fresh(kind);
    core.dar_mut()[15] = 0x100;
    core.set_prefetch_count(2);
    core.set_pc(0x4000);
    core.set_cycles_remaining(77);
    core
}

/// A store with bytes at 0x100.
fn store(bytes: &[u8]) -> Vec<u8> {
    let mut store = vec![0; 1024];
    store[0x100..0x100 + bytes.len()].copy_from_slice(bytes);
    store
}

/// A frame of eight bytes.
fn frame(status: u16, address: u32, word: u16) -> Vec<u8> {
    [&status.to_be_bytes()[..], &address.to_be_bytes(), &word.to_be_bytes()].concat()
}

/// Something that a number refuses, put into a return that is accepted.
type Spoil = fn(&mut Core, &mut Vec<u8>);

const SPOILS: [(Refusal, Spoil); 16] = [
    (Refusal::Mode, |core, _| core.set_s_flag(1)),
    (Refusal::Mode, |core, _| core.set_m_flag(4)),
    (Refusal::VectorBase, |core, _| core.set_vbr(1)),
    (Refusal::FunctionCode, |core, _| core.set_mmu_fc_override(Some(8))),
    (Refusal::Store, |_, store| store.resize(65_537, 0)),
    (Refusal::Store, |core, _| core.set_base(0xFFFF_FF00)),
    (Refusal::Windows, |core, _| core.set_windows(&[Window { start: 0, length: 0 }; 9])),
    (Refusal::Windows, |core, _| core.set_windows(&[Window { start: 0xFFFF_FFFF, length: 2 }])),
    (Refusal::Kind, |core, _| core.set_cpu_type(12)),
    (Refusal::User, |core, _| core.set_s_flag(0)),
    (Refusal::Frame, |core, _| core.dar_mut()[15] = 0x101),
    (Refusal::Frame, |core, _| core.dar_mut()[15] = 0x1000),
    (Refusal::Frame, |_, store| store.truncate(0x107)),
    (Refusal::Frame, |core, _| core.set_windows(&[Window { start: 0x107, length: 1 }])),
    (Refusal::Format, |_, store| store[0x106] = 0x10),
    (Refusal::Format, |_, store| store[0x106] = 0xF0),
];

/// What a return and a walk of one answer after some changes. If they are refused, nothing may change.
fn refusal(spoils: &[Spoil]) -> Option<Refusal> {
    let (mut core, mut store) = (core(Kind::M68010), store(&frame(0x2700, 0x1000, 0xBC)));
    core.set_events(5);
    for spoil in spoils {
        spoil(&mut core, &mut store);
    }
    let (before, mut rows) = (core.clone(), [UNWRITTEN; 8]);
    let walked = core.walk(1, &store, &mut rows);
    assert!(core == before);
    let done = core.return_from(&store);
    assert_eq!(walked, Walked { count: done.is_ok().into(), refused: done.err() });
    match done {
        Ok(row) => assert_eq!(rows[..4], <[u32; 4]>::from(row)),
        Err(_) => assert!(core == before && rows == [UNWRITTEN; 8]),
    }
    assert_eq!((core.events(), &rows[4..]), (5, &[UNWRITTEN; 4][..]));
    done.err()
}

#[test]
fn each_number_is_answered_and_nothing_changed() {
    assert_eq!(refusal(&[]), None);
    let mut numbers = vec![];
    for (number, spoil) in SPOILS {
        assert_eq!(refusal(&[spoil]), Some(number));
        numbers.push(number.number());
    }
    numbers.dedup();
    assert_eq!(numbers, [1, 2, 4, 5, 6, 9, 11, 12, 13]);
}

/// Of two that apply, the lower: 1 to 9 before a frame is looked at, 11 before its bytes.
#[test]
fn the_lowest_number_is_answered() {
    for (low, first) in SPOILS.into_iter().filter(|s| s.0.number() < 12) {
        for (number, second) in SPOILS.into_iter().filter(|s| s.0.number() > low.number()) {
            // Kind 12 has no rule for the vector base.
            if low == Refusal::VectorBase && number == Refusal::Kind {
                continue;
            }
            // The lower one last, where both change the same thing.
            assert_eq!(refusal(&[second, first]), Some(low), "{low} and {number}");
        }
    }
}

/// Number 10 comes after 1 to 9 and before the frames, and asks for four words a row.
#[test]
fn a_row_buffer_that_is_too_short_is_refused() {
    let bytes = [frame(0x2700, 0x1000, 0xBC), frame(0x2000, 0x2000, 0x80)].concat();
    let store = store(&bytes);
    for (n, words, count, refused) in [
        (0, 0, 0, None),
        (1, 3, 0, Some(Refusal::Rows)),
        (1, 4, 1, None),
        (2, 7, 0, Some(Refusal::Rows)),
        (2, 8, 2, None),
        (2, 9, 2, None),
        (0x4000_0000, 9, 0, Some(Refusal::Rows)),
        (u32::MAX, 9, 0, Some(Refusal::Rows)),
    ] {
        let mut rows = vec![UNWRITTEN; words];
        let walked = core(2).walk(n, &store, &mut rows);
        assert_eq!(walked, Walked { count, refused }, "{n} rows in {words} words");
        assert!(rows[count as usize * 4..].iter().all(|&w| w == UNWRITTEN));
    }
    let mut spoiled = core(2);
    spoiled.set_s_flag(0);
    spoiled.dar_mut()[15] = 1;
    let none = |refused| Walked { count: 0, refused };
    assert_eq!(spoiled.walk(1, &store, &mut []), none(Some(Refusal::Rows)));
    spoiled.set_cpu_type(12);
    assert_eq!(spoiled.walk(1, &store, &mut []), none(Some(Refusal::Kind)));
    // A walk of none looks at no frame.
    spoiled.set_cpu_type(2);
    assert_eq!(spoiled.walk(0, &store, &mut []), none(None));
}

/// Two rows, and then a number: the rows are kept, the words behind them stay, the record is not moved.
#[test]
fn rows_before_a_refusal_are_kept() {
    let two = |status| [frame(0x2700, 0x1000, 0xBC), frame(status, 0x2000, 0x80)].concat();
    for (bytes, last, number) in [
        (two(0x0015), 0x0015, Refusal::User),
        ([two(0x2000), frame(0x2000, 0x3000, 0x8008)].concat(), 0x2000, Refusal::Frame),
        ([two(0x2000), frame(0x2000, 0x3000, 0x1000)].concat(), 0x2000, Refusal::Format),
    ] {
        let (core, mut store) = (core(2), store(&bytes));
        // The third frame has its first eight bytes.
        store.truncate(0x118);
        let (before, mut rows) = (core.clone(), [UNWRITTEN; 20]);
        let walked = core.walk(5, &store, &mut rows);
        assert_eq!(walked, Walked { count: 2, refused: Some(number) });
        let first = Row { format: 0, status: 0x2700, address: 0x1000, offset: 0xBC };
        let second = Row { format: 0, status: last, address: 0x2000, offset: 0x80 };
        assert_eq!(walked.rows(&rows).collect::<Vec<_>>(), [first, second]);
        assert_eq!(rows[8..], [UNWRITTEN; 12]);
        assert_eq!(core, before);
    }
}

/// TRAP #15 and a return, on each kind: the record is again what it was, but for the words fetched ahead
/// and what an entry notes of itself. The log is not asked for: none is lent.
#[test]
fn a_return_undoes_an_entry() {
    for kind in 0..12 {
        for status in [0x2000, 0x2715, 0x0004] {
            let mut before = core(kind);
            before.sp_mut()[0] = 0x100;
            before.set_sr(status);
            (before.sp_mut()[4], before.dar_mut()[15]) = (0x200, 0x100);
            before.set_precise_bus(false);
            let (mut now, mut store, mut log) = (before.clone(), store(&[]), [0; 192]);
            now.call(Call::Trap(15), &mut store, &mut log).unwrap();
            let (events, stacked) = (now.events(), store.clone());
            let row = now.return_from(&store).unwrap();
            assert_eq!((row.status, row.address), (status.into(), before.pc()), "kind {kind}");
            assert_eq!((now.pc(), now.dar()), (before.pc(), before.dar()), "kind {kind}");
            assert_eq!((now.get_sr(), now.prefetch_count()), (status, 0), "kind {kind}");
            assert_eq!((now.events(), store), (events, stacked), "kind {kind}");
        }
    }
}

/// Format 1 switches to the stack that its status selects, where the second frame lies.
#[test]
fn a_second_frame_is_taken_from_the_stack_that_the_first_selects() {
    let mut core = core(4);
    core.sp_mut()[6] = 0x200;
    let mut store = store(&frame(0x3700, 0x1000, 0x107C));
    store[0x200..0x208].copy_from_slice(&frame(0x3015, 0x2000, 0x007C));
    let row = core.return_from(&store);
    assert_eq!(row, Ok(Row { format: 1, status: 0x3015, address: 0x2000, offset: 0x7C }));
    assert_eq!((core.pc(), core.m_flag()), (0x2000, 2));
    assert_eq!((core.dar()[15], core.sp()[4]), (0x208, 0x108));
    // A second frame of format 1 is none, and the first is not taken either.
    store[0x206] = 0x10;
    let mut other = core.clone();
    (other.dar_mut()[15], other.sp_mut()[6]) = (0x100, 0x200);
    other.set_m_flag(0);
    let before = other.clone();
    assert_eq!(other.return_from(&store), Err(Refusal::Format));
    assert_eq!(other, before);
}

#[test]
fn the_first_kind_takes_six_bytes() {
    let (mut core, store) = (core(Kind::M68000), store(&frame(0x2015, 0x1234_5678, 0xFFFF)));
    let row = core.return_from(&store[..0x106]);
    assert_eq!(row, Ok(Row { format: 0, status: 0x2015, address: 0x1234_5678, offset: 0 }));
    assert_eq!((core.pc(), core.dar()[15]), (0x1234_5678, 0x106));
}

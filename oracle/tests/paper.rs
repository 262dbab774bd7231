//! What the project's papers say of single cases, and that recorded examples still hold.

use oracle::rng::Rng;
use oracle::{Call, Case, Outcome, Record, calls, generate, leaf, unwind};
use oracle::{format, format_case, parse, run};

/// Status 0x2700, PC 0x1000, PPC 0xFFE, A7 0x8000 unless said.
const USUAL: [&str; 4] = ["status=2700", "pc=1000", "ppc=ffe", "a7=8000"];

fn case(input: &str) -> Case {
    let named = |pair: &str| input.contains(&format!(" {}=", pair.split('=').next().unwrap()));
    let mut line = input.to_string();
    for pair in USUAL {
        if !named(pair) {
            line += &format!(" {pair}");
        }
    }
    parse(&line).unwrap()
}

fn outcome(input: &str) -> Outcome {
    run(&case(input))
}

/// Bytes of the store after the call, from an address (base 0).
fn bytes(input: &str, at: usize, n: usize) -> Vec<u8> {
    let case = case(input);
    let mut store = case.store.bytes();
    for (start, run) in run(&case).changes {
        store[start as usize..start as usize + run.len()].copy_from_slice(&run);
    }
    store[at..at + n].to_vec()
}

fn word(input: &str, at: usize) -> u16 {
    let b = bytes(input, at, 2);
    u16::from_be_bytes([b[0], b[1]])
}

/// The case that follows: the same store and record after the call, another call.
fn next(input: &Case, o: &Outcome, call: &str) -> Case {
    let mut case = input.clone();
    case.call = parse(&format!("call={call} kind=1")).unwrap().call;
    case.record = o.record.clone();
    case.store.patch.extend(o.changes.clone());
    case
}

#[test]
fn p1_trap_on_kind_2() {
    let input = "call=trap:f kind=2";
    assert_eq!(bytes(input, 0x7FF8, 8), [0x27, 0, 0, 0, 0x10, 0, 0, 0xBC]);
    assert_eq!(outcome(input).record.dar[15], 0x7FF8);
}

#[test]
fn p2_zero_divide_on_kind_1() {
    let input = "call=exception_zero_divide kind=1";
    assert_eq!(bytes(input, 0x7FFA, 6), [0x27, 0, 0, 0, 0x10, 0]);
    assert_eq!(outcome(input).answer, 38);
}

#[test]
fn p3_chk_on_kind_4() {
    let frame = [0x27, 0, 0, 0, 0x10, 0, 0x20, 0x18, 0, 0, 0x0F, 0xFE];
    assert_eq!(bytes("call=exception_chk kind=4", 0x7FF4, 12), frame);
}

#[test]
fn p4_level_and_mask() {
    for kind in 0..12 {
        let call = format!("call=check_and_service_interrupts kind={kind}");
        assert_eq!(outcome(&format!("{call} status=2300 int_level=3")).answer, 0);
        assert_eq!(outcome(&format!("{call} status=2700 int_level=7")).answer, 1);
    }
}

#[test]
fn p5_responses() {
    let vector = |level: u32, response: &str| {
        let ack = [response; 8].join(".");
        let call = "call=check_and_service_interrupts kind=4 status=2000";
        let o = outcome(&format!("{call} int_level={level} ack={ack}"));
        o.record.last_exception_vector.unwrap()
    };
    assert_eq!(vector(4, "1ff"), 255);
    assert_eq!(vector(4, "fffffffe"), 254);
    assert_eq!(vector(4, "ffffffff"), 28);
}

#[test]
fn p6_status_word_of_kind_4() {
    let at = 0x8000 - 92 + 0x0A;
    assert_eq!(word("call=exception_bus_error:1234:0:1:2:0 kind=4", at), 0x5006);
    assert_eq!(word("call=exception_bus_error:1234:0:0:4:0 kind=4", at), 0x0145);
}

#[test]
fn p7_write_fault_of_kind_9() {
    let input = "call=exception_bus_error:1234:1:0:2:0 kind=9 status=700 isp=8000 a7=4000";
    assert_eq!(word(input, 0x8000 - 60 + 0x0C), 0x0041);
    assert_eq!(word(input, 0x8000 - 60 + 0x0E), 0x00C1);
}

#[test]
fn p8_page_fault_of_kind_11() {
    let input = "call=exception_bus_error:1234:0:0:1:4 kind=11";
    assert_eq!(bytes(input, 0x8000 - 16 + 0x0C, 4), [0x01, 0x25, 0x02, 0x00]);
}

#[test]
fn p9_clocks_wrap() {
    let mut r = Record::fresh(1);
    r.pending_sync_clocks = u32::MAX;
    leaf::internal_cycles(1, &mut r, 4);
    assert_eq!(r.pending_sync_clocks, 3);
}

#[test]
fn p10_second_push_faults() {
    let r = outcome("call=trap:0 kind=4 a7=2").record;
    assert_eq!((r.dar[15], r.pc, r.stopped, r.run_mode), (0xFFFF_FFFA, 0, 1, 1));
}

#[test]
fn p11_format_1_and_back() {
    let entry = "call=check_and_service_interrupts kind=4 status=3700 a7=6000 isp=5000 int_level=7";
    assert_eq!(word(entry, 0x4FFE), 0x107C);
    assert_eq!(word(entry, 0x5FFE), 0x007C);
    let first = case(entry);
    let o = run(&first);
    assert_eq!((o.record.dar[15], o.record.sp[6]), (0x4FF8, 0x5FF8));
    let back = run(&next(&first, &o, "return"));
    assert_eq!((back.refused, back.status, back.record.pc), (0, 0x3700, 0x1000));
    assert_eq!((back.record.dar[15], back.record.sp[4]), (0x6000, 0x5000));
    assert_eq!(back.rows, [[1, 0x3700, 0x1000, 0x7C]]);
}

#[test]
fn limits() {
    let refused = |input: &str| outcome(input).refused;
    assert_eq!(refused("call=trap:0 kind=2 log=191"), 7);
    assert_eq!(refused("call=trap:0 kind=2 log=192"), 0);
    assert_eq!(refused("call=take_exception:ff kind=2"), 0);
    assert_eq!(refused("call=take_exception:100 kind=2"), 8);
    assert_eq!(refused("call=trap:0 kind=2 vbr=1"), 2);
    assert_eq!(refused("call=trap:0 kind=4 vbr=1"), 0);
    let interrupt = "call=check_and_service_interrupts kind=2 int_level=7 cycles_remaining";
    assert_eq!(refused(&format!("{interrupt}=-2147483603")), 3);
    assert_eq!(outcome(&format!("{interrupt}=-2147483602")).record.cycles_remaining, i32::MIN);
    assert_eq!(refused("call=walk:1:3 kind=2"), 10);
    assert_eq!(refused("call=walk:0:0 kind=2 status=700"), 0);
    assert_eq!(refused("call=walk:0:0 kind=12"), 9);
    assert_eq!(refused("call=return kind=2 status=700"), 11);
    assert_eq!(refused("call=return kind=2 a7=8001"), 12);
    assert_eq!(refused("call=return kind=2 patch=8006:1000"), 13);
    assert_eq!(refused("call=check_trace kind=2 log=0 len=70000"), 0);
    assert_eq!(refused("call=return kind=2 log=0"), 0);
}

#[test]
fn session_of_the_paper() {
    let trap = case("call=trap:f kind=2 patch=bc:00002000");
    let o = run(&trap);
    assert_eq!((o.answer, o.record.pc, o.status), (34, 0x2000, 0x2700));
    let walk = run(&next(&trap, &o, "walk:1:4"));
    assert_eq!((walk.answer, &walk.rows[..]), (1, &[[0, 0x2700, 0x1000, 0xBC]][..]));
    let back = run(&next(&trap, &o, "return")).record;
    assert_eq!((back.pc, back.dar[15], back.prefetch_count), (0x1000, 0x8000, 0));
}

#[test]
fn tables() {
    for vector in 0..256 {
        let cycles = match vector {
            0 | 1 | 6 => 40,
            2 | 3 => 50,
            5 => 38,
            24..=31 => 44,
            _ => 34,
        };
        assert_eq!(leaf::exception_cycles(vector), cycles);
    }
    for kind in 0..12 {
        let masks = (unwind::address_mask(kind), u32::from(unwind::status_mask(kind)));
        assert_eq!(leaf::masks(kind), masks);
    }
}

/// Every trace, supervisor and master bit, with some masks and condition codes.
fn statuses() -> Vec<u16> {
    let mut out = vec![];
    for top in 0..16 {
        for low in [0x000, 0x700, 0x31F, 0x515, 0x20A] {
            out.push(top << 12 | low);
        }
    }
    out
}

/// A return takes off what an entry stacked, on every kind.
#[test]
fn entry_and_return() {
    let calls = "take_exception:4 trap:3 take_group2_exception:7 exception_chk exception_trace \
                 exception_address_error:1001:0:1 exception_bus_error:1000:1:0:2:3 \
                 take_fp_unimp_060:1234 take_fp_disabled_060 check_and_service_interrupts";
    for kind in 0..12 {
        for call in calls.split_whitespace() {
            if call.contains("060") && kind != 11 || call.contains("error") && kind == 1 {
                continue;
            }
            for status in statuses() {
                there_and_back(kind, call, status & unwind::status_mask(kind));
            }
        }
    }
}

fn there_and_back(kind: u8, call: &str, status: u16) {
    let stacks = "a7=3000 usp=4000 isp=5000 msp=6000 int_level=7";
    let entry = case(&format!("call={call} kind={kind} status={status:x} {stacks}"));
    let o = run(&entry);
    assert_eq!((o.refused, o.record.run_mode), (0, 0));
    let back = run(&next(&entry, &o, "return"));
    assert_eq!(back.refused, 0, "kind {kind} {call} {status:x}");
    assert_eq!((back.status, back.record.dar[15]), (status, 0x3000), "kind {kind} {call}");
    assert!([0x1000, 0xFFE].contains(&back.record.pc));
}

#[test]
fn examples_still_hold() {
    let text = include_str!("../examples.txt");
    for line in text.lines().filter(|l| !l.is_empty() && !l.starts_with('#')) {
        let (input, output) = line.split_once(" => ").unwrap();
        let case = parse(input).unwrap();
        assert_eq!(format(&case, &run(&case)), output, "{input}");
    }
}

/// A complete input read again is the same case; no call makes more events than was found.
#[test]
fn generated_cases() {
    let most = [61, 26, 30, 61, 61, 61, 61, 41, 41, 41, 23, 15];
    let mut rng = Rng::new(7);
    let mut accepted = 0;
    for _ in 0..100_000 {
        let case = generate::case(&mut rng);
        assert_eq!(parse(&format_case(&case)).as_ref(), Ok(&case));
        let o = run(&case);
        accepted += u32::from(o.refused == 0);
        if o.refused == 0 {
            assert!(o.events.len() <= most[case.kind as usize]);
        }
    }
    assert!(accepted > 85_000);
}

/// No call changes anything of the core that is not a field of the record.
#[test]
fn record_is_complete() {
    let mut rng = Rng::new(8);
    for _ in 0..20_000 {
        let case = generate::case(&mut rng);
        let unwinds = matches!(case.call, Call::Return | Call::Walk { .. });
        if calls::refusal(&case) != 0 || unwinds {
            continue;
        }
        let mut core = case.record.to_core(case.kind);
        let before = format!("{core:?}");
        let mut bus = case.store.bus(case.store.bytes(), case.log);
        calls::perform(&mut core, &mut bus, case.call);
        case.record.put(&mut core);
        assert_eq!(before, format!("{core:?}"), "{}", format_case(&case));
    }
}

#[test]
fn a_kind_that_changed_is_shown() {
    let case = case("call=trap:1 kind=2");
    let mut o = run(&case);
    assert!(!format(&case, &o).contains("kind="));
    o.kind = 3;
    assert!(format(&case, &o).contains(" status=2700 kind=3 dar="));
}

#[test]
fn lines_not_understood() {
    for line in [
        "call=trap kind=2",
        "call=trap:100 kind=2",
        "call=trap:1:2 kind=2",
        "call=nothing kind=2",
        "call=trap:1",
        "call=trap:1 kind=256",
        "call=trap:1 kind=2 pc=1G",
        "call=trap:1 kind=2 pc=1 pc=2",
        "call=trap:1 kind=2 nothing=1",
        "call=trap:1 kind=2  pc=1",
        "call=trap:1 kind=2 pending_fault_cause=9",
        "call=exception_bus_error:0:0:0:1:9 kind=2",
        "call=trap:1 kind=2 len=4 patch=3:0102",
    ] {
        assert!(parse(line).is_err(), "{line}");
    }
}

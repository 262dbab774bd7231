//! The table of words: nothing is missing, and what it says of frames is what the proved code does.

use m68k_host::{Call, Core, FaultCause, Refusal};
use m68k_programs::session::{Command, Wrong};
use m68k_programs::words::{self, Field, Sort};

const FORMATS: [u32; 7] = [0, 1, 2, 4, 7, 8, 11];

#[test]
fn every_vector_has_a_name() {
    for vector in 0..=255u8 {
        let name = words::vector(vector);
        assert!(!name.trim().is_empty() && name == name.trim(), "{vector}: {name:?}");
        assert_eq!(words::offset(u32::from(vector) * 4, ""), format!("vector {vector} ({name})"),);
    }
    for level in 1..8u8 {
        assert_eq!(words::vector(24 + level), format!("level {level} interrupt autovector"));
    }
    for n in 0..16u8 {
        assert_eq!(words::vector(32 + n), format!("TRAP #{n} instruction"));
    }
    assert_eq!(words::vector(64), "user-defined vector 0");
    assert_eq!(words::vector(255), "user-defined vector 191");
    assert_eq!(words::offset(0x3FF, ""), "offset 3FF, of no vector");
    assert_eq!(words::offset(0x400, ""), "offset 400, of no vector");
    assert_eq!(words::offset(0x68, ": x"), "vector 26 (level 2 interrupt autovector: x)");
}

#[test]
fn every_refusal_and_reason_has_words() {
    let said = |(what, advice): (&str, &str)| !what.trim().is_empty() && !advice.trim().is_empty();
    let mut all: Vec<&str> = (1..=14).map(|number| words::refusal(number).0).collect();
    assert!((1..=14).all(|number| said(words::refusal(number))));
    assert!(Wrong::ALL.iter().all(|wrong| said(words::wrong(*wrong))));
    all.extend(Wrong::ALL.iter().map(|wrong| words::wrong(*wrong).0));
    let count = all.len();
    all.sort_unstable();
    all.dedup();
    assert_eq!(all.len(), count, "two mean the same");
}

#[test]
fn every_kind_and_command_has_words() {
    assert!((0..=255u8).all(|kind| !words::kind(kind).is_empty()));
    let all = [
        Command::Kind(2),
        Command::Pc(1),
        Command::Ppc(1),
        Command::A7(1),
        Command::Long(0x68, 1),
        Command::Long(0x7FF8, 1),
        Command::Exc(5),
        Command::Exc(256),
        Command::Trap(15),
        Command::Irq(0),
        Command::Irq(3),
        Command::Irq(11),
        Command::Walk(0),
        Command::Walk(1),
        Command::Walk(2),
        Command::Ret,
    ];
    let mut said: Vec<String> = all.iter().map(|command| words::command(*command)).collect();
    assert!(said.iter().all(|words| !words.trim().is_empty()));
    said.sort();
    said.dedup();
    assert_eq!(said.len(), all.len());
    assert!(!words::NO_COMMAND.is_empty());
}

#[test]
fn statuses_in_words() {
    assert_eq!(words::status(0x2204, 0xA71F), "supervisor, mask 2, Z");
    assert_eq!(words::status(0x0000, 0xA71F), "user, mask 0, no flags");
    assert_eq!(
        words::status(0xF71F, 0xF71F),
        "supervisor, master stack (M), trace (T1), trace on change of flow (T0), mask 7, X N Z V C"
    );
    assert_eq!(
        words::status(0x3700, 0xA71F),
        "supervisor, mask 7, no flags, bits 1000 count for nothing on this kind"
    );
}

/// What a return takes off the stack of each kind for each format: its bytes, or none if refused.
fn taken(kind: u8, format: u32) -> Result<u32, Refusal> {
    let mut core = Core::fresh(kind);
    core.dar_mut()[15] = 0x1000;
    let mut store = vec![0; 0x2000];
    store[0x1000] = 0x27;
    store[0x1006] = (format << 4) as u8;
    // Under a frame of format 1 one of format 0, on the same stack.
    store[0x1008] = 0x27;
    core.return_from(&store).map(|_| core.dar()[15] - 0x1000)
}

/// Every format has a layout, as long as a return takes it on the kinds that take it; no other has.
#[test]
fn frames_are_as_long_as_a_return_takes_them() {
    let mut met = vec![];
    for format in 0..16 {
        let length = words::layout(format << 12).map(|fields| words::length(fields) as u32);
        assert_eq!(length.is_some(), FORMATS.contains(&format), "format {format}");
        for kind in (0..12).filter(|kind| *kind != 1) {
            if let Ok(bytes) = taken(kind, format) {
                let under = if format == 1 { 8 } else { 0 };
                assert_eq!(Some(bytes - under), length, "kind {kind}, format {format}");
                met.push(format);
            }
        }
    }
    assert!(FORMATS.iter().all(|format| met.contains(format)), "some kind takes each");
    assert_eq!(taken(1, 0).ok(), Some(words::length(words::FRAME_68000) as u32));
    assert_eq!(words::length(words::ERROR_68000), 14);
}

/// Every field has a name and a length, and the first three are those that all formats share.
#[test]
fn fields_are_named() {
    for word in FORMATS.iter().flat_map(|format| [0, 3, 11, 55, 60].map(|v| format << 12 | v << 2))
    {
        let fields = words::layout(word).unwrap();
        assert!(fields.iter().all(|(name, length, _)| !name.trim().is_empty() && *length > 0));
        let head: Vec<Sort> = fields[..3].iter().map(|(_, _, sort)| *sort).collect();
        assert_eq!(head, [Sort::Status, Sort::Address, Sort::Format], "{word:04X}");
    }
}

/// The fields of the frame that a call stacks on a kind, by name.
fn stacked(kind: u8, wanted: Call) -> Vec<(&'static str, u32, String)> {
    let mut core = Core::fresh(kind);
    core.dar_mut()[15] = 0x8000;
    core.set_ppc(0xFFE);
    core.set_pc(0x1000);
    core.set_ir(0x4E71);
    core.set_pending_fault_wdata(0x1234);
    let (mut store, mut log) = (vec![0; 65_536], [0; 192]);
    core.call(wanted, &mut store, &mut log).unwrap();
    let start = core.dar()[15] as usize;
    let word = u32::from(store[start + 6]) << 8 | u32::from(store[start + 7]);
    let fields: &[Field] =
        if kind == 1 { words::ERROR_68000 } else { words::layout(word).unwrap() };
    assert_eq!(start + words::length(fields), 0x8000, "kind {kind}");
    let mut at = start;
    let read = |(name, length, sort): &Field| {
        let bytes = &store[at..at + length];
        at += length;
        let value = bytes.iter().fold(0u32, |n, byte| n << 8 | u32::from(*byte));
        let text =
            if let Sort::Bits(bits) = sort { words::bits(value, bits) } else { String::new() };
        (*name, value, text)
    };
    fields.iter().map(read).collect()
}

fn value(fields: &[(&'static str, u32, String)], name: &str) -> u32 {
    fields.iter().find(|(n, _, _)| *n == name).unwrap_or_else(|| panic!("no {name}")).1
}

fn text<'a>(fields: &'a [(&'static str, u32, String)], name: &str) -> &'a str {
    &fields.iter().find(|(n, _, _)| *n == name).unwrap_or_else(|| panic!("no {name}")).2
}

/// A write of a word at 0x9000 that faults, on every kind: each value is under its name.
#[test]
fn bus_error_frames_have_each_value_under_its_name() {
    let fault = |write, cause| Call::ExceptionBusError {
        address: 0x9000,
        write,
        instruction: false,
        size: if write { 2 } else { 1 },
        cause,
    };
    for kind in 0..12 {
        let fields = stacked(kind, fault(true, None));
        assert_eq!(value(&fields, "status register"), 0x2700, "kind {kind}");
        assert_eq!(value(&fields, "program counter"), 0xFFE, "kind {kind}");
        let (place, said): (&str, &[(&str, &str)]) = match kind {
            1 => ("access address", &[("access type", "write, I/N 1, supervisor data")]),
            2 | 10 => continue, // the code leaves the fault address 0 there
            7..=9 => (
                "fault address",
                &[
                    ("special status word", "write, word, supervisor data"),
                    ("write-back 3 status", "valid, word, supervisor data"),
                    ("write-back 2 status", "not valid"),
                ],
            ),
            11 => {
                ("fault address", &[("fault status long word", "write, word, supervisor data, WE")])
            }
            _ => (
                "data cycle fault address",
                &[("special status word", "DF, write, word, supervisor data")],
            ),
        };
        assert_eq!(value(&fields, place), 0x9000, "kind {kind}");
        for (name, words) in said {
            assert_eq!(text(&fields, name), *words, "kind {kind}");
        }
    }
    let fields = stacked(4, fault(true, None));
    assert_eq!(value(&fields, "data output buffer"), 0x1234);
    let fields = stacked(9, fault(true, None));
    assert_eq!(value(&fields, "write-back 3 address"), 0x9000);
    assert_eq!(value(&fields, "write-back 3 data"), 0x1234);
    let fields = stacked(1, fault(true, None));
    assert_eq!(value(&fields, "instruction register"), 0x4E71);
    // P8 of paper 01.
    let fields = stacked(11, fault(false, Some(FaultCause::PageFault)));
    assert_eq!(value(&fields, "fault status long word"), 0x0125_0200);
    assert_eq!(text(&fields, "fault status long word"), "read, byte, supervisor data, PF");
}

#[test]
fn other_frames_have_each_value_under_its_name() {
    let instruction = Call::ExceptionBusError {
        address: 0x9000,
        write: false,
        instruction: true,
        size: 2,
        cause: None,
    };
    let fields = stacked(4, instruction);
    assert_eq!(value(&fields, "stage B address"), 0x9000);
    assert_eq!(value(&fields, "special status word"), 0x5006); // P6
    let odd = Call::ExceptionAddressError { address: 0x9001, write: false, instruction: false };
    assert_eq!(value(&stacked(9, odd), "fault address"), 0x9000);
    assert_eq!(value(&stacked(1, odd), "access address"), 0x9001);
    assert_eq!(value(&stacked(2, odd), "format/vector"), 0x800C);
    assert_eq!(value(&stacked(4, Call::ExceptionChk), "instruction address"), 0xFFE); // P3
    assert_eq!(value(&stacked(11, Call::TakeFpUnimp060(0x77)), "effective address"), 0x77);
    let disabled = stacked(11, Call::TakeFpDisabled060);
    assert_eq!(value(&disabled, "PC of faulted instruction"), 0xFFE);
}

/// The bits that a kind keeps of a status are those of paper 01.
#[test]
fn statuses_are_kept_under_the_kinds_mask() {
    for kind in 0..12 {
        let mut core = Core::fresh(kind);
        core.set_sr(0xFFFF);
        let mask = match kind {
            0..=2 | 10 => 0xA71F,
            11 => 0xB71F,
            _ => 0xF71F,
        };
        assert_eq!(core.get_sr(), mask, "kind {kind}");
    }
}

fn table(head: &str, rows: impl Iterator<Item = String>) -> String {
    rows.fold(format!("{head}\n"), |table, row| table + &row + "\n")
}

/// The two tables of the manual have the words of this table.
#[test]
fn the_manual_has_these_words() {
    let manual = include_str!("../../../docs/SESSION.md");
    let refusals = (1..=14).map(|n| {
        let (what, advice) = words::refusal(n);
        format!("| {n} | {what} | {advice} |")
    });
    let wrongs = Wrong::ALL.iter().map(|wrong| {
        let (what, advice) = words::wrong(*wrong);
        format!("| {what} | {advice} |")
    });
    let refusals = table("| Number | What it means | What to do |\n|---|---|---|", refusals);
    let wrongs = table("| What is wrong | What to do |\n|---|---|", wrongs);
    assert!(manual.contains(&refusals), "docs/SESSION.md is to have\n{refusals}");
    assert!(manual.contains(&wrongs), "docs/SESSION.md is to have\n{wrongs}");
}

//! All words that a view says: kinds, vectors, statuses, fields of frames, refusals, commands.
//!
//! Names of vectors, fields and bits are those of the manuals of the M68000 family.

use crate::session::{Command, Wrong};

/// The kinds by their numbers; kind 0 is the one before a processor is chosen.
pub const KINDS: [&str; 12] = [
    "processor of kind 0 (none chosen)",
    "68000",
    "68010",
    "68EC020",
    "68020",
    "68EC030",
    "68030",
    "68EC040",
    "68LC040",
    "68040",
    "68070",
    "68060",
];

/// The name of a kind.
pub fn kind(kind: u8) -> String {
    match KINDS.get(usize::from(kind)) {
        Some(name) => (*name).into(),
        None => format!("processor of kind {kind}, which does not exist"),
    }
}

/// The vectors 0 to 63; those from 64 on are the user's.
const VECTORS: [&str; 64] = [
    "reset: initial stack pointer",
    "reset: initial program counter",
    "bus error",
    "address error",
    "illegal instruction",
    "zero divide",
    "CHK instruction",
    "TRAPV instruction",
    "privilege violation",
    "trace",
    "line 1010 emulator",
    "line 1111 emulator",
    "unassigned, reserved",
    "coprocessor protocol violation",
    "format error",
    "uninitialized interrupt",
    "unassigned, reserved",
    "unassigned, reserved",
    "unassigned, reserved",
    "unassigned, reserved",
    "unassigned, reserved",
    "unassigned, reserved",
    "unassigned, reserved",
    "unassigned, reserved",
    "spurious interrupt",
    "level 1 interrupt autovector",
    "level 2 interrupt autovector",
    "level 3 interrupt autovector",
    "level 4 interrupt autovector",
    "level 5 interrupt autovector",
    "level 6 interrupt autovector",
    "level 7 interrupt autovector",
    "TRAP #0 instruction",
    "TRAP #1 instruction",
    "TRAP #2 instruction",
    "TRAP #3 instruction",
    "TRAP #4 instruction",
    "TRAP #5 instruction",
    "TRAP #6 instruction",
    "TRAP #7 instruction",
    "TRAP #8 instruction",
    "TRAP #9 instruction",
    "TRAP #10 instruction",
    "TRAP #11 instruction",
    "TRAP #12 instruction",
    "TRAP #13 instruction",
    "TRAP #14 instruction",
    "TRAP #15 instruction",
    "floating-point branch or set on unordered condition",
    "floating-point inexact result",
    "floating-point divide by zero",
    "floating-point underflow",
    "floating-point operand error",
    "floating-point overflow",
    "floating-point signaling NAN",
    "floating-point unimplemented data type",
    "MMU configuration error",
    "MMU illegal operation error",
    "MMU access level violation error",
    "unassigned, reserved",
    "unimplemented effective address",
    "unimplemented integer instruction",
    "unassigned, reserved",
    "unassigned, reserved",
];

/// The name of a vector.
pub fn vector(vector: u8) -> String {
    match VECTORS.get(usize::from(vector)) {
        Some(name) => (*name).into(),
        None => format!("user-defined vector {}", vector - 64),
    }
}

/// The low 12 bits of a format word as a vector, with somebody's own name for it. In a frame made by hand
/// they need not be one.
pub fn offset(offset: u32, name: &str) -> String {
    match u8::try_from(offset / 4) {
        Ok(v) if offset.is_multiple_of(4) => format!("vector {v} ({}{name})", vector(v)),
        _ => format!("offset {offset:03X}, of no vector"),
    }
}

/// The bits of a status beside the mask, those with a name in words first.
const STATUS: [(u16, &str); 4] = [
    (0x2000, "supervisor"),
    (0x1000, "master stack (M)"),
    (0x8000, "trace (T1)"),
    (0x4000, "trace on change of flow (T0)"),
];
const FLAGS: [(u16, char); 5] = [(0x10, 'X'), (0x08, 'N'), (0x04, 'Z'), (0x02, 'V'), (0x01, 'C')];

/// A status in words. `kept` has the bits that the kind keeps.
pub fn status(status: u16, kept: u16) -> String {
    let on = status & kept;
    let mut words: Vec<String> = vec![];
    if on & 0x2000 == 0 {
        words.push("user".into());
    }
    words.extend(STATUS.iter().filter(|(bit, _)| on & bit != 0).map(|(_, word)| (*word).into()));
    words.push(format!("mask {}", on >> 8 & 7));
    let flags: Vec<String> =
        FLAGS.iter().filter(|(bit, _)| on & bit != 0).map(|(_, flag)| flag.to_string()).collect();
    words.push(if flags.is_empty() { "no flags".into() } else { flags.join(" ") });
    if status & !kept != 0 {
        words.push(format!("bits {:04X} count for nothing on this kind", status & !kept));
    }
    words.join(", ")
}

/// What lies in a field of a frame, and so how it is said.
#[derive(Debug, Clone, Copy, PartialEq, Eq)]
pub enum Sort {
    /// A status register.
    Status,
    /// An address where a program goes on.
    Address,
    /// The format word.
    Format,
    /// A number.
    Number,
    /// A number that is made of bits: their names.
    Bits(&'static Bits),
    /// What only the processor itself knows.
    Internal,
}

/// A field of a frame: its name, its bytes, what lies in it.
pub type Field = (&'static str, usize, Sort);

/// Parts of a number: shift, width, and the words of each value; an empty word is not said.
pub type Bits = [(u32, u32, &'static [&'static str])];

const CODES: &[&str] = &[
    "function code 0",
    "user data",
    "user program",
    "function code 3",
    "function code 4",
    "supervisor data",
    "supervisor program",
    "CPU space",
];
const DIRECTION: &[&str] = &["write", "read"];
const SIZE_020: &[&str] = &["long", "byte", "word", "three bytes"];
const SIZE_040: &[&str] = &["long", "byte", "word", "line"];
const TRANSFER: &[&str] = &["", "TT 1", "TT 2", "TT 3"];
const MODIFIER: &[&str] = &[
    "TM 0",
    "user data",
    "user program",
    "TM 3",
    "TM 4",
    "supervisor data",
    "supervisor program",
    "TM 7",
];

static FAULT_68000: [(u32, u32, &[&str]); 3] =
    [(4, 1, DIRECTION), (3, 1, &["I/N 0", "I/N 1"]), (0, 3, CODES)];
static SSW_68010: [(u32, u32, &[&str]); 8] = [
    (15, 1, &["", "RR"]),
    (13, 1, &["", "IF"]),
    (12, 1, &["", "DF"]),
    (11, 1, &["", "RM"]),
    (10, 1, &["", "HB"]),
    (9, 1, &["", "BY"]),
    (8, 1, DIRECTION),
    (0, 3, CODES),
];
static SSW_68020: [(u32, u32, &[&str]); 9] = [
    (15, 1, &["", "FC"]),
    (14, 1, &["", "FB"]),
    (13, 1, &["", "RC"]),
    (12, 1, &["", "RB"]),
    (8, 1, &["", "DF"]),
    (7, 1, &["", "RM"]),
    (6, 1, DIRECTION),
    (4, 2, SIZE_020),
    (0, 3, CODES),
];
static SSW_68040: [(u32, u32, &[&str]); 11] = [
    (15, 1, &["", "CP"]),
    (14, 1, &["", "CU"]),
    (13, 1, &["", "CT"]),
    (12, 1, &["", "CM"]),
    (11, 1, &["", "MA"]),
    (10, 1, &["", "ATC"]),
    (9, 1, &["", "LK"]),
    (8, 1, DIRECTION),
    (5, 2, SIZE_040),
    (3, 2, TRANSFER),
    (0, 3, MODIFIER),
];
/// A write-back that is not valid: its other bits say nothing.
const NOT_VALID: &str = "not valid";

static WRITE_BACK: [(u32, u32, &[&str]); 4] =
    [(7, 1, &[NOT_VALID, "valid"]), (5, 2, SIZE_040), (3, 2, TRANSFER), (0, 3, MODIFIER)];
static FSLW: [(u32, u32, &[&str]); 20] = [
    (27, 1, &["", "MA"]),
    (25, 1, &["", "LK"]),
    (23, 2, &["RW 0", "write", "read", "read-modify-write"]),
    (21, 2, SIZE_040),
    (19, 2, TRANSFER),
    (16, 3, MODIFIER),
    (15, 1, &["", "IO"]),
    (14, 1, &["", "PBE"]),
    (13, 1, &["", "SBE"]),
    (12, 1, &["", "PTA"]),
    (11, 1, &["", "PTB"]),
    (10, 1, &["", "IL"]),
    (9, 1, &["", "PF"]),
    (8, 1, &["", "SP"]),
    (7, 1, &["", "WP"]),
    (6, 1, &["", "TWE"]),
    (5, 1, &["", "RE"]),
    (4, 1, &["", "WE"]),
    (3, 1, &["", "TTR"]),
    (2, 1, &["", "BPE"]),
];

/// A number made of bits, in words.
pub fn bits(value: u32, bits: &Bits) -> String {
    let words: Vec<&str> = bits
        .iter()
        .map(|(shift, width, words)| words[(value >> shift & ((1 << width) - 1)) as usize])
        .filter(|word| !word.is_empty())
        .collect();
    if words.first() == Some(&NOT_VALID) { NOT_VALID.into() } else { words.join(", ") }
}

const STATUS_REGISTER: Field = ("status register", 2, Sort::Status);
const PROGRAM_COUNTER: Field = ("program counter", 4, Sort::Address);
const FORMAT_WORD: Field = ("format/vector", 2, Sort::Format);
const EFFECTIVE_ADDRESS: Field = ("effective address", 4, Sort::Number);
const FAULT_ADDRESS: Field = ("fault address", 4, Sort::Number);

/// The frame of a 68000, which has no format.
pub const FRAME_68000: &[Field] = &[STATUS_REGISTER, PROGRAM_COUNTER];

/// The bus and address error frame of a 68000, in the order in which the code stacks its fields.
pub const ERROR_68000: &[Field] = &[
    PROGRAM_COUNTER,
    STATUS_REGISTER,
    ("instruction register", 2, Sort::Number),
    ("access address", 4, Sort::Number),
    ("access type", 2, Sort::Bits(&FAULT_68000)),
];

const FORMAT_0: &[Field] = &[STATUS_REGISTER, PROGRAM_COUNTER, FORMAT_WORD];
const FORMAT_2: &[Field] =
    &[STATUS_REGISTER, PROGRAM_COUNTER, FORMAT_WORD, ("instruction address", 4, Sort::Address)];
const FORMAT_2_FAULT: &[Field] = &[STATUS_REGISTER, PROGRAM_COUNTER, FORMAT_WORD, FAULT_ADDRESS];
const FORMAT_2_OPERAND: &[Field] =
    &[STATUS_REGISTER, PROGRAM_COUNTER, FORMAT_WORD, EFFECTIVE_ADDRESS];
const FORMAT_4: &[Field] = &[
    STATUS_REGISTER,
    PROGRAM_COUNTER,
    FORMAT_WORD,
    FAULT_ADDRESS,
    ("fault status long word", 4, Sort::Bits(&FSLW)),
];
const FORMAT_4_DISABLED: &[Field] = &[
    STATUS_REGISTER,
    PROGRAM_COUNTER,
    FORMAT_WORD,
    EFFECTIVE_ADDRESS,
    ("PC of faulted instruction", 4, Sort::Address),
];
const FORMAT_7: &[Field] = &[
    STATUS_REGISTER,
    PROGRAM_COUNTER,
    FORMAT_WORD,
    EFFECTIVE_ADDRESS,
    ("special status word", 2, Sort::Bits(&SSW_68040)),
    ("write-back 3 status", 2, Sort::Bits(&WRITE_BACK)),
    ("write-back 2 status", 2, Sort::Bits(&WRITE_BACK)),
    ("write-back 1 status", 2, Sort::Bits(&WRITE_BACK)),
    FAULT_ADDRESS,
    ("write-back 3 address", 4, Sort::Number),
    ("write-back 3 data", 4, Sort::Number),
    ("write-back 2 address", 4, Sort::Number),
    ("write-back 2 data", 4, Sort::Number),
    ("write-back 1 address", 4, Sort::Number),
    ("write-back 1 data/push data 0", 4, Sort::Number),
    ("push data 1", 4, Sort::Number),
    ("push data 2", 4, Sort::Number),
    ("push data 3", 4, Sort::Number),
];
const FORMAT_8: &[Field] = &[
    STATUS_REGISTER,
    PROGRAM_COUNTER,
    FORMAT_WORD,
    ("special status word", 2, Sort::Bits(&SSW_68010)),
    FAULT_ADDRESS,
    ("unused, reserved", 2, Sort::Internal),
    ("data output buffer", 2, Sort::Number),
    ("unused, reserved", 2, Sort::Internal),
    ("data input buffer", 2, Sort::Number),
    ("unused, reserved", 2, Sort::Internal),
    ("instruction input buffer", 2, Sort::Number),
    ("internal information", 32, Sort::Internal),
];
const FORMAT_11: &[Field] = &[
    STATUS_REGISTER,
    PROGRAM_COUNTER,
    FORMAT_WORD,
    ("internal register", 2, Sort::Internal),
    ("special status word", 2, Sort::Bits(&SSW_68020)),
    ("instruction pipe stage C", 2, Sort::Number),
    ("instruction pipe stage B", 2, Sort::Number),
    ("data cycle fault address", 4, Sort::Number),
    ("internal registers", 4, Sort::Internal),
    ("data output buffer", 4, Sort::Number),
    ("internal registers", 8, Sort::Internal),
    ("stage B address", 4, Sort::Number),
    ("internal registers", 4, Sort::Internal),
    ("data input buffer", 4, Sort::Number),
    ("internal registers", 6, Sort::Internal),
    ("version, internal information", 2, Sort::Internal),
    ("internal registers", 36, Sort::Internal),
];

/// The fields of a frame by its format word: what the third part of formats 2 and 4 holds depends on
/// the vector. None for a format that no kind takes.
pub fn layout(word: u32) -> Option<&'static [Field]> {
    let vector = word % 0x1000 / 4;
    Some(match (word >> 12, vector) {
        (0 | 1, _) => FORMAT_0,
        (2, 3) => FORMAT_2_FAULT,
        (2, 11 | 55 | 60) => FORMAT_2_OPERAND,
        (2, _) => FORMAT_2,
        (4, 11) => FORMAT_4_DISABLED,
        (4, _) => FORMAT_4,
        (7, _) => FORMAT_7,
        (8, _) => FORMAT_8,
        (11, _) => FORMAT_11,
        _ => return None,
    })
}

/// The bytes of a frame with these fields.
pub fn length(fields: &[Field]) -> usize {
    fields.iter().map(|(_, bytes, _)| bytes).sum()
}

/// What a refusal means, and what to do.
pub fn refusal(number: u32) -> (&'static str, &'static str) {
    match number {
        1 => ("an impossible mode in the record", "no session can make one: please report it"),
        2 => ("an odd vector base", "no session can set one: please report it"),
        3 => (
            "the processor's cycles are used up, after more than 46 million interrupts",
            "start anew with `kind`",
        ),
        4 => ("a function code above 7", "no session can set one: please report it"),
        5 => ("a store that is too long", "a session's store never is: please report it"),
        6 => ("too many fault windows", "a session has none: please report it"),
        7 => ("a log that is too short", "a session's log never is: please report it"),
        8 => ("there is no such vector: they go from 0 to FF", "give `exc` a number up to FF"),
        9 => ("there is no such kind: they go from 0 to 11", "give `kind` a number up to 11"),
        10 => ("too little room for the rows", "a session has room for 4096: please report it"),
        11 => (
            "the processor is in user mode, where nothing can be returned from",
            "let an entry come first: it leads back to supervisor mode",
        ),
        12 => (
            "A7 is not on a whole frame: bytes of it lie outside the store, or A7 is odd on kind 1, 2 or 10",
            "look at A7: a return too many, or an `a7` that is wrong",
        ),
        13 => (
            "what A7 is on is no frame that this kind takes: its format word has another format, or a \
             second format 1",
            "look at A7 and at the word 6 bytes above it",
        ),
        14 => ("the line is not understood", "see the lines of `./run --help`"),
        _ => ("not accepted", "please report it"),
    }
}

/// Why a line is not understood, and what to do.
pub fn wrong(wrong: Wrong) -> (&'static str, &'static str) {
    match wrong {
        Wrong::TooLong => ("the line has more than 80 bytes", "shorten it"),
        Wrong::Empty => ("the line is empty", "take it out: a session has no empty lines"),
        Wrong::CarriageReturn => (
            "the line has a carriage return, as files of some systems do",
            "save the file with line feeds alone",
        ),
        Wrong::Tab => ("the line has a tab", "put one space in its place"),
        Wrong::Spaces => (
            "a space too many: in front, at the end, or two in a row",
            "one space between fields, and no other",
        ),
        Wrong::Capital => {
            ("a capital letter in the name of the command", "write the command in small letters")
        }
        Wrong::Unknown => (
            "there is no such command",
            "the commands are kind, pc, ppc, a7, long, exc, trap, irq, walk, ret",
        ),
        Wrong::Fields => {
            ("too few or too many fields", "`long` has two numbers, `ret` none, the others one")
        }
        Wrong::Decimal => ("not a decimal number of 1 to 4 digits", "write it with 0 to 9"),
        Wrong::Hexadecimal => (
            "not a hexadecimal number of 1 to 8 digits",
            "write it with 0 to 9 and A to F, with nothing in front of it",
        ),
        Wrong::Limit => (
            "the number is too large",
            "at most 255 for `kind` and `irq`, FF for `trap`, 4096 for `walk`",
        ),
        Wrong::NotStored => {
            ("the four bytes do not all lie in the store", "give `long` an address up to FFFC")
        }
    }
}

/// What a command is for, where nobody said more.
pub fn command(command: Command) -> String {
    match command {
        Command::Kind(k) => format!("start anew with a {}; the store is all zero", kind(k)),
        Command::Pc(h) => format!("the program is to go on at {h:08X}"),
        Command::Ppc(h) => format!("the instruction under way is at {h:08X}"),
        Command::A7(h) => format!("set the stack pointer to {h:08X}"),
        Command::Long(a, v) => match u8::try_from(a / 4) {
            Ok(n) if a.is_multiple_of(4) => {
                format!("put the handler of vector {n} ({}) at {v:08X}", vector(n))
            }
            _ => format!("write {v:08X} at {a:04X}"),
        },
        Command::Exc(h) => match u8::try_from(h) {
            Ok(n) => format!("an exception by vector {n} ({})", vector(n)),
            Err(_) => format!("an exception by vector {h}"),
        },
        Command::Trap(n) => format!("the program makes its TRAP #{}", n % 16),
        Command::Irq(0) => "no device asks for an interrupt".into(),
        Command::Irq(n) if n > 7 => {
            format!("a device asks for an interrupt of level {} (the low three bits of {n})", n % 8)
        }
        Command::Irq(n) => format!("a device asks for an interrupt of level {n}"),
        Command::Walk(0) => "no rows are asked for".into(),
        Command::Walk(1) => "what a return would take off the stack".into(),
        Command::Walk(n) => format!("what {n} returns would take off the stack, the latest first"),
        Command::Ret => "return: the latest frame is taken off the stack".into(),
    }
}

/// What a line is for that is no command.
pub const NO_COMMAND: &str = "a line that is not understood";

/// What the words of a view mean, in short.
pub const LEGEND: &str = "Status: mode, mask (an interrupt is taken if its level is above it, or 7), \
    flags. A7: the stack pointer. A frame is what an entry stacks, shown from its lowest address up. \
    Addresses, bytes and statuses are hexadecimal.";

//! Test cases in text: a line says a call, a record and a store; the answer says what came of it.

use m68k_host::{Answer, Call, Core, FaultCause, Kind, Record, Refusal, Resume, Window};
use std::hint::black_box;
use std::io::Write;

/// Most bytes of a store that is accepted, and that a case says the contents of.
const STORE_LIMIT: usize = 65_536;
/// Most bytes that are lent, whatever the case says.
const LONG_LIMIT: usize = 1 << 32;
/// Most words that are lent as a log, whatever the case says: no call writes nearly as many.
const LOG_LIMIT: u32 = 65_536;
/// Most words that are lent for rows.
const ROWS_LIMIT: u32 = 1 << 20;
/// What log and rows hold before a call.
const UNWRITTEN: u32 = 0xA5C3_96F0;

/// What a case asks for.
#[derive(Clone, Copy)]
pub(crate) enum Wanted {
    Call(Call),
    Return,
    /// A walk of n into a buffer of so many words.
    Walk {
        n: u32,
        words: u32,
    },
}

/// Answers cases; its buffers serve one case after the other. The bus keeps the number of events of
/// the case before, which a call must not mind.
pub struct Cases {
    pub(crate) core: Core,
    pub(crate) log: Vec<u32>,
    pub(crate) rows: Vec<u32>,
    /// The bytes that a case says, 65,536 at most.
    pub(crate) store: Vec<u8>,
    before: Vec<u8>,
    /// Bytes that are lent.
    len: u64,
    /// What is lent of a longer store: zero after the bytes that the case says.
    long: Vec<u8>,
}

/// What a call, a return or a walk said, in numbers.
struct Said {
    refused: u32,
    answer: u32,
    events: u32,
    /// Rows of a return or a walk.
    rows: u32,
}

/// What a line says beside the call.
struct Draft<'a> {
    record: Record,
    base: u32,
    windows: Vec<Window>,
    responses: [u32; 8],
    len: u64,
    fill: u32,
    patch: &'a str,
    log: u32,
}

type Set = Result<(), String>;

impl Default for Cases {
    fn default() -> Cases {
        Cases::new()
    }
}

impl Cases {
    /// Buffers for cases.
    pub fn new() -> Cases {
        Cases {
            core: Core::fresh(Kind::Invalid),
            log: vec![],
            rows: vec![],
            store: vec![],
            before: vec![],
            len: 0,
            long: vec![],
        }
    }

    /// Puts the answer of a line into `out`, without a line end; what follows ` => ` is not looked at.
    pub fn answer(&mut self, line: &str, out: &mut Vec<u8>) {
        out.clear();
        if let Err(reason) = self.try_answer(line, out) {
            out.clear();
            out.extend_from_slice(b"error: ");
            out.extend_from_slice(reason.as_bytes());
        }
    }

    /// Whether the call of a line goes the fast way; none where it asks for no call, or for one that is refused.
    #[cfg(feature = "ways")]
    pub fn is_fast(&mut self, input: &str) -> Option<bool> {
        let Ok(Wanted::Call(call)) = self.read(input) else { return None };
        let Cases { core, log, store, len, .. } = self;
        (*len <= STORE_LIMIT as u64).then(|| core.is_fast(call, store, log))
    }

    fn try_answer(&mut self, line: &str, out: &mut Vec<u8>) -> Result<(), String> {
        let input = line.split_once(" => ").map_or(line, |p| p.0);
        let wanted = self.read(input)?;
        self.perform(wanted, out)
    }

    /// Does what was read, and puts the answer into `out`.
    pub(crate) fn perform(&mut self, wanted: Wanted, out: &mut Vec<u8>) -> Result<(), String> {
        let before = self.core.clone();
        let said =
            if self.len > STORE_LIMIT as u64 { self.ask_long(wanted)? } else { self.ask(wanted)? };
        // Return and walk have no events and leave the count.
        let counted = said.refused == 0 && matches!(wanted, Wanted::Call(_));
        let (events, held) = (self.core.events(), before.events());
        if events != if counted { said.events } else { held } {
            return Err(format!("the bus counts {events} events"));
        }
        let mut bus = self.core.clone();
        bus.set_record(&before.record());
        bus.set_events(held);
        if bus != before {
            return Err("the bus was changed".into());
        }
        self.show(&before.record(), &said, out)
    }

    /// Hands it over the boundary.
    fn ask(&mut self, wanted: Wanted) -> Result<Said, String> {
        let Cases { core, log, rows, store, .. } = self;
        wanted.ask(core, store, log, rows)
    }

    /// A call on a store that is longer than any that is accepted, really lent.
    fn ask_long(&mut self, wanted: Wanted) -> Result<Said, String> {
        if self.long.is_empty() {
            self.long = room();
        }
        let len = self.long.len().min(usize::try_from(self.len).unwrap_or(usize::MAX));
        let long = &mut self.long[..len];
        long[..STORE_LIMIT].copy_from_slice(&self.store);
        let said = wanted.ask(&mut self.core, long, &mut self.log, &mut self.rows)?;
        self.store.copy_from_slice(&long[..STORE_LIMIT]);
        // Of a very long one, its ends: the rest was never touched and is not to be.
        let rest = &long[STORE_LIMIT..];
        let ends =
            [&rest[..rest.len().min(STORE_LIMIT)], &rest[rest.len().saturating_sub(STORE_LIMIT)..]];
        if ends.iter().any(|end| end.iter().any(|&byte| byte != 0)) {
            return Err("the store was written behind its first 65,536 bytes".into());
        }
        Ok(said)
    }

    /// The answer in text: what the call said, and what it left of record, store, log and rows.
    fn show(&self, before: &Record, said: &Said, out: &mut Vec<u8>) -> Result<(), String> {
        let events = written(&self.log, said.events, 3).map_err(|e| format!("events: {e}"))?;
        let rows = written(&self.rows, said.rows, 4).map_err(|e| format!("rows: {e}"))?;
        let Said { refused, answer, events: count, .. } = said;
        write!(out, "refused={refused} ans={answer} nev={count} ev=").unwrap();
        show_list(out, events, 3, b':');
        out.extend_from_slice(b" rows=");
        show_list(out, rows, 4, b'.');
        out.extend_from_slice(b" chg=");
        show_changes(out, &self.before, &self.store);
        out.extend_from_slice(b" status=");
        self.core.get_sr().show(out);
        show_changed(out, before, &self.core.record());
        Ok(())
    }

    /// Reads an input: what it asks for; core, store, log and rows are laid ready.
    pub(crate) fn read(&mut self, input: &str) -> Result<Wanted, String> {
        let mut pairs = [(0, ""); NAMES.len()];
        let (mut count, mut seen, mut next) = (0, 0u64, 0);
        for part in parts(input, b' ') {
            let (name, value) =
                cut(part, b'=').ok_or_else(|| format!("`{part}` is no name=value"))?;
            let place = find(name, next).ok_or_else(|| format!("{name}: no such field"))?;
            if seen & 1 << place != 0 {
                return Err(format!("`{name}` stands twice"));
            }
            seen |= 1 << place;
            next = place + 1;
            pairs[count] = (place, value);
            count += 1;
        }
        let pairs = &pairs[..count];
        let value_of = |place| pairs.iter().find(|p| p.0 == place).map(|p| p.1);
        let wanted = read_wanted(value_of(CALL).ok_or("no call")?)?;
        let kind: u8 = decimal(value_of(KIND).ok_or("no kind")?)?;
        let mut draft = Draft::fresh(kind);
        for &(place, value) in pairs {
            let (name, set) = NAMES[place];
            set(&mut draft, value).map_err(|e| format!("{name}: {e}"))?;
        }
        self.lay_store(draft.len, draft.fill, draft.patch).map_err(|e| format!("patch: {e}"))?;
        for (place, words) in
            [(&mut self.log, draft.log.min(LOG_LIMIT)), (&mut self.rows, wanted.row_words()?)]
        {
            place.clear();
            place.resize(words as usize, UNWRITTEN);
        }
        draft.lay(&mut self.core);
        Ok(wanted)
    }

    /// The store and a copy of it: fill and patches. Of a length over 65,536 the first 65,536 bytes.
    fn lay_store(&mut self, len: u64, fill: u32, patch: &str) -> Set {
        let size = len.min(STORE_LIMIT as u64) as usize;
        self.len = len;
        let store = &mut self.store;
        store.clear();
        store.resize(size, 0);
        if fill != 0 {
            let row: [u8; 256] =
                std::array::from_fn(|i| (i as u8).wrapping_mul(31).wrapping_add(fill as u8));
            for (high, part) in store.chunks_mut(256).enumerate() {
                for (byte, r) in part.iter_mut().zip(row) {
                    *byte = r ^ high as u8;
                }
            }
        }
        for item in items(patch) {
            let (at, bytes) = pair(item)?;
            let at = u32::read(at)? as usize;
            if bytes.is_empty() || !bytes.len().is_multiple_of(2) {
                return Err(format!("`{bytes}` is no row of bytes"));
            }
            let place = store.get_mut(at..at + bytes.len() / 2).ok_or("outside the store")?;
            for (byte, digits) in place.iter_mut().zip(bytes.as_bytes().chunks(2)) {
                match (digit(digits[0]), digit(digits[1])) {
                    (Some(high), Some(low)) => *byte = (high << 4 | low) as u8,
                    _ => return Err(format!("`{bytes}` is no row of bytes")),
                }
            }
        }
        self.before.clear();
        self.before.extend_from_slice(&self.store);
        Ok(())
    }
}

impl Draft<'_> {
    fn fresh(kind: u8) -> Self {
        Draft {
            record: Record::fresh(kind),
            base: 0,
            windows: vec![],
            responses: [u32::MAX; 8],
            len: STORE_LIMIT as u64,
            fill: 0,
            patch: "-",
            log: 192,
        }
    }

    /// The core as it says; the count of events stays.
    fn lay(&self, core: &mut Core) {
        core.set_record(&self.record);
        core.set_base(self.base);
        core.set_windows(&self.windows);
        *core.responses_mut() = self.responses;
    }
}

impl Wanted {
    /// Words to lend for rows. Of more than there is room for so many, where that answers the same: n rows
    /// fit in, or not even in what the case has.
    fn row_words(self) -> Result<u32, String> {
        match self {
            Wanted::Call(_) => Ok(0),
            // For its one row, as the text has it.
            Wanted::Return => Ok(4),
            Wanted::Walk { n, words } => {
                let needed = u64::from(n) * 4;
                if needed > ROWS_LIMIT.into() && needed <= words.into() {
                    return Err(format!("walk: more than {ROWS_LIMIT} words of rows"));
                }
                Ok(words.min(ROWS_LIMIT))
            }
        }
    }

    /// Hands it over the boundary.
    fn ask(
        self,
        core: &mut Core,
        store: &mut [u8],
        log: &mut [u32],
        rows: &mut [u32],
    ) -> Result<Said, String> {
        let number = |refused: Option<Refusal>| refused.map_or(0, Refusal::number);
        Ok(match self {
            Wanted::Call(call) => {
                let done = both_ways(core, call, store, log)?;
                let (answer, events) = done.map_or((0, 0), |a| (a.number(), a.count()));
                Said { refused: number(done.err()), answer, events, rows: 0 }
            }
            Wanted::Return => {
                let done = core.return_from(store);
                if let Ok(row) = done {
                    rows.copy_from_slice(&<[u32; 4]>::from(row));
                }
                let rows = u32::from(done.is_ok());
                Said { refused: number(done.err()), answer: 0, events: 0, rows }
            }
            Wanted::Walk { n, .. } => {
                let done = core.walk(n, store, rows);
                let (answer, rows) = (done.count, done.count);
                Said { refused: number(done.refused), answer, events: 0, rows }
            }
        })
    }
}

/// A call; where it has an export of its own, that is asked too, and must say and leave the same.
fn both_ways(
    core: &mut Core,
    call: Call,
    store: &mut [u8],
    log: &mut [u32],
) -> Result<Result<Answer, Refusal>, String> {
    let alone = |core: &mut Core, store: &mut [u8], log: &mut [u32]| match call {
        Call::TakeException(vector) => Some(core.take_exception(vector, store, log)),
        Call::CheckAndServiceInterrupts => Some(core.check_and_service_interrupts(store, log)),
        _ => None,
    };
    if !matches!(call, Call::TakeException(_) | Call::CheckAndServiceInterrupts) {
        return Ok(core.call(call, store, log));
    }
    // A store that is too long is refused, so that nothing changes and no copy of it is needed.
    let (mut other, mut words) = (core.clone(), log.to_vec());
    let mut bytes = if store.len() > STORE_LIMIT { vec![] } else { store.to_vec() };
    let lent = if store.len() > STORE_LIMIT { &mut *store } else { &mut bytes[..] };
    let own = alone(&mut other, lent, &mut words);
    let done = core.call(call, store, log);
    let same = store.len() > STORE_LIMIT || bytes == store;
    if own != Some(done) || !same || other != *core || words != log {
        return Err(format!("{call}: its own export says or leaves something else"));
    }
    Ok(done)
}

/// The words of so many items that were written; all behind them must be as they were.
fn written(words: &[u32], count: u32, size: usize) -> Result<&[u32], String> {
    let Some((items, rest)) = words.split_at_checked((count as usize).saturating_mul(size)) else {
        return Err("more than there is room for".into());
    };
    if rest.iter().any(|&w| w != UNWRITTEN) {
        return Err("words behind them were written".into());
    }
    Ok(items)
}

/// Room for long stores, zero and not touched, so that it costs addresses and no memory. Where there is
/// none for 2^32 bytes, one more than is accepted must do.
fn room() -> Vec<u8> {
    let mut probe: Vec<u8> = vec![];
    if probe.try_reserve_exact(LONG_LIMIT).is_ok() {
        drop(black_box(probe));
        return vec![0; LONG_LIMIT];
    }
    eprintln!("cases: no room for stores of more than {} bytes", STORE_LIMIT + 1);
    vec![0; STORE_LIMIT + 1]
}

/// One value of the text format.
trait Value: Sized {
    fn read(s: &str) -> Result<Self, String>;
    fn show(&self, out: &mut Vec<u8>);
}

fn digit(byte: u8) -> Option<u32> {
    match byte {
        b'0'..=b'9' => Some(u32::from(byte - b'0')),
        b'a'..=b'f' => Some(u32::from(byte - b'a' + 10)),
        _ => None,
    }
}

/// Bare lower-case hexadecimal of at most 8 digits.
fn hex(s: &str) -> Result<u32, String> {
    let wrong = || format!("`{s}` is no number of lower-case hexadecimal");
    if s.is_empty() || s.len() > 8 {
        return Err(wrong());
    }
    let mut number = 0;
    for byte in s.bytes() {
        number = number << 4 | digit(byte).ok_or_else(wrong)?;
    }
    Ok(number)
}

fn show_hex(out: &mut Vec<u8>, number: u32) {
    let digits = (35 - (number | 1).leading_zeros()) / 4;
    for i in (0..digits).rev() {
        out.push(b"0123456789abcdef"[(number >> (4 * i) & 15) as usize]);
    }
}

fn decimal<T: std::str::FromStr>(s: &str) -> Result<T, String> {
    let digits = s.strip_prefix('-').unwrap_or(s);
    if digits.is_empty() || !digits.bytes().all(|b| b.is_ascii_digit()) {
        return Err(format!("`{s}` is no decimal number"));
    }
    s.parse().map_err(|_| format!("`{s}` is out of range"))
}

macro_rules! hexadecimal {
    ($($t:ty)*) => { $(impl Value for $t {
        fn read(s: &str) -> Result<Self, String> {
            <$t>::try_from(hex(s)?).map_err(|_| format!("`{s}` is out of range"))
        }
        fn show(&self, out: &mut Vec<u8>) {
            show_hex(out, (*self).into());
        }
    })* };
}
hexadecimal!(u8 u16 u32);

impl Value for bool {
    fn read(s: &str) -> Result<Self, String> {
        match s {
            "0" => Ok(false),
            "1" => Ok(true),
            _ => Err(format!("`{s}` is neither 0 nor 1")),
        }
    }
    fn show(&self, out: &mut Vec<u8>) {
        out.push(if *self { b'1' } else { b'0' });
    }
}

/// The one signed number, decimal.
impl Value for i32 {
    fn read(s: &str) -> Result<Self, String> {
        decimal(s)
    }
    fn show(&self, out: &mut Vec<u8>) {
        write!(out, "{self}").unwrap();
    }
}

impl<T: Value + Copy + Default, const N: usize> Value for [T; N] {
    fn read(s: &str) -> Result<Self, String> {
        let mut out = [T::default(); N];
        let mut parts = parts(s, b'.');
        for place in &mut out {
            *place = T::read(parts.next().ok_or_else(|| format!("`{s}` has not {N} values"))?)?;
        }
        match parts.next() {
            None => Ok(out),
            Some(_) => Err(format!("`{s}` has not {N} values")),
        }
    }
    fn show(&self, out: &mut Vec<u8>) {
        for (i, value) in self.iter().enumerate() {
            if i > 0 {
                out.push(b'.');
            }
            value.show(out);
        }
    }
}

impl<T: Value> Value for Option<T> {
    fn read(s: &str) -> Result<Self, String> {
        if s == "-" { Ok(None) } else { T::read(s).map(Some) }
    }
    fn show(&self, out: &mut Vec<u8>) {
        match self {
            None => out.push(b'-'),
            Some(value) => value.show(out),
        }
    }
}

/// By its number, 0 for none.
impl Value for Option<FaultCause> {
    fn read(s: &str) -> Result<Self, String> {
        match u8::read(s)? {
            0 => Ok(None),
            number => FaultCause::try_from(number).map(Some).map_err(|_| "above 8".into()),
        }
    }
    fn show(&self, out: &mut Vec<u8>) {
        FaultCause::number(*self).show(out);
    }
}

impl Value for Resume {
    fn read(s: &str) -> Result<Self, String> {
        let mut parts = s.splitn(3, '.');
        let mut next = || parts.next().ok_or_else(|| format!("`{s}` has not 18 values"));
        Ok(Resume {
            pc: Value::read(next()?)?,
            sr: Value::read(next()?)?,
            dar: Value::read(next()?)?,
        })
    }
    fn show(&self, out: &mut Vec<u8>) {
        self.pc.show(out);
        out.push(b'.');
        self.sr.show(out);
        out.push(b'.');
        self.dar.show(out);
    }
}

/// What stands before and after the first separator. Parts are short: this is quicker than `split_once`.
fn cut(s: &str, by: u8) -> Option<(&str, &str)> {
    let at = s.bytes().position(|b| b == by)?;
    Some((&s[..at], &s[at + 1..]))
}

/// The parts between separators.
fn parts(s: &str, by: u8) -> impl Iterator<Item = &str> {
    let mut rest = Some(s);
    std::iter::from_fn(move || {
        let s = rest?;
        let (part, after) = cut(s, by).map_or((s, None), |(part, after)| (part, Some(after)));
        rest = after;
        Some(part)
    })
}

fn pair(s: &str) -> Result<(&str, &str), String> {
    cut(s, b':').ok_or_else(|| format!("`{s}` has no colon"))
}

/// The items of a list; `-` is the empty one.
fn items(s: &str) -> impl Iterator<Item = &str> {
    parts(s, b',').filter(move |_| s != "-")
}

/// Where a name stands in `NAMES`; most often at the place that is looked at first.
fn find(name: &str, first: usize) -> Option<usize> {
    if NAMES.get(first).is_some_and(|n| n.0 == name) {
        return Some(first);
    }
    NAMES.iter().position(|n| n.0 == name)
}

type Setter = for<'a> fn(&mut Draft<'a>, &'a str) -> Set;

/// Places of these two names.
const CALL: usize = 0;
const KIND: usize = 1;

macro_rules! names {
    (record $($f:ident)*; rest $($name:literal $set:expr;)*) => {
        /// The names of an input in their order, then the shorthands; each with what sets it.
        const NAMES: &[(&str, Setter)] = &[
            ("call", |_, _| Ok(())),
            ("kind", |_, _| Ok(())),
            $((stringify!($f), |d, v| {
                d.record.$f = Value::read(v)?;
                Ok(())
            }),)*
            $(($name, $set),)*
        ];

        /// The kind and the fields that differ, each after a space.
        fn show_changed(out: &mut Vec<u8>, before: &Record, after: &Record) {
            if before.cpu_type != after.cpu_type {
                write!(out, " kind={}", after.cpu_type).unwrap();
            }
            $(if before.$f != after.$f {
                out.extend_from_slice(concat!(" ", stringify!($f), "=").as_bytes());
                after.$f.show(out);
            })*
        }
    };
}

/// Sets a place to what a value says.
fn put<T: Value>(place: &mut T, value: &str) -> Set {
    *place = T::read(value)?;
    Ok(())
}

names! {
    record dar dar_save sr_save ppc pc sp vbr ir fpiar t1_flag t0_flag s_flag m_flag x_flag n_flag
    not_z_flag v_flag c_flag int_mask int_level stopped change_of_flow loop_mode prefetch_queue
    prefetch_count pending_sync_clocks precise_bus run_mode exception_processing
    instruction_exception_vector last_exception_vector pending_fault_cause mmu_fc_override
    pending_fault_wdata fault_resume cycles_remaining;
    rest
    "base" |d, v| put(&mut d.base, v);
    "len" |d, v| {
        d.len = decimal(v)?;
        Ok(())
    };
    "fill" |d, v| put(&mut d.fill, v);
    "patch" |d, v| {
        d.patch = v;
        Ok(())
    };
    "win" |d, v| {
        for item in items(v) {
            let (start, length) = pair(item)?;
            d.windows.push(Window { start: Value::read(start)?, length: Value::read(length)? });
        }
        Ok(())
    };
    "ack" |d, v| put(&mut d.responses, v);
    "log" |d, v| {
        d.log = decimal(v)?;
        Ok(())
    };
    "status" |d, v| {
        set_status(&mut d.record, Value::read(v)?);
        Ok(())
    };
    "a7" |d, v| put(&mut d.record.dar[15], v);
    "a7_save" |d, v| put(&mut d.record.dar_save[15], v);
    "usp" |d, v| put(&mut d.record.sp[0], v);
    "isp" |d, v| put(&mut d.record.sp[4], v);
    "msp" |d, v| put(&mut d.record.sp[6], v);
}

/// All flags from a status, unmasked; stacks are left alone.
fn set_status(r: &mut Record, status: u16) {
    let sr = u32::from(status);
    let set = |bit: u32, value: u32| if sr & bit != 0 { value } else { 0 };
    r.t1_flag = sr & 0x8000;
    r.t0_flag = sr & 0x4000;
    r.s_flag = set(0x2000, 4);
    r.m_flag = set(0x1000, 2);
    r.int_mask = sr & 0x0700;
    r.x_flag = set(0x10, 0x100);
    r.n_flag = set(0x08, 0x80);
    r.not_z_flag = u32::from(sr & 0x04 == 0);
    r.v_flag = set(0x02, 0x80);
    r.c_flag = set(0x01, 0x100);
}

/// The arguments of a call.
struct Arguments<'a> {
    name: &'a str,
    parts: std::str::Split<'a, char>,
}

impl Arguments<'_> {
    fn next<T: Value>(&mut self) -> Result<T, String> {
        let name = self.name;
        let part = self.parts.next().ok_or_else(|| format!("{name}: too few arguments"))?;
        T::read(part).map_err(|e| format!("{name}: {e}"))
    }
}

/// What a case asks for, with its arguments.
fn read_wanted(s: &str) -> Result<Wanted, String> {
    let mut parts = s.split(':');
    let name = parts.next().unwrap();
    let mut a = Arguments { name, parts };
    let wanted = match name {
        "return" => Wanted::Return,
        "walk" => Wanted::Walk { n: a.next()?, words: a.next()? },
        _ => Wanted::Call(read_call(&mut a)?),
    };
    match a.parts.next() {
        None => Ok(wanted),
        Some(_) => Err(format!("{name}: too many arguments")),
    }
}

fn read_call(a: &mut Arguments) -> Result<Call, String> {
    Ok(match a.name {
        "take_exception" => Call::TakeException(a.next()?),
        "trap" => Call::Trap(a.next()?),
        "take_group2_exception" => Call::TakeGroup2Exception(a.next()?),
        "exception_chk" => Call::ExceptionChk,
        "exception_zero_divide" => Call::ExceptionZeroDivide,
        "exception_privilege" => Call::ExceptionPrivilege,
        "exception_trace" => Call::ExceptionTrace,
        "exception_address_error" => Call::ExceptionAddressError {
            address: a.next()?,
            write: a.next()?,
            instruction: a.next()?,
        },
        "exception_bus_error" => Call::ExceptionBusError {
            address: a.next()?,
            write: a.next()?,
            instruction: a.next()?,
            size: a.next()?,
            cause: a.next()?,
        },
        "take_fp_unimp_060" => Call::TakeFpUnimp060(a.next()?),
        "take_fp_disabled_060" => Call::TakeFpDisabled060,
        "take_aline_exception" => Call::TakeAlineException,
        "take_fline_exception" => Call::TakeFlineException,
        "take_trap_exception" => Call::TakeTrapException(a.next()?),
        "take_bkpt_exception" => Call::TakeBkptException,
        "take_illegal_exception" => Call::TakeIllegalException,
        "trigger_address_error" => Call::TriggerAddressError {
            address: a.next()?,
            write: a.next()?,
            instruction: a.next()?,
        },
        "trigger_bus_error" => Call::TriggerBusError {
            address: a.next()?,
            write: a.next()?,
            instruction: a.next()?,
            size: a.next()?,
        },
        "check_trace" => Call::CheckTrace,
        "set_irq" => Call::SetIrq(a.next()?),
        "check_interrupts" => Call::CheckInterrupts,
        "check_and_service_interrupts" => Call::CheckAndServiceInterrupts,
        "read_16" => Call::Read16(a.next()?),
        "read_32" => Call::Read32(a.next()?),
        "write_16" => Call::Write16(a.next()?, a.next()?),
        "write_32" => Call::Write32(a.next()?, a.next()?),
        "push_16" => Call::Push16(a.next()?),
        "push_32" => Call::Push32(a.next()?),
        "prefetch_first" => Call::PrefetchFirst,
        "prefetch_second" => Call::PrefetchSecond,
        name => return Err(format!("`{name}` is no call")),
    })
}

/// The words of items of so many, `-` for none.
fn show_list(out: &mut Vec<u8>, words: &[u32], size: usize, between: u8) {
    if words.is_empty() {
        out.push(b'-');
    }
    for (i, &word) in words.iter().enumerate() {
        if i > 0 {
            out.push(if i % size == 0 { b',' } else { between });
        }
        show_hex(out, word);
    }
}

/// The runs of bytes that differ.
fn show_changes(out: &mut Vec<u8>, before: &[u8], after: &[u8]) {
    const PART: usize = 128;
    let start = out.len();
    // The place behind the last differing byte.
    let mut end = usize::MAX;
    for (part, (old, new)) in before.chunks(PART).zip(after.chunks(PART)).enumerate() {
        if old == new {
            continue;
        }
        for (i, (old, new)) in old.iter().zip(new).enumerate() {
            if old == new {
                continue;
            }
            let at = part * PART + i;
            if at != end {
                if out.len() > start {
                    out.push(b',');
                }
                show_hex(out, at as u32);
                out.push(b':');
            }
            show_hex(out, u32::from(new >> 4));
            show_hex(out, u32::from(new & 15));
            end = at + 1;
        }
    }
    if out.len() == start {
        out.push(b'-');
    }
}

#[cfg(test)]
mod tests {
    use super::*;
    use crate::random::{Numbers, any_call, any_record};
    use std::collections::{BTreeMap, BTreeSet};

    /// The fields by their names in the text, as the derived text has them: all that there are.
    fn fields(record: &Record) -> BTreeMap<String, String> {
        let text = format!("{record:#?}");
        let mut fields: BTreeMap<String, String> = BTreeMap::new();
        let mut last = String::new();
        for line in text.lines() {
            if let Some(field) = line.strip_prefix("    ")
                && !field.starts_with([' ', ']', ')', '}'])
            {
                let name = field.split(':').next().unwrap();
                last = if name == "cpu_type" { "kind" } else { name }.into();
            }
            fields.entry(last.clone()).or_default().push_str(line);
        }
        fields
    }

    /// Every call is read as it is written.
    #[test]
    fn calls_are_read_as_they_are_written() {
        let (mut numbers, mut seen) = (Numbers(1), BTreeSet::new());
        for _ in 0..2000 {
            let call = any_call(&mut numbers);
            let read = read_wanted(&call.to_string());
            assert!(matches!(read, Ok(Wanted::Call(same)) if same == call), "{call}");
            seen.insert(call.number());
        }
        assert!(seen.into_iter().eq(1..=30));
    }

    #[test]
    fn every_field_that_differs_is_shown() {
        let (mut numbers, mut seen) = (Numbers(7), BTreeSet::new());
        for _ in 0..100 {
            let (before, after) = (any_record(&mut numbers), any_record(&mut numbers));
            let (old, new) = (fields(&before), fields(&after));
            let differing: BTreeSet<_> =
                old.keys().filter(|&n| old[n] != new[n]).cloned().collect();
            let mut out = vec![];
            show_changed(&mut out, &before, &after);
            let text = String::from_utf8(out).unwrap();
            let shown = text.split(' ').skip(1).map(|part| part.split('=').next().unwrap().into());
            assert_eq!(shown.collect::<BTreeSet<String>>(), differing);
            seen.extend(differing);
        }
        assert_eq!(seen.len(), 37, "{seen:?}");
        assert!(seen.contains("kind"));
    }
}

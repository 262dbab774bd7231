//! The text format of cases: reading an input, writing an input and an output.

use crate::case::{Call, Case, Outcome, Row, Store};
use crate::record::{Record, Resume};
use std::fmt::Write;

/// One value of the text format.
trait Value: Sized {
    fn read(s: &str) -> Result<Self, String>;
    fn show(&self, out: &mut String);
}

/// Bare lower-case hexadecimal of at most 8 digits.
fn hex(s: &str) -> Result<u32, String> {
    let good = |b: u8| matches!(b, b'0'..=b'9' | b'a'..=b'f');
    if s.is_empty() || s.len() > 8 || !s.bytes().all(good) {
        return Err(format!("`{s}` is no number of lower-case hexadecimal"));
    }
    Ok(u32::from_str_radix(s, 16).unwrap())
}

/// Bare lower-case hexadecimal, as `{:x}`; most of a case is such numbers, and this is quicker.
fn show_hex(out: &mut String, number: u32) {
    let digits = number.checked_ilog2().unwrap_or(0) / 4;
    for i in (0..=digits).rev() {
        out.push(char::from(b"0123456789abcdef"[(number >> (4 * i) & 15) as usize]));
    }
}

fn decimal<T: std::str::FromStr>(s: &str) -> Result<T, String> {
    let digits = s.strip_prefix('-').unwrap_or(s);
    if digits.is_empty() || !digits.bytes().all(|b| b.is_ascii_digit()) {
        return Err(format!("`{s}` is no decimal number"));
    }
    s.parse().map_err(|_| format!("`{s}` is out of range"))
}

macro_rules! hexadecimal {
    ($($t:ty)*) => { $(impl Value for $t {
        fn read(s: &str) -> Result<Self, String> {
            <$t>::try_from(hex(s)?).map_err(|_| format!("`{s}` is out of range"))
        }
        fn show(&self, out: &mut String) {
            show_hex(out, (*self).into());
        }
    })* };
}
hexadecimal!(u8 u16 u32);

impl Value for bool {
    fn read(s: &str) -> Result<Self, String> {
        match s {
            "0" => Ok(false),
            "1" => Ok(true),
            _ => Err(format!("`{s}` is neither 0 nor 1")),
        }
    }
    fn show(&self, out: &mut String) {
        out.push(if *self { '1' } else { '0' });
    }
}

/// The one signed number, decimal.
impl Value for i32 {
    fn read(s: &str) -> Result<Self, String> {
        decimal(s)
    }
    fn show(&self, out: &mut String) {
        write!(out, "{self}").unwrap();
    }
}

impl<T: Value + Copy + Default, const N: usize> Value for [T; N] {
    fn read(s: &str) -> Result<Self, String> {
        let mut out = [T::default(); N];
        let parts: Vec<&str> = s.split('.').collect();
        if parts.len() != N {
            return Err(format!("`{s}` has {} values, not {N}", parts.len()));
        }
        for (place, part) in out.iter_mut().zip(parts) {
            *place = T::read(part)?;
        }
        Ok(out)
    }
    fn show(&self, out: &mut String) {
        joined(out, '.', self, |out, v| v.show(out));
    }
}

impl<T: Value> Value for Option<T> {
    fn read(s: &str) -> Result<Self, String> {
        if s == "-" { Ok(None) } else { T::read(s).map(Some) }
    }
    fn show(&self, out: &mut String) {
        match self {
            None => out.push('-'),
            Some(v) => v.show(out),
        }
    }
}

impl Value for Resume {
    fn read(s: &str) -> Result<Self, String> {
        let [pc, status, ..] = <[u32; 18]>::read(s)?;
        let registers = s.splitn(3, '.').nth(2).unwrap();
        let status = u16::try_from(status).map_err(|_| format!("`{s}`: status out of range"))?;
        Ok((pc, status, Value::read(registers)?))
    }
    fn show(&self, out: &mut String) {
        write!(out, "{:x}.{:x}.", self.0, self.1).unwrap();
        self.2.show(out);
    }
}

/// Values with a separator between.
fn joined<T>(out: &mut String, by: char, list: &[T], show: impl Fn(&mut String, &T)) {
    for (i, v) in list.iter().enumerate() {
        if i > 0 {
            out.push(by);
        }
        show(out, v);
    }
}

/// A list, or `-` where it is empty.
fn listed<T>(out: &mut String, list: &[T], show: impl Fn(&mut String, &T)) {
    if list.is_empty() {
        out.push('-');
    }
    joined(out, ',', list, show);
}

fn read_list<T>(s: &str, item: impl Fn(&str) -> Result<T, String>) -> Result<Vec<T>, String> {
    if s == "-" { Ok(vec![]) } else { s.split(',').map(item).collect() }
}

macro_rules! fields {
    ($($f:ident)*) => {
        /// Sets the field of that name; false where there is none.
        fn set_field(r: &mut Record, name: &str, value: &str) -> Result<bool, String> {
            match name {
                $(stringify!($f) => r.$f = Value::read(value)?,)*
                _ => return Ok(false),
            }
            Ok(true)
        }

        /// Every field, each after a space.
        fn show_fields(out: &mut String, r: &Record) {
            $(out.push_str(concat!(" ", stringify!($f), "="));
            r.$f.show(out);)*
        }

        /// The fields that differ, each after a space.
        fn show_changed(out: &mut String, before: &Record, after: &Record) {
            $(if before.$f != after.$f {
                out.push_str(concat!(" ", stringify!($f), "="));
                after.$f.show(out);
            })*
        }
    };
}
fields!(dar dar_save sr_save ppc pc sp vbr ir fpiar t1_flag t0_flag s_flag m_flag x_flag n_flag
    not_z_flag v_flag c_flag int_mask int_level stopped change_of_flow loop_mode prefetch_queue
    prefetch_count pending_sync_clocks precise_bus run_mode exception_processing
    instruction_exception_vector last_exception_vector pending_fault_cause mmu_fc_override
    pending_fault_wdata fault_resume cycles_remaining);

/// Shorthands of hand-written inputs; false where the name is none of them.
fn set_shorthand(r: &mut Record, name: &str, value: &str) -> Result<bool, String> {
    let place = match name {
        "status" => {
            set_status(r, Value::read(value)?);
            return Ok(true);
        }
        "a7" => &mut r.dar[15],
        "a7_save" => &mut r.dar_save[15],
        "usp" => &mut r.sp[0],
        "isp" => &mut r.sp[4],
        "msp" => &mut r.sp[6],
        _ => return Ok(false),
    };
    *place = Value::read(value)?;
    Ok(true)
}

/// All flags from a status, unmasked, stacks left alone.
pub fn set_status(r: &mut Record, status: u16) {
    let sr = u32::from(status);
    let set = |bit: u32, value: u32| if sr & bit != 0 { value } else { 0 };
    r.t1_flag = sr & 0x8000;
    r.t0_flag = sr & 0x4000;
    r.s_flag = set(0x2000, 4);
    r.m_flag = set(0x1000, 2);
    r.int_mask = sr & 0x0700;
    r.x_flag = set(0x10, 0x100);
    r.n_flag = set(0x08, 0x80);
    r.not_z_flag = u32::from(sr & 0x04 == 0);
    r.v_flag = set(0x02, 0x80);
    r.c_flag = set(0x01, 0x100);
}

fn read_bytes(s: &str) -> Result<Vec<u8>, String> {
    if s.is_empty() || !s.len().is_multiple_of(2) || !s.is_ascii() {
        return Err(format!("`{s}` is no row of bytes"));
    }
    (0..s.len()).step_by(2).map(|i| u8::read(&s[i..i + 2])).collect()
}

fn pair(s: &str) -> Result<(&str, &str), String> {
    s.split_once(':').ok_or(format!("`{s}` has no colon"))
}

/// Sets a part of the store; false where the name is none.
fn set_store(store: &mut Store, name: &str, value: &str) -> Result<bool, String> {
    match name {
        "base" => store.base = Value::read(value)?,
        "len" => store.len = decimal(value)?,
        "fill" => store.fill = Value::read(value)?,
        "patch" => {
            store.patch = read_list(value, |s| {
                let (at, bytes) = pair(s)?;
                Ok((Value::read(at)?, read_bytes(bytes)?))
            })?;
        }
        "win" => {
            store.win = read_list(value, |s| {
                let (start, length) = pair(s)?;
                Ok((Value::read(start)?, Value::read(length)?))
            })?;
        }
        "ack" => store.ack = Value::read(value)?,
        _ => return Ok(false),
    }
    Ok(true)
}

/// Reads an input; what follows ` => ` is not looked at.
pub fn parse(line: &str) -> Result<Case, String> {
    let input = line.split(" => ").next().unwrap();
    let mut seen = vec![];
    let mut pairs = vec![];
    for part in input.split(' ') {
        let (name, value) = part.split_once('=').ok_or(format!("`{part}` is no name=value"))?;
        if seen.contains(&name) {
            return Err(format!("`{name}` stands twice"));
        }
        seen.push(name);
        pairs.push((name, value));
    }
    let find = |wanted| pairs.iter().find(|(name, _)| *name == wanted).map(|p| p.1);
    let call = parse_call(find("call").ok_or("no call")?)?;
    let kind: u8 = decimal(find("kind").ok_or("no kind")?)?;
    let mut case =
        Case { call, kind, record: Record::fresh(kind), store: Store::fresh(), log: 192 };
    for (name, value) in pairs {
        set(&mut case, name, value).map_err(|e| format!("{name}: {e}"))?;
    }
    sound(&case)?;
    Ok(case)
}

fn set(case: &mut Case, name: &str, value: &str) -> Result<(), String> {
    if matches!(name, "call" | "kind") {
        return Ok(());
    }
    if name == "log" {
        case.log = decimal(value)?;
        return Ok(());
    }
    let known = set_field(&mut case.record, name, value)?
        || set_shorthand(&mut case.record, name, value)?
        || set_store(&mut case.store, name, value)?;
    if known { Ok(()) } else { Err("no such field".into()) }
}

/// What the format cannot say otherwise: causes up to 8, patches inside the store.
fn sound(case: &Case) -> Result<(), String> {
    if case.record.pending_fault_cause > 8 {
        return Err("pending_fault_cause: above 8".into());
    }
    let size = case.store.size();
    if case.store.patch.iter().any(|(at, bytes)| *at as usize + bytes.len() > size) {
        return Err("patch: outside the store".into());
    }
    Ok(())
}

macro_rules! calls {
    ($($name:literal $pattern:pat => $build:expr, [$($arg:ident)*];)*) => {
        fn parse_call(s: &str) -> Result<Call, String> {
            let mut parts = s.split(':');
            let name = parts.next().unwrap();
            let call = match name {
                $($name => {
                    $(let text = parts.next().ok_or(format!("{name}: too few arguments"))?;
                    let $arg = Value::read(text).map_err(|e| format!("{name}: {e}"))?;)*
                    $build
                })*
                _ => return Err(format!("`{name}` is no call")),
            };
            if parts.next().is_some() {
                return Err(format!("{name}: too many arguments"));
            }
            if matches!(call, Call::ExceptionBusError { cause: 9.., .. }) {
                return Err(format!("{name}: cause above 8"));
            }
            Ok(call)
        }

        fn show_call(out: &mut String, call: &Call) {
            match call {
                $($pattern => {
                    out.push_str($name);
                    $(out.push(':');
                    $arg.show(out);)*
                })*
            }
        }

        /// The names of all calls.
        pub const CALL_NAMES: &[&str] = &[$($name),*];

        /// The name of a call.
        #[allow(unused_variables)]
        pub fn call_name(call: &Call) -> &'static str {
            match call {
                $($pattern => $name,)*
            }
        }
    };
}
calls! {
    "take_exception" Call::TakeException(v) => Call::TakeException(v), [v];
    "trap" Call::Trap(n) => Call::Trap(n), [n];
    "take_group2_exception" Call::TakeGroup2Exception(v) => Call::TakeGroup2Exception(v), [v];
    "exception_chk" Call::ExceptionChk => Call::ExceptionChk, [];
    "exception_zero_divide" Call::ExceptionZeroDivide => Call::ExceptionZeroDivide, [];
    "exception_privilege" Call::ExceptionPrivilege => Call::ExceptionPrivilege, [];
    "exception_trace" Call::ExceptionTrace => Call::ExceptionTrace, [];
    "exception_address_error" Call::ExceptionAddressError { address, write, instruction }
        => Call::ExceptionAddressError { address, write, instruction },
        [address write instruction];
    "exception_bus_error" Call::ExceptionBusError { address, write, instruction, size, cause }
        => Call::ExceptionBusError { address, write, instruction, size, cause },
        [address write instruction size cause];
    "take_fp_unimp_060" Call::TakeFpUnimp060(ea) => Call::TakeFpUnimp060(ea), [ea];
    "take_fp_disabled_060" Call::TakeFpDisabled060 => Call::TakeFpDisabled060, [];
    "take_aline_exception" Call::TakeAlineException => Call::TakeAlineException, [];
    "take_fline_exception" Call::TakeFlineException => Call::TakeFlineException, [];
    "take_trap_exception" Call::TakeTrapException(n) => Call::TakeTrapException(n), [n];
    "take_bkpt_exception" Call::TakeBkptException => Call::TakeBkptException, [];
    "take_illegal_exception" Call::TakeIllegalException => Call::TakeIllegalException, [];
    "trigger_address_error" Call::TriggerAddressError { address, write, instruction }
        => Call::TriggerAddressError { address, write, instruction },
        [address write instruction];
    "trigger_bus_error" Call::TriggerBusError { address, write, instruction, size }
        => Call::TriggerBusError { address, write, instruction, size },
        [address write instruction size];
    "check_trace" Call::CheckTrace => Call::CheckTrace, [];
    "set_irq" Call::SetIrq(n) => Call::SetIrq(n), [n];
    "check_interrupts" Call::CheckInterrupts => Call::CheckInterrupts, [];
    "check_and_service_interrupts" Call::CheckAndServiceInterrupts
        => Call::CheckAndServiceInterrupts, [];
    "read_16" Call::Read16(a) => Call::Read16(a), [a];
    "read_32" Call::Read32(a) => Call::Read32(a), [a];
    "write_16" Call::Write16(a, v) => Call::Write16(a, v), [a v];
    "write_32" Call::Write32(a, v) => Call::Write32(a, v), [a v];
    "push_16" Call::Push16(v) => Call::Push16(v), [v];
    "push_32" Call::Push32(v) => Call::Push32(v), [v];
    "prefetch_first" Call::PrefetchFirst => Call::PrefetchFirst, [];
    "prefetch_second" Call::PrefetchSecond => Call::PrefetchSecond, [];
    "return" Call::Return => Call::Return, [];
    "walk" Call::Walk { n, words } => Call::Walk { n, words }, [n words];
}

fn show_bytes(out: &mut String, at: u32, bytes: &[u8]) {
    write!(out, "{at:x}:").unwrap();
    for b in bytes {
        write!(out, "{b:02x}").unwrap();
    }
}

/// The complete input of a case.
pub fn format_case(case: &Case) -> String {
    let mut out = String::from("call=");
    show_call(&mut out, &case.call);
    write!(out, " kind={}", case.kind).unwrap();
    show_fields(&mut out, &case.record);
    let s = &case.store;
    write!(out, " base={:x} len={} fill={:x} patch=", s.base, s.len, s.fill).unwrap();
    listed(&mut out, &s.patch, |out, (at, bytes)| show_bytes(out, *at, bytes));
    out.push_str(" win=");
    listed(&mut out, &s.win, |out, (a, n)| write!(out, "{a:x}:{n:x}").unwrap());
    out.push_str(" ack=");
    s.ack.show(&mut out);
    write!(out, " log={}", case.log).unwrap();
    out
}

/// The fields that differ, as an output line has them, each after a space.
pub fn changed(before: &Record, after: &Record) -> String {
    let mut out = String::new();
    show_changed(&mut out, before, after);
    out
}

/// The output line of a case.
pub fn format(case: &Case, o: &Outcome) -> String {
    let mut out = String::new();
    write!(out, "refused={} ans={} nev={} ev=", o.refused, o.answer, o.events.len()).unwrap();
    listed(&mut out, &o.events, |out, event| joined(out, ':', event, |out, v| v.show(out)));
    out.push_str(" rows=");
    listed(&mut out, &o.rows, |out, row: &Row| row.show(out));
    out.push_str(" chg=");
    listed(&mut out, &o.changes, |out, (at, bytes)| show_bytes(out, *at, bytes));
    write!(out, " status={:x}", o.status).unwrap();
    if o.kind != case.kind {
        write!(out, " kind={}", o.kind).unwrap();
    }
    show_changed(&mut out, &case.record, &o.record);
    out
}

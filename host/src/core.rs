//! The core: what is lent to a call in place, and the calls over it.

use crate::mirror::{LentCore, LentCpu};
use crate::{Answer, Call, Kind, Record, Refusal, Row, UnknownKind, Walked, mirror};
use std::fmt;

/// Bytes that fault: so many from a start on.
#[derive(Debug, Clone, Copy, PartialEq, Eq, Hash)]
pub struct Window {
    /// The first address.
    pub start: u32,
    /// How many bytes; 0 for none.
    pub length: u32,
}

/// The record of a processor and its bus, in the layout of the proved code, which is lent it in place.
///
/// The record's fields have accessors by the names of the Rust. Of the bus there is where the store lies
/// ([`Core::base`]), which bytes fault ([`Core::windows`]), what devices answer ([`Core::responses`]) and how
/// many events the last accepted call had ([`Core::events`]).
///
/// Two cores are equal if every field is, byte for byte. A flag that another program laid there is any byte: it
/// is set where it is not 0.
#[derive(Clone, PartialEq, Eq)]
#[repr(transparent)]
pub struct Core(LentCore);

impl Core {
    pub(crate) fn lent(&self) -> &LentCore {
        &self.0
    }

    pub(crate) fn lent_mut(&mut self) -> &mut LentCore {
        &mut self.0
    }

    /// The processor of a kind after the Rust's `new` and `set_cpu_type`; a store at 0, no windows, no device
    /// that gives a vector.
    ///
    /// ```
    /// use m68k_host::{Core, Kind};
    ///
    /// assert_eq!(Core::fresh(Kind::M68010).get_sr(), 0x2700);
    /// ```
    pub fn fresh(kind: impl Into<u8>) -> Core {
        // Sound: it takes and gives plain values in the layout of mirror.rs.
        let cpu: LentCpu = unsafe { mirror::m68k_fresh(kind.into()) };
        let bus = mirror::Bus {
            base: 0,
            windows: 0,
            starts: [0; 8],
            lengths: [0; 8],
            responses: [u32::MAX; 8],
            events: 0,
        };
        Core(LentCore { cpu, bus })
    }

    /// The kind of processor, if it is one of the twelve.
    pub fn kind(&self) -> Result<Kind, UnknownKind> {
        Kind::try_from(self.cpu_type())
    }

    /// The bits of an address that go on the bus: 24 on the kinds 0, 1 and 2, else all. The Rust's field of that name
    /// follows from the kind.
    pub fn address_mask(&self) -> u32 {
        if self.cpu_type() <= 2 { 0x00FF_FFFF } else { u32::MAX }
    }

    /// The fields of the record as a plain struct.
    pub fn record(&self) -> Record {
        Record::from(&self.0.cpu)
    }

    /// Sets every field of the record; the bus stays.
    ///
    /// ```
    /// use m68k_host::{Core, Kind, Record};
    ///
    /// let mut core = Core::fresh(Kind::M68020);
    /// let record = Record { pc: 0x1000, last_exception_vector: Some(5), ..core.record() };
    /// core.set_record(&record);
    /// assert_eq!((core.pc(), core.last_exception_vector()), (0x1000, Some(5)));
    /// assert_eq!(core.record(), record);
    /// ```
    pub fn set_record(&mut self, record: &Record) {
        record.put(&mut self.0.cpu);
    }

    /// Performs a call over a lent store and a lent log.
    ///
    /// After it [`Core::events`] is the number of events, also given in the answer; nothing else of the bus changes.
    ///
    /// # Errors
    ///
    /// A call that is refused leaves core, store and log as they came, byte for byte.
    ///
    /// ```
    /// use m68k_host::{Call, Core, Kind, Refusal};
    ///
    /// let mut core = Core::fresh(Kind::M68010);
    /// let refused = core.call(Call::TakeException(256), &mut [], &mut [0; 192]);
    /// assert_eq!(refused, Err(Refusal::Vector));
    /// assert_eq!(core, Core::fresh(Kind::M68010));
    /// ```
    pub fn call(
        &mut self,
        call: Call,
        store: &mut [u8],
        log: &mut [u32],
    ) -> Result<Answer, Refusal> {
        let (raw, gives) = call.to_raw();
        let (store_len, log_len) = (store.len(), log.len());
        // Sound: the function is proved for every record, bus, store, log and call, and asks nothing of its caller
        // but what the types say. The structs have the layout that it was compiled for (mirror.rs is made from its
        // source and asserts sizes and offsets) and every value of every field has a meaning. Core and slices are
        // borrowed here for longer than the call, which keeps no pointer.
        let said = unsafe {
            let (store, log) = (store.as_mut_ptr(), log.as_mut_ptr());
            mirror::m68k_call(&mut self.0, raw, store, store_len, log, log_len)
        };
        match Refusal::from_number(said.refused) {
            Some(refusal) => Err(refusal),
            None => Ok(gives.answer(said.answer, said.events)),
        }
    }

    /// The Rust's `take_exception` by an export of its own: what [`Core::call`] says and leaves with
    /// [`Call::TakeException`], in fewer instructions.
    ///
    /// # Errors
    ///
    /// As in [`Core::call`].
    ///
    /// ```
    /// use m68k_host::{Answer, Core, Kind, Refusal};
    ///
    /// let mut core = Core::fresh(Kind::M68010);
    /// core.dar_mut()[15] = 0x1000;
    /// let (mut store, mut log) = (vec![0; 0x1000], vec![0; 192]);
    /// let done = core.take_exception(47, &mut store, &mut log);
    /// assert_eq!(done, Ok(Answer::Cycles { cycles: 34, events: 9 }));
    /// assert_eq!(core.take_exception(256, &mut store, &mut log), Err(Refusal::Vector));
    /// ```
    pub fn take_exception(
        &mut self,
        vector: u32,
        store: &mut [u8],
        log: &mut [u32],
    ) -> Result<Answer, Refusal> {
        let (store_len, log_len) = (store.len(), log.len());
        // Sound as in `call`.
        let said = unsafe {
            let (store, log) = (store.as_mut_ptr(), log.as_mut_ptr());
            mirror::m68k_take_exception(&mut self.0, vector, store, store_len, log, log_len)
        };
        match Refusal::from_number(said.refused) {
            Some(refusal) => Err(refusal),
            None => Ok(Answer::Cycles { cycles: said.answer, events: said.events }),
        }
    }

    /// The Rust's `check_and_service_interrupts` by an export of its own, for the loop of an emulator, which asks after
    /// every instruction: what [`Core::call`] says and leaves with [`Call::CheckAndServiceInterrupts`], in fewer
    /// instructions.
    ///
    /// # Errors
    ///
    /// As in [`Core::call`].
    ///
    /// ```
    /// use m68k_host::{Answer, Core, Kind};
    ///
    /// let mut core = Core::fresh(Kind::M68010);
    /// let done = core.check_and_service_interrupts(&mut [], &mut [0; 192]);
    /// assert_eq!(done, Ok(Answer::Flag { set: false, events: 0 }));
    /// ```
    pub fn check_and_service_interrupts(
        &mut self,
        store: &mut [u8],
        log: &mut [u32],
    ) -> Result<Answer, Refusal> {
        let (store_len, log_len) = (store.len(), log.len());
        // Sound as in `call`.
        let said = unsafe {
            let (store, log) = (store.as_mut_ptr(), log.as_mut_ptr());
            let core = &mut self.0;
            mirror::m68k_check_and_service_interrupts(core, store, store_len, log, log_len)
        };
        match Refusal::from_number(said.refused) {
            Some(refusal) => Err(refusal),
            None => Ok(Answer::Flag { set: said.answer != 0, events: said.events }),
        }
    }

    /// Returns from the entry whose frame lies at A7, and says what the frame held.
    ///
    /// A7, the program counter, the status and the stack in use become what the frame says, and the words fetched
    /// ahead no longer count. Nothing is logged.
    ///
    /// # Errors
    ///
    /// A return that is refused leaves the core as it came, byte for byte.
    pub fn return_from(&mut self, store: &[u8]) -> Result<Row, Refusal> {
        // Sound as in `call`; the store is only read.
        let said = unsafe { mirror::m68k_return(&mut self.0, store.as_ptr(), store.len()) };
        let mirror::Row { format, status, address, offset } = said.row;
        match Refusal::from_number(said.refused) {
            Some(refusal) => Err(refusal),
            None => Ok(Row { format, status, address, offset }),
        }
    }

    /// Makes n returns on a copy of the core and lays what each read into `rows`, four words each in the order of
    /// [`Row`]. The buffer must have that many words; those behind the rows stay.
    ///
    /// ```
    /// use m68k_host::{Core, Kind, Refusal, Row};
    ///
    /// let mut core = Core::fresh(Kind::M68010);
    /// core.dar_mut()[15] = 0x10;
    /// let mut store = [0; 0x18];
    /// store[0x10..].copy_from_slice(&[0x27, 0, 0, 0, 0x10, 0, 0, 0xBC]);
    /// let mut buffer = [0; 8];
    ///
    /// // One frame, and what lies behind it is none.
    /// let walked = core.walk(2, &store, &mut buffer);
    ///
    /// assert_eq!(walked.refused, Some(Refusal::Frame));
    /// let row = Row { format: 0, status: 0x2700, address: 0x1000, offset: 0xBC };
    /// assert_eq!(walked.rows(&buffer).collect::<Vec<_>>(), [row]);
    /// ```
    pub fn walk(&self, n: u32, store: &[u8], rows: &mut [u32]) -> Walked {
        let (store_len, rows_len) = (store.len(), rows.len());
        // Sound as in `call`; core and store are only read.
        let said = unsafe {
            let (store, rows) = (store.as_ptr(), rows.as_mut_ptr());
            mirror::m68k_walk(&self.0, n, store, store_len, rows, rows_len)
        };
        Walked { count: said.count, refused: Refusal::from_number(said.refused) }
    }

    /// The status register.
    pub fn get_sr(&self) -> u16 {
        // Sound as in `call`; the record is only read.
        let status = unsafe { mirror::m68k_get_sr(&self.0.cpu) };
        u16::try_from(status).expect("a status register has 16 bits")
    }

    /// Sets the status register under the kind's mask, M only with S, and swaps the stacks.
    ///
    /// ```
    /// use m68k_host::{Core, Kind};
    ///
    /// let mut core = Core::fresh(Kind::M68020);
    /// core.dar_mut()[15] = 0x8000;
    /// core.sp_mut()[0] = 0x4000;
    /// core.set_sr(0x0015);
    /// assert_eq!((core.get_sr(), core.dar()[15], core.sp()[4]), (0x0015, 0x4000, 0x8000));
    /// ```
    pub fn set_sr(&mut self, sr: u16) {
        // Sound as in `call`.
        unsafe { mirror::m68k_set_sr(&mut self.0.cpu, sr) };
    }
}

/// The bus.
impl Core {
    /// The address of the store's first byte.
    pub fn base(&self) -> u32 {
        self.0.bus.base
    }

    /// Sets [`Core::base`].
    pub fn set_base(&mut self, base: u32) {
        self.0.bus.base = base;
    }

    /// The bytes that fault, 8 windows at most.
    pub fn windows(&self) -> impl Iterator<Item = Window> + '_ {
        let bus = &self.0.bus;
        let pairs = bus.starts.iter().zip(&bus.lengths);
        pairs.take(bus.windows as usize).map(|(&start, &length)| Window { start, length })
    }

    /// Sets the bytes that fault. Windows after the eighth are only counted: calls are then refused for their
    /// number ([`Refusal::Windows`]).
    pub fn set_windows(&mut self, windows: &[Window]) {
        let bus = &mut self.0.bus;
        (bus.starts, bus.lengths) = ([0; 8], [0; 8]);
        bus.windows = u32::try_from(windows.len()).unwrap_or(u32::MAX);
        for (i, window) in windows.iter().take(8).enumerate() {
            (bus.starts[i], bus.lengths[i]) = (window.start, window.length);
        }
    }

    /// What the acknowledge of each level answers: 0xFFFFFFFF for no vector (the level's own, 24 + level, is taken), else
    /// a vector in the low 8 bits. So 0xFFFFFFFE is vector 254, not the spurious interrupt.
    pub fn responses(&self) -> &[u32; 8] {
        &self.0.bus.responses
    }

    /// [`Core::responses`], to be changed.
    pub fn responses_mut(&mut self) -> &mut [u32; 8] {
        &mut self.0.bus.responses
    }

    /// Events of the last call that was accepted: it wrote three words of the log for each. A call starts its log
    /// anew, whatever stands here.
    pub fn events(&self) -> u32 {
        self.0.bus.events
    }

    /// Sets [`Core::events`].
    pub fn set_events(&mut self, events: u32) {
        self.0.bus.events = events;
    }
}

/// The record over the bus of [`Core::fresh`].
impl From<&Record> for Core {
    fn from(record: &Record) -> Core {
        let mut core = Core::fresh(record.cpu_type);
        core.set_record(record);
        core
    }
}

impl From<&Core> for Record {
    fn from(core: &Core) -> Record {
        core.record()
    }
}

impl fmt::Debug for Core {
    fn fmt(&self, f: &mut fmt::Formatter<'_>) -> fmt::Result {
        f.debug_struct("Core")
            .field("record", &self.record())
            .field("base", &self.base())
            .field("windows", &self.windows().collect::<Vec<_>>())
            .field("responses", self.responses())
            .field("events", &self.events())
            .finish()
    }
}

#[cfg(test)]
mod tests {
    use super::*;
    use crate::random::{Numbers, any_call, likely_core};

    type Flag = fn(&mut LentCpu) -> &mut u8;

    /// The bytes of a record that are flags.
    const FLAGS: [Flag; 8] = [
        |cpu| &mut cpu.flow.exception_processing,
        |cpu| &mut cpu.flow.change_of_flow,
        |cpu| &mut cpu.flow.loop_mode,
        |cpu| &mut cpu.queue.precise_bus,
        |cpu| &mut cpu.fault.instruction_exception_vector.some,
        |cpu| &mut cpu.fault.last_exception_vector.some,
        |cpu| &mut cpu.fault.mmu_fc_override.some,
        |cpu| &mut cpu.fault_resume.some,
    ];

    /// A flag of any byte but 0 does what a flag of 1 does; it stays where the call is refused, else flags are 0 and 1.
    #[test]
    fn a_flag_is_any_byte_but_0() {
        let (mut n, mut kept) = (Numbers(8), 0);
        for _ in 0..20_000 {
            let (mut one, mut call) = (likely_core(&mut n, 0, 0x1000), any_call(&mut n));
            let (flag, byte) = (n.of(&FLAGS), n.of(&[2, 3, 0x10, 0x80, 0xFF]));
            *flag(&mut one.0.cpu) = 1;
            let mut other = one.clone();
            *flag(&mut other.0.cpu) = byte;
            let before = other.clone();
            assert!(one.record() == other.record() && one != other);
            if n.percent(10) {
                call = Call::TakeException(256);
            }
            let (mut stores, mut logs) = ([[7; 0x1000]; 2], [[0; 192]; 2]);
            let done = one.call(call, &mut stores[0], &mut logs[0]);
            assert_eq!(other.call(call, &mut stores[1], &mut logs[1]), done, "{call}");
            assert!(stores[0] == stores[1] && logs[0] == logs[1], "{call}");
            if done.is_err() {
                assert!(other == before, "{call}: refused, and the flag was changed");
                kept += 1;
            } else {
                assert!(other == one && FLAGS.iter().all(|f| *f(&mut one.0.cpu) < 2), "{call}");
            }
            let (mut one, mut other) = (before.clone(), before.clone());
            *flag(&mut one.0.cpu) = 1;
            let walk = |core: &Core| core.walk(2, &stores[0], &mut [0; 8]);
            assert_eq!((walk(&one), one.get_sr()), (walk(&other), other.get_sr()));
            let (left, right) = (one.return_from(&stores[0]), other.return_from(&stores[0]));
            assert_eq!(left, right);
            assert!(if left.is_ok() { one == other } else { other == before });
        }
        assert!(kept > 1_000);
    }
}

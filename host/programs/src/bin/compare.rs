//! Compares the proved code with recorded answers, or with those of the oracle as it makes them.

use m68k_programs::cases::Cases;
use std::collections::BTreeMap;
use std::io::{BufRead, BufReader, Read};
use std::path::PathBuf;
use std::process::{Command, ExitCode, Stdio};
use std::sync::Mutex;
use std::sync::atomic::{AtomicBool, AtomicU64, Ordering::Relaxed};
use std::thread;
use std::time::{Duration, Instant};

const USAGE: &str = "usage: compare --seed N --count M|--nests L [--calls NAME,...] [--jobs J] [--oracle PROGRAM]
       compare --file FILE|- [--calls NAME,...]

Compares answers line by line and shows the first 10 differences. The cases are those of `oracle gen N M`
(the program named by --oracle or ORACLE, else target/oracle/release/oracle of the repository), those of
`oracle nests N L` (L lists that meet the premises of rule 3, a case a step), or the lines INPUT => OUTPUT of
a file. More than 50,000 cases, or 5,000 lists, are made in parts, J at a time (as many as there are
processors): part K, from 0 on, has the seed N + K * 2^32. Exit status 1: a difference; 2: not all could be
compared.";

/// Differences that are shown.
const SHOWN: u64 = 10;
/// Cases of one run of the oracle.
const PART: u64 = 50_000;
/// Lists of one run of the oracle.
const LISTS: u64 = 5_000;
/// What the oracle prints before each list.
const LIST: &str = "# list";
/// Between two lines that say how far it is.
const PAUSE: Duration = Duration::from_secs(5);

#[derive(Default)]
struct Options {
    seed: Option<u64>,
    count: Option<u64>,
    nests: bool,
    file: Option<String>,
    oracle: Option<PathBuf>,
    calls: Vec<String>,
    jobs: Option<u64>,
}

fn options() -> Option<Options> {
    let mut options = Options::default();
    let mut args = std::env::args().skip(1);
    while let Some(name) = args.next() {
        let value = args.next()?;
        match name.as_str() {
            "--seed" => options.seed = Some(value.parse().ok()?),
            "--count" => options.count = Some(value.parse().ok()?),
            "--nests" => {
                options.nests = true;
                options.count = Some(value.parse().ok()?);
            }
            "--file" => options.file = Some(value),
            "--oracle" => options.oracle = Some(value.into()),
            "--calls" => options.calls = value.split(',').map(String::from).collect(),
            "--jobs" => options.jobs = Some(value.parse().ok().filter(|&jobs| jobs > 0)?),
            _ => return None,
        }
    }
    let generated = options.seed.is_some() && options.count.is_some();
    (generated != options.file.is_some()).then_some(options)
}

/// The oracle beside the folder that this program was built in: target/host/release/compare.
fn oracle() -> PathBuf {
    if let Some(path) = std::env::var_os("ORACLE") {
        return path.into();
    }
    let here = std::env::current_exe().unwrap_or_default();
    here.ancestors().nth(3).unwrap_or(&here).join("oracle/release/oracle")
}

fn main() -> ExitCode {
    let Some(options) = options() else {
        eprintln!("{USAGE}");
        return ExitCode::from(2);
    };
    match run(&options) {
        Ok(0) => ExitCode::SUCCESS,
        Ok(_) => ExitCode::FAILURE,
        Err(reason) => {
            eprintln!("compare: error: {reason}");
            ExitCode::from(2)
        }
    }
}

/// The number of differences.
fn run(options: &Options) -> Result<u64, String> {
    let shared = Shared::new(&options.calls);
    if let Some(file) = &options.file {
        let input: Box<dyn Read> = match file.as_str() {
            "-" => Box::new(std::io::stdin()),
            _ => Box::new(std::fs::File::open(file).map_err(|e| format!("{file}: {e}"))?),
        };
        shared.lines(&mut Cases::new(), input)?;
        return shared.end(&format!("file {file}"));
    }
    let (seed, count) = (options.seed.unwrap_or(0), options.count.unwrap_or(0));
    let program = options.oracle.clone().unwrap_or_else(oracle);
    let processors = thread::available_parallelism().map_or(1, |n| n.get() as u64);
    let (part_of, most) = if options.nests { ("nests", LISTS) } else { ("gen", PART) };
    let jobs = options.jobs.unwrap_or(processors).min(count.div_ceil(most));
    let next = AtomicU64::new(0);
    let work = || {
        let mut cases = Cases::new();
        loop {
            let part = next.fetch_add(1, Relaxed);
            let before = part.saturating_mul(most);
            if before >= count || shared.stop.load(Relaxed) {
                return Ok(());
            }
            let seed = seed.wrapping_add(part << 32);
            let made = shared.part(&mut cases, &program, part_of, seed, most.min(count - before));
            if let Err(reason) = made {
                shared.stop.store(true, Relaxed);
                return Err(reason);
            }
        }
    };
    thread::scope(|scope| {
        let threads: Vec<_> = (0..jobs).map(|_| scope.spawn(work)).collect();
        let done =
            threads.into_iter().map(|t| t.join().unwrap_or(Err("a comparison stopped".into())));
        done.fold(Ok(()), Result::and)
    })?;
    shared.end(&format!("seed {seed}"))
}

/// What all jobs found so far.
struct Shared<'a> {
    calls: &'a [String],
    start: Instant,
    read: AtomicU64,
    differences: AtomicU64,
    stop: AtomicBool,
    said: Mutex<Instant>,
    tally: Mutex<Tally>,
}

/// What one job found in a part.
#[derive(Default)]
struct Tally {
    compared: u64,
    lists: u64,
    /// By the name of the call.
    calls: BTreeMap<String, u64>,
    /// By the kind of processor.
    kinds: BTreeMap<String, u64>,
    /// By the number that the recorded answer has.
    refused: BTreeMap<String, u64>,
    differing: BTreeMap<String, u64>,
    /// Accepted calls that went the fast way.
    fast: BTreeMap<String, u64>,
}

impl Shared<'_> {
    fn new(calls: &[String]) -> Shared<'_> {
        let now = Instant::now();
        Shared {
            calls,
            start: now,
            read: AtomicU64::new(0),
            differences: AtomicU64::new(0),
            stop: AtomicBool::new(false),
            said: Mutex::new(now),
            tally: Mutex::default(),
        }
    }

    /// The cases or lists of one run of the oracle.
    fn part(
        &self,
        cases: &mut Cases,
        program: &PathBuf,
        what: &str,
        seed: u64,
        count: u64,
    ) -> Result<(), String> {
        let mut child = Command::new(program)
            .args([what, &seed.to_string(), &count.to_string()])
            .stdout(Stdio::piped())
            .spawn()
            .map_err(|e| format!("{}: {e}", program.display()))?;
        let output = child.stdout.take().ok_or("the oracle has no output")?;
        let (read, lists) = self.lines(cases, output)?;
        let status = child.wait().map_err(|e| e.to_string())?;
        let made = if what == "gen" { read } else { lists };
        if !status.success() || made != count {
            return Err(format!("`oracle {what}` gave {made} of {count}, seed {seed} ({status})"));
        }
        Ok(())
    }

    /// The cases of an input; how many there are, and how many lists.
    fn lines(&self, cases: &mut Cases, input: impl Read) -> Result<(u64, u64), String> {
        let mut input = BufReader::with_capacity(1 << 18, input);
        let (mut tally, mut read, mut lists) = (Tally::default(), 0u64, 0u64);
        let (mut line, mut found) = (String::new(), vec![]);
        while input.read_line(&mut line).map_err(|e| e.to_string())? > 0 {
            let text = line.strip_suffix('\n').unwrap_or(&line);
            if !text.is_empty() && !text.starts_with('#') {
                read += 1;
                self.one(&mut tally, cases, text, &mut found);
                if self.read.fetch_add(1, Relaxed) % 1024 == 1023 {
                    self.say();
                }
            }
            lists += u64::from(text.starts_with(LIST));
            line.clear();
        }
        tally.lists = lists;
        self.tally.lock().map_err(|e| e.to_string())?.add(tally);
        Ok((read, lists))
    }

    fn one(&self, tally: &mut Tally, cases: &mut Cases, line: &str, found: &mut Vec<u8>) {
        let name = call_name(line);
        if !self.calls.is_empty() && !self.calls.iter().any(|c| c == name) {
            return;
        }
        let (input, expected) = line.split_once(" => ").unwrap_or((line, "(no answer recorded)"));
        cases.answer(input, found);
        tally.compared += 1;
        count(&mut tally.calls, name, 1);
        count(&mut tally.kinds, value_of(line, "kind="), 1);
        if let Some(number) = expected.strip_prefix("refused=").and_then(|e| e.split(' ').next())
            && number != "0"
        {
            count(&mut tally.refused, number, 1);
        }
        #[cfg(feature = "ways")]
        if expected.starts_with("refused=0 ") && cases.is_fast(input) == Some(true) {
            count(&mut tally.fast, name, 1);
        }
        if found == expected.as_bytes() {
            return;
        }
        count(&mut tally.differing, name, 1);
        let number = 1 + self.differences.fetch_add(1, Relaxed);
        if number <= SHOWN {
            let found = String::from_utf8_lossy(found);
            println!(
                "difference {number}\n  input    {input}\n  expected {expected}\n  got      {found}"
            );
        }
    }

    /// A line that says how far it is, every few seconds.
    fn say(&self) {
        let Ok(mut said) = self.said.try_lock() else { return };
        if said.elapsed() >= PAUSE {
            *said = Instant::now();
            let (read, differences) = (self.read.load(Relaxed), self.differences.load(Relaxed));
            let rate = self.rate();
            eprintln!("compare: {read} cases read, {differences} differences, {rate:.0} a second");
        }
    }

    fn rate(&self) -> f64 {
        self.read.load(Relaxed) as f64 / self.start.elapsed().as_secs_f64().max(0.001)
    }

    /// The last lines, and the number of differences.
    fn end(&self, of: &str) -> Result<u64, String> {
        let tally = self.tally.lock().map_err(|e| e.to_string())?;
        let lists = [
            ("compared calls", &tally.calls),
            ("compared kinds", &tally.kinds),
            ("compared refusals", &tally.refused),
            ("different", &tally.differing),
            ("by the fast way", &tally.fast),
        ];
        for (what, list) in lists {
            if !list.is_empty() {
                let parts: Vec<String> = list.iter().map(|(n, c)| format!("{n} {c}")).collect();
                println!("compare: {what}: {}", parts.join(", "));
            }
        }
        println!("compare: {:.0} cases a second", self.rate());
        if cfg!(feature = "ways") {
            let fast: u64 = tally.fast.values().sum();
            let apart = ["return", "walk"].map(|n| tally.calls.get(n).unwrap_or(&0));
            let calls = tally.compared - apart.into_iter().sum::<u64>();
            println!("compare: {fast} of {calls} calls, refused ones too, went the fast way");
        }
        let (compared, differences) = (tally.compared, self.differences.load(Relaxed));
        if tally.lists > 0 {
            println!("compare: {} lists, each walk and return held to its book", tally.lists);
        }
        println!("compare: {compared} cases, {differences} differences, {of}");
        if compared == 0 {
            return Err("no case was compared".into());
        }
        Ok(differences)
    }
}

impl Tally {
    fn add(&mut self, other: Tally) {
        self.compared += other.compared;
        self.lists += other.lists;
        let lists = [
            (&mut self.calls, other.calls),
            (&mut self.kinds, other.kinds),
            (&mut self.refused, other.refused),
            (&mut self.differing, other.differing),
            (&mut self.fast, other.fast),
        ];
        for (list, others) in lists {
            for (name, n) in others {
                count(list, &name, n);
            }
        }
    }
}

fn count(list: &mut BTreeMap<String, u64>, name: &str, n: u64) {
    match list.get_mut(name) {
        Some(sum) => *sum += n,
        None => {
            list.insert(name.into(), n);
        }
    }
}

/// The name of the call of a line.
fn call_name(line: &str) -> &str {
    value_of(line, "call=").split(':').next().unwrap_or("?")
}

/// What stands after a name in a line.
fn value_of<'a>(line: &'a str, name: &str) -> &'a str {
    line.split(' ').find_map(|part| part.strip_prefix(name)).unwrap_or("?")
}

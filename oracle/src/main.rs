//! The program: generate cases, answer them, replay recorded ones.

use oracle::rng::Rng;
use oracle::text::changed;
use oracle::{
    Case, Record, against, format, format_case, generate, leaf, nest, parse, run, session,
    sessions, transcript,
};
use std::collections::BTreeMap;
use std::io::{BufRead, BufReader, BufWriter, Read, Write};
use std::process::ExitCode;

const USAGE: &str = "usage: oracle gen SEED COUNT | nests SEED COUNT | run | replay FILE|- | replay --first FILE|- \
                     | cover SEED COUNT | tables | session | transcript FILE | sessions FILE SEED COUNT | against PROGRAM SEED COUNT";

fn main() -> ExitCode {
    // The Rust prints on address errors where this is set. No other thread runs yet.
    unsafe { std::env::remove_var("M68K_DIAG_ADDRESS_ERROR") };
    let args: Vec<String> = std::env::args().skip(1).collect();
    let args: Vec<&str> = args.iter().map(String::as_str).collect();
    let done = match args[..] {
        ["gen", seed, count] => numbers(seed, count, generated),
        ["nests", seed, count] => numbers(seed, count, nests),
        ["cover", seed, count] => numbers(seed, count, cover),
        ["run"] => answers(),
        ["replay", file] => replay(file, false),
        ["replay", "--first", file] => replay(file, true),
        ["tables"] => tables(),
        ["session"] => play(),
        ["sessions", file, seed, count] => numbers(seed, count, |s, n| recorded(file, s, n)),
        ["transcript", file] => transcript(file),
        ["against", program, seed, count] => numbers(seed, count, |s, n| against(program, s, n)),
        _ => Err(USAGE.into()),
    };
    match done {
        Ok(true) => ExitCode::SUCCESS,
        Ok(false) => ExitCode::FAILURE,
        Err(e) => {
            eprintln!("{e}");
            ExitCode::from(2)
        }
    }
}

type Done = Result<bool, String>;

fn text(e: std::io::Error) -> String {
    e.to_string()
}

fn numbers(seed: &str, count: &str, f: impl Fn(u64, u64) -> Done) -> Done {
    match (seed.parse(), count.parse()) {
        (Ok(seed), Ok(count)) => f(seed, count),
        _ => Err(USAGE.into()),
    }
}

fn generated(seed: u64, count: u64) -> Done {
    let mut rng = Rng::new(seed);
    let mut out = BufWriter::with_capacity(1 << 18, std::io::stdout().lock());
    for _ in 0..count {
        let case = generate::case(&mut rng);
        writeln!(out, "{} => {}", format_case(&case), answer(&case)).map_err(text)?;
    }
    out.flush().map_err(text)?;
    Ok(true)
}

/// COUNT lists that meet the premises of rule 3, a case a step. Each list's walk and returns are held to its book.
fn nests(seed: u64, count: u64) -> Done {
    let mut rng = Rng::new(seed);
    let mut out = BufWriter::with_capacity(1 << 18, std::io::stdout().lock());
    for number in 0..count {
        let cases =
            nest::list(&mut rng).map_err(|e| format!("list {number} of seed {seed}: {e}"))?;
        writeln!(out, "# list").map_err(text)?;
        for (case, outcome) in &cases {
            writeln!(out, "{} => {}", format_case(case), format(case, outcome)).map_err(text)?;
        }
    }
    out.flush().map_err(text)?;
    Ok(true)
}

fn answer(case: &Case) -> String {
    format(case, &run(case))
}

/// Answer of a line, or why there is none.
fn answer_line(line: &str) -> String {
    match parse(line) {
        Ok(case) => answer(&case),
        Err(e) => format!("error: {e}"),
    }
}

fn is_case(line: &str) -> bool {
    !line.is_empty() && !line.starts_with('#')
}

fn answers() -> Done {
    let mut out = BufWriter::with_capacity(1 << 18, std::io::stdout().lock());
    for line in std::io::stdin().lock().lines() {
        let line = line.map_err(text)?;
        if is_case(&line) {
            writeln!(out, "{}", answer_line(&line)).map_err(text)?;
        }
    }
    out.flush().map_err(text)?;
    Ok(true)
}

/// The session program. An output that is closed ends it quietly.
fn play() -> Done {
    match session::play(std::io::stdin().lock(), std::io::stdout().lock()) {
        Err(e) if e.kind() != std::io::ErrorKind::BrokenPipe => Err(format!("session: {e}")),
        _ => Ok(true),
    }
}

fn file_text(file: &str) -> Result<String, String> {
    std::fs::read_to_string(file).map_err(|e| format!("{file}: {e}"))
}

/// The input of a transcript, then COUNT random sessions; the last line has no feed.
fn recorded(file: &str, seed: u64, count: u64) -> Done {
    let mut input = transcript::input(&file_text(file)?)?;
    input.extend(sessions::list(&mut Rng::new(seed), count));
    input.extend_from_slice(b"ret");
    std::io::stdout().write_all(&input).map_err(text)?;
    Ok(true)
}

/// A transcript with the answers of this build.
fn transcript(file: &str) -> Done {
    print!("{}", transcript::answered(&file_text(file)?)?);
    Ok(true)
}

/// Another session program on COUNT random sessions.
fn against(program: &str, seed: u64, count: u64) -> Done {
    let tally = against::compare(program, seed, count, true)?;
    if tally.sessions == 0 {
        return Err("sessions: nothing was compared".into());
    }
    println!(
        "{} batches, {} of them in pieces too; {} lines",
        tally.batches, tally.cut, tally.lines
    );
    println!("answers: {}, refused (number count): {:?}", tally.answers, tally.refused);
    let (sessions, differences) = (tally.sessions, tally.differences);
    if differences > 0 {
        println!("first difference: {}", tally.first);
    }
    println!("sessions: {sessions} sessions, {differences} differences, seed {seed}");
    Ok(differences == 0)
}

/// Compares recorded answers with those of this build; all of them, or up to the first difference.
fn replay(file: &str, first: bool) -> Done {
    let input: Box<dyn Read> = match file {
        "-" => Box::new(std::io::stdin()),
        _ => Box::new(std::fs::File::open(file).map_err(|e| format!("{file}: {e}"))?),
    };
    let (mut cases, mut differences) = (0u64, 0u64);
    for (number, line) in BufReader::new(input).lines().enumerate() {
        let line = line.map_err(text)?;
        if !is_case(&line) {
            continue;
        }
        cases += 1;
        let recorded = line.split_once(" => ").map_or("(no answer recorded)", |p| p.1);
        let found = answer_line(&line);
        if recorded != found {
            differences += 1;
            if differences <= 20 {
                println!("line {}\n  recorded {recorded}\n  found    {found}", number + 1);
            }
            if first {
                break;
            }
        }
    }
    println!("replay: {cases} cases, {differences} differences");
    Ok(differences == 0)
}

/// What the generator reaches: calls, kinds, refusals, most events by kind.
fn cover(seed: u64, count: u64) -> Done {
    let mut rng = Rng::new(seed);
    let mut refused: BTreeMap<u8, u64> = BTreeMap::new();
    let mut calls: BTreeMap<&str, (u64, u64)> = BTreeMap::new();
    let mut events: BTreeMap<u8, usize> = BTreeMap::new();
    for _ in 0..count {
        let case = generate::case(&mut rng);
        let o = run(&case);
        *refused.entry(o.refused).or_default() += 1;
        let c = calls.entry(oracle::text::call_name(&case.call)).or_default();
        c.0 += 1;
        c.1 += u64::from(o.refused == 0);
        let most = events.entry(case.kind).or_default();
        *most = (*most).max(o.events.len());
    }
    println!("refused (number count): {refused:?}");
    println!("calls (count, accepted):");
    for (name, (all, accepted)) in calls {
        println!("  {name} {all} {accepted}");
    }
    println!("most events by kind: {events:?}");
    Ok(true)
}

/// What cases do not show: the fresh record of each kind, and leaf functions on their own.
fn tables() -> Done {
    for kind in 0..12 {
        let (call, record) = (oracle::Call::CheckTrace, Record::fresh(kind));
        let case = Case { call, kind, record, store: oracle::Store::fresh(), log: 192 };
        println!("{}", format_case(&case));
        let r = &case.record;
        let (address, status) = leaf::masks(kind);
        let (is_040, is_060) = (leaf::is_040(kind, r), leaf::is_060(kind, r));
        println!("kind={kind} masks={address:x}.{status:x} is_040={is_040} is_060={is_060}");
        show_leaf(kind, "trace_t0_sr_write", r, |r| leaf::trace_t0_sr_write(kind, r));
        show_leaf(kind, "trace_t0_68040_sync", r, |r| leaf::trace_t0_68040_sync(kind, r));
        stack_tables(kind);
        println!("kind={kind} set_sr_noint_nosp={:x}", status_sum(kind));
    }
    let cycles: Vec<i32> = (0..256).map(leaf::exception_cycles).collect();
    println!("exception_cycles={cycles:?}");
    Ok(true)
}

/// What a leaf function changes.
fn show_leaf(kind: u8, name: &str, before: &Record, leaf: impl Fn(&mut Record)) {
    let mut after = before.clone();
    leaf(&mut after);
    println!("kind={kind} {name}:{}", changed(before, &after));
}

/// The banking functions, from every mode to every mode.
fn stack_tables(kind: u8) {
    for (s_flag, m_flag) in [(0, 0), (0, 2), (4, 0), (4, 2)] {
        let mut r = Record { s_flag, m_flag, ..Record::fresh(kind) };
        r.sp = [10, 11, 12, 13, 14, 15, 16, 17];
        r.dar[15] = 99;
        println!("kind={kind} sp_index={}", leaf::sp_index(kind, &r));
        show_leaf(kind, "backup_sp", &r, |r| leaf::backup_sp(kind, r));
        show_leaf(kind, "restore_sp", &r, |r| leaf::restore_sp(kind, r));
        for value in [0, 2, 4, 6, 0xFFFF_FFFF] {
            if value & !4 == 0 {
                show_leaf(kind, "set_s_flag", &r, |r| leaf::set_s_flag(kind, r, value));
            }
            show_leaf(kind, "set_sm_flag", &r, |r| leaf::set_sm_flag(kind, r, value));
            show_leaf(kind, "set_sm_flag_nosp", &r, |r| leaf::set_sm_flag_nosp(kind, r, value));
        }
    }
}

/// A sum over what statuses leave in the flags: too many to print.
fn status_sum(kind: u8) -> u64 {
    let before = Record::fresh(kind);
    let mut sum = 0xCBF2_9CE4_8422_2325;
    for status in (0..=u16::MAX).step_by(3) {
        let mut after = before.clone();
        leaf::set_sr_noint_nosp(kind, &mut after, status);
        for byte in changed(&before, &after).bytes() {
            sum = (sum ^ u64::from(byte)).wrapping_mul(0x100_0000_01B3);
        }
    }
    sum
}

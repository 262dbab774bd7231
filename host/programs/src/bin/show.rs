//! Shows a session to a person, as text or as a page.
//!
//! What is shown is what the proved session program printed: this program works out the same bytes from
//! the proved calls, compares the two, and shows nothing if they differ in one byte.

use m68k_programs::session::predict;
use m68k_programs::view::{Names, page, text};
use std::io::{Read, Write};
use std::process::{Command, ExitCode, Stdio};

const USAGE: &str =
    "usage: show [--program PATH | --printed FILE | --predict] [--words FILE] [--page] [FILE | -]
  --program PATH   the session program: it is run on the session, and what it prints is shown
  --printed FILE   what the session program printed for the session
  --predict        prints what the session program is to print, and shows nothing
  --words FILE     words for the lines of the session, and names
  --page           a page of HTML, and not text
Without --program and --printed what is shown was printed by no session program, and it says so.";

const PRINTED: &str = "What the proved session program printed, line by line; record and stack from the proved calls.";
const PREDICTED: &str = "Made from the proved calls alone: no session program printed this.";

#[derive(Default)]
struct Options {
    program: Option<String>,
    printed: Option<String>,
    words: Option<String>,
    predict: bool,
    page: bool,
    file: Option<String>,
}

fn options(mut arguments: impl Iterator<Item = String>) -> Result<Options, String> {
    let mut options = Options::default();
    while let Some(argument) = arguments.next() {
        let mut value = || arguments.next().ok_or(format!("{argument} needs a file\n{USAGE}"));
        match argument.as_str() {
            "--program" => options.program = Some(value()?),
            "--printed" => options.printed = Some(value()?),
            "--words" => options.words = Some(value()?),
            "--predict" => options.predict = true,
            "--page" => options.page = true,
            "-" => options.file = None,
            other if other.starts_with('-') => {
                return Err(format!("no such option: {other}\n{USAGE}"));
            }
            file => options.file = Some(file.into()),
        }
    }
    Ok(options)
}

fn read(file: &str) -> Result<Vec<u8>, String> {
    std::fs::read(file).map_err(|error| format!("{file}: {error}"))
}

fn read_input(file: Option<&str>) -> Result<Vec<u8>, String> {
    let Some(file) = file else {
        let mut input = vec![];
        let done = std::io::stdin().read_to_end(&mut input);
        return done.map(|_| input).map_err(|error| format!("standard input: {error}"));
    };
    read(file)
}

/// What a program prints on an input, fed from a thread of its own: neither waits for the other.
fn run(program: &str, input: &[u8]) -> Result<Vec<u8>, String> {
    let wrong = |error: std::io::Error| format!("{program}: {error}");
    let mut child = Command::new(program)
        .stdin(Stdio::piped())
        .stdout(Stdio::piped())
        .spawn()
        .map_err(wrong)?;
    let mut feed = child.stdin.take().expect("piped");
    let output = std::thread::scope(|scope| {
        // A program that ends early closes its input; that it printed too little is then told.
        scope.spawn(move || feed.write_all(input));
        child.wait_with_output()
    });
    let output = output.map_err(wrong)?;
    if output.status.success() {
        Ok(output.stdout)
    } else {
        Err(format!("{program}: {}", output.status))
    }
}

/// The first line in which what was printed and what was predicted differ.
fn difference(printed: &[u8], predicted: &[u8]) -> Option<String> {
    if printed == predicted {
        return None;
    }
    let line = |mut lines: std::slice::Split<u8, _>, n| {
        lines.nth(n).map_or("nothing".into(), |l: &[u8]| format!("`{}`", l.escape_ascii()))
    };
    let split = |bytes| <[u8]>::split(bytes, |byte: &u8| *byte == b'\n');
    let same = split(printed).zip(split(predicted)).take_while(|(a, b)| a == b).count();
    Some(format!(
        "the session program and the proved calls do not agree, so nothing is shown: line {} of what \
         it printed is {}, and of what the calls give {}",
        same + 1,
        line(split(printed), same),
        line(split(predicted), same)
    ))
}

fn show(options: &Options) -> Result<(), String> {
    let input = read_input(options.file.as_deref())?;
    let names = match &options.words {
        None => Names::default(),
        Some(file) => Names::read(&String::from_utf8_lossy(&read(file)?))?,
    };
    let predicted = predict(&input);
    let printed = match (&options.program, &options.printed) {
        (Some(program), _) => Some(run(program, &input)?),
        (None, Some(file)) => Some(read(file)?),
        (None, None) => None,
    };
    if let Some(told) = printed.as_ref().and_then(|printed| difference(printed, &predicted)) {
        return Err(told);
    }
    let mut out = std::io::BufWriter::new(std::io::stdout().lock());
    let source = if printed.is_some() { PRINTED } else { PREDICTED };
    let done = if options.predict {
        out.write_all(&predicted)
    } else if options.page {
        page(&input, &names, source, &mut out)
    } else {
        text(&input, &names, source, &mut out)
    };
    quiet(done.and_then(|()| out.flush()))
}

/// A closed output ends quietly.
fn quiet(done: std::io::Result<()>) -> Result<(), String> {
    match done {
        Err(error) if error.kind() != std::io::ErrorKind::BrokenPipe => Err(error.to_string()),
        _ => Ok(()),
    }
}

fn main() -> ExitCode {
    match options(std::env::args().skip(1)) {
        Err(told) => {
            eprintln!("show: {told}");
            ExitCode::from(2)
        }
        Ok(options) => match show(&options) {
            Err(told) => {
                eprintln!("show: {told}");
                ExitCode::FAILURE
            }
            Ok(()) => ExitCode::SUCCESS,
        },
    }
}

//! Makes the call of one case over and over, for tools/measure.sh, and prints its answer. A return or a
//! walk, which the Rust has not, is answered once.
//! usage: measure call|copy INPUT TURNS, or measure answer INPUT

use oracle::measure::{answer, calls, copies};
use std::process::ExitCode;

fn main() -> ExitCode {
    let args: Vec<String> = std::env::args().skip(1).collect();
    let args: Vec<&str> = args.iter().map(String::as_str).collect();
    let done = match args[..] {
        [what, input, turns] => match (what, turns.parse()) {
            ("call", Ok(turns)) => calls(input, turns),
            ("copy", Ok(turns)) => copies(input, turns).map(|()| String::new()),
            _ => Err("usage: measure call|copy INPUT TURNS, or measure answer INPUT".into()),
        },
        ["answer", input] => answer(input),
        _ => Err("usage: measure call|copy INPUT TURNS, or measure answer INPUT".into()),
    };
    match done {
        Ok(answer) => {
            println!("{answer}");
            ExitCode::SUCCESS
        }
        Err(reason) => {
            eprintln!("measure: {reason}");
            ExitCode::FAILURE
        }
    }
}

//! Makes the call of one case over and over, for tools/measure.sh, and prints its answer.
//! usage: measure call|alone|copy INPUT TURNS

use m68k_programs::measure::{calls, copies};
use std::process::ExitCode;

fn main() -> ExitCode {
    let args: Vec<String> = std::env::args().skip(1).collect();
    let args: Vec<&str> = args.iter().map(String::as_str).collect();
    let done = match args[..] {
        [what, input, turns] => match (what, turns.parse()) {
            ("call" | "alone", Ok(turns)) => calls(input, turns, what == "alone"),
            ("copy", Ok(turns)) => copies(input, turns).map(|()| String::new()),
            _ => Err("usage: measure call|alone|copy INPUT TURNS".into()),
        },
        _ => Err("usage: measure call|alone|copy INPUT TURNS".into()),
    };
    match done {
        Ok(answer) => {
            println!("{answer}");
            ExitCode::SUCCESS
        }
        Err(reason) => {
            eprintln!("measure: {reason}");
            ExitCode::FAILURE
        }
    }
}

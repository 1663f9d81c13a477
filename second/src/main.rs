//! The second program: answers session files as the papers say, and makes sessions to answer.
//!
//!     second answer              a session on standard input, its answers on standard output
//!     second generate SEED LINES a made session on standard output
//!     second tally               answers on standard input, the number of each kind on standard output

mod answer;
mod choice;
mod dice;
mod generate;
mod limits;
mod lines;
mod parse;
mod power;
mod reading;
mod refusal;
mod scene_beam;
mod scene_faulty;
mod scene_power;
mod scene_readings;
mod scene_refused;
mod scene_sweep;
mod scene_watch;
mod script;
mod sweep;
mod tally;
mod watch;
mod watch_lines;
mod words;

use std::env::args_os;
use std::io::{stdin, stdout, BufWriter, Error, ErrorKind, Result};
use std::process::ExitCode;

const USAGE: &str = "second answer | second generate SEED LINES | second tally";

/// A whole number of the command line.
fn number(word: &str) -> Result<u64> {
    word.parse().map_err(|_| Error::new(ErrorKind::InvalidInput, format!("not a whole number: {word}")))
}

/// Does what the command line says.
fn run(words: &[&str]) -> Result<()> {
    let mut output = BufWriter::new(stdout().lock());
    match words {
        ["answer"] => answer::answer_all(&mut stdin().lock(), &mut output),
        ["generate", seed, lines] => generate::generate(number(seed)?, number(lines)?, &mut output),
        ["tally"] => tally::tally(&mut stdin().lock(), &mut output),
        _ => Err(Error::new(ErrorKind::InvalidInput, USAGE)),
    }
}

fn main() -> ExitCode {
    let words: Vec<String> = args_os().skip(1).map(|word| word.to_string_lossy().into_owned()).collect();
    let words: Vec<&str> = words.iter().map(String::as_str).collect();
    match run(&words) {
        Ok(()) => ExitCode::SUCCESS,
        Err(error) => {
            eprintln!("second: {error}");
            ExitCode::FAILURE
        }
    }
}

//! The program around the library.
//!
//! - `second` or `second answer` reads calls on standard input, one a line, and
//!   writes their answers on standard output,
//! - `second cases SEED COUNT` writes so many random calls from the seed,
//! - `second pick COUNT LENGTH` reads calls and writes the first so many that are
//!   decided in each way, but none whose line has more than LENGTH characters.

use second::{answer_line, case_line, parse_line, random_case, Random, Way, BAD_LINE};
use std::collections::BTreeMap;
use std::io::{self, BufRead, BufWriter, Write};
use std::process::ExitCode;

const USAGE: &str = "usage: second [answer] | second cases SEED COUNT | second pick COUNT LENGTH";

fn main() -> ExitCode {
    // An argument that is not text is one that is not known.
    let arguments: Vec<String> = std::env::args_os()
        .skip(1)
        .map(|argument| argument.to_string_lossy().into_owned())
        .collect();
    let words: Vec<&str> = arguments.iter().map(String::as_str).collect();
    let done = match words.as_slice() {
        [] | ["answer"] => answer(),
        ["cases", seed, count] => match (seed.parse(), count.parse()) {
            (Ok(seed), Ok(count)) => cases(seed, count),
            _ => return usage(),
        },
        ["pick", count, length] => match (count.parse(), length.parse()) {
            (Ok(count), Ok(length)) => pick(count, length),
            _ => return usage(),
        },
        _ => return usage(),
    };
    match done {
        Ok(()) => ExitCode::SUCCESS,
        Err(_) => ExitCode::FAILURE,
    }
}

fn usage() -> ExitCode {
    eprintln!("{USAGE}");
    ExitCode::from(2)
}

/// Lines are read as bytes, since a bad line need not be text.
fn answer() -> io::Result<()> {
    let mut output = BufWriter::new(io::stdout().lock());
    for line in io::stdin().lock().split(b'\n') {
        let line = line?;
        let text = match std::str::from_utf8(&line) {
            Ok(line) => answer_line(line),
            Err(_) => BAD_LINE.to_string(),
        };
        writeln!(output, "{text}")?;
    }
    output.flush()
}

fn cases(seed: u64, count: u64) -> io::Result<()> {
    let mut output = BufWriter::new(io::stdout().lock());
    let mut random = Random::new(seed);
    for _ in 0..count {
        writeln!(output, "{}", case_line(&random_case(&mut random)))?;
    }
    output.flush()
}

fn pick(count: u64, length: usize) -> io::Result<()> {
    let mut output = BufWriter::new(io::stdout().lock());
    let mut picked: BTreeMap<Way, u64> = BTreeMap::new();
    for line in io::stdin().lock().lines() {
        let line = line?;
        let way = match parse_line(&line) {
            Some(case) if line.len() <= length => Way::of(&case.call, &case.image),
            _ => None,
        };
        let Some(way) = way else { continue };
        let times = picked.entry(way).or_default();
        *times += 1;
        if *times <= count {
            writeln!(output, "{line}")?;
        }
    }
    output.flush()
}

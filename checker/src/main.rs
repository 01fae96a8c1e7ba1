//! A second, independent way to find deadlock circles in recordings of locks, for comparing with another program.

mod answer;
mod batch;
mod chains;
mod circle;
mod compare;
mod event;
mod fault;
mod generate;
mod halts;
mod happens_before;
mod ledger;
mod lock_graph;
mod prng;
mod recording;
mod segments;
mod tally;
#[cfg(test)]
mod tests;
mod text;

use std::io::{self, Read, Write};
use std::process::ExitCode;

const USAGE: &str = "\
usage:
  finnuvey-checker one < RECORDING             the whole answer, by the lock graph
  finnuvey-checker halts < RECORDING           the circles, by trying every halt
  finnuvey-checker generate SEED COUNT         a batch of recordings
  finnuvey-checker pick SEED PLACE             the one recording at that place, counted from 0
  finnuvey-checker expect < BATCH              the answers to all recordings of a batch
  finnuvey-checker compare PROGRAM SEED COUNT  runs PROGRAM on a batch and compares its answers";

fn main() -> ExitCode {
    let arguments: Vec<String> = std::env::args().skip(1).collect();
    let words: Vec<&str> = arguments.iter().map(String::as_str).collect();
    match run(&words) {
        Ok(true) => ExitCode::SUCCESS,
        Ok(false) => ExitCode::from(1),
        Err(problem) => {
            eprintln!("{problem}");
            ExitCode::from(2)
        }
    }
}

/// Answers whether all went well: no fault, no difference.
fn run(words: &[&str]) -> Result<bool, String> {
    match words {
        ["one"] => one(),
        ["halts"] => halts(),
        ["generate", seed, count] => generate(number(seed)?, number(count)? as usize),
        ["pick", seed, place] => pick(number(seed)?, number(place)? as usize),
        ["expect"] => expect(),
        ["compare", program, seed, count] => compare(program, number(seed)?, number(count)? as usize),
        _ => Err(USAGE.to_string()),
    }
}

fn one() -> Result<bool, String> {
    let lines = answer::lines(&standard_input()?);
    print_lines(&lines)?;
    Ok(!lines.iter().any(|line| answer::is_fault(line)))
}

fn halts() -> Result<bool, String> {
    match recording::read(&standard_input()?) {
        Err(fault) => print_lines(&[fault.to_string()]).map(|()| false),
        Ok(recording) => {
            let shown = halts::shown(&recording.events).ok_or("the recording is too large to try every halt")?;
            eprintln!("{} halts", shown.halts);
            print_lines(&shown.lines).map(|()| true)
        }
    }
}

fn generate(seed: u64, count: usize) -> Result<bool, String> {
    let samples = generate::samples(seed, count);
    print_bytes(&batch::write(samples.iter().map(|sample| &sample.file[..]))).map(|()| true)
}

fn pick(seed: u64, place: usize) -> Result<bool, String> {
    let samples = generate::samples(seed, place + 1);
    print_bytes(&samples[place].file).map(|()| true)
}

fn expect() -> Result<bool, String> {
    for recording in batch::read(&standard_input()?)? {
        print_lines(&answer::lines(recording))?;
    }
    Ok(true)
}

fn compare(program: &str, seed: u64, count: usize) -> Result<bool, String> {
    if count == 0 {
        return Err("there is nothing to compare".to_string());
    }
    compare::compare(program, seed, count).map_err(|error| format!("{program}: {error}"))
}

fn number(word: &str) -> Result<u64, String> {
    word.parse().map_err(|_| format!("{word} is no number"))
}

fn standard_input() -> Result<Vec<u8>, String> {
    let mut bytes = Vec::new();
    io::stdin().read_to_end(&mut bytes).map_err(|error| error.to_string())?;
    Ok(bytes)
}

fn print_lines(lines: &[String]) -> Result<(), String> {
    let text: String = lines.iter().map(|line| format!("{line}\n")).collect();
    print_bytes(text.as_bytes())
}

fn print_bytes(bytes: &[u8]) -> Result<(), String> {
    io::stdout().write_all(bytes).map_err(|error| error.to_string())
}

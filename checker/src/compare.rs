//! Running another program on a batch of recordings and comparing its answers with those of this one.

use crate::generate::{self, Sample};
use crate::tally::{Counts, Tally};
use crate::{answer, batch, chains, halts, recording};
use std::io::{self, Write};
use std::process::{Command, Stdio};
use std::thread;

/// So many differences are printed in full.
const MOST_PRINTED: usize = 5;

/// Prints the counts, and answers whether nothing differed.
pub fn compare(program: &str, seed: u64, count: usize) -> io::Result<bool> {
    let samples = generate::samples(seed, count);
    let output = run(program, batch::write(samples.iter().map(|sample| &sample.file[..])))?;
    let answers = split_answers(&output, samples.len());
    let mut tally = Tally::default();
    let mut failed = 0;
    for (place, sample) in samples.iter().enumerate() {
        let differences = check(sample, place, &answers, tally.of(sample.kind));
        if !differences.is_empty() {
            failed += 1;
            if failed <= MOST_PRINTED {
                print_difference(seed, place, sample, &differences);
            }
        }
    }
    tally.print();
    println!("{} passed, {failed} failed", samples.len() - failed);
    Ok(failed == 0)
}

/// The whole standard output of the program.
fn run(program: &str, batch: Vec<u8>) -> io::Result<String> {
    let mut child = Command::new(program).stdin(Stdio::piped()).stdout(Stdio::piped()).spawn()?;
    let mut input = child.stdin.take().expect("standard input is piped");
    let writer = thread::spawn(move || input.write_all(&batch));
    let output = child.wait_with_output()?;
    if let Err(error) = writer.join().expect("the writing thread does not panic") {
        println!("the program did not read all recordings: {error}");
    }
    if !output.status.success() {
        println!("the program ended with {}", output.status);
    }
    Ok(String::from_utf8_lossy(&output.stdout).into_owned())
}

/// The lines for each recording. A missing answer is an empty one, and lines too many go to the last answer.
fn split_answers(output: &str, count: usize) -> Vec<Vec<String>> {
    let mut answers = vec![Vec::new(); count];
    let mut place = 0;
    for line in output_lines(output) {
        let is_last = answer::is_last(&line) && place + 1 < count;
        answers[place].push(line);
        place += usize::from(is_last);
    }
    answers
}

/// Where the last newline is missing, the last line is no right one.
fn output_lines(output: &str) -> Vec<String> {
    let mut lines: Vec<String> = output.split('\n').map(String::from).collect();
    match lines.pop() {
        Some(unended) if !unended.is_empty() => lines.push(format!("{unended} (newline missing)")),
        _ => {}
    }
    lines
}

/// Two answers that should agree and do not.
struct Difference {
    what: &'static str,
    wanted: Vec<String>,
    got: Vec<String>,
}

fn check(sample: &Sample, place: usize, answers: &[Vec<String>], counts: &mut Counts) -> Vec<Difference> {
    let got = &answers[place];
    let by_graph = answer::lines(&sample.file);
    count(&by_graph, counts);
    let mut differences = Vec::new();
    if *got != by_graph {
        differences.push(difference("the lock graph and the program", &by_graph, got));
    }
    differences.extend(check_by_halts(sample, &by_graph, got, counts));
    if let Some(twin) = sample.twin.filter(|&twin| answers[twin] != *got) {
        differences.push(difference("the program on two interleavings", &answers[twin], got));
    }
    differences
}

fn difference(what: &'static str, wanted: &[String], got: &[String]) -> Difference {
    Difference { what, wanted: wanted.to_vec(), got: got.to_vec() }
}

fn count(answer: &[String], counts: &mut Counts) {
    counts.recordings += 1;
    counts.with_circles += usize::from(answer.len() > 1);
    if let Some(cause) = cause_of(answer) {
        *counts.faults_by_cause.entry(cause.to_string()).or_default() += 1;
    }
}

fn cause_of(answer: &[String]) -> Option<&str> {
    let fault = answer.last().filter(|line| answer::is_fault(line))?;
    fault.rsplit(' ').next()
}

/// Compares the circles of the lock graph with those that some halt shows, where every halt can be tried.
fn check_by_halts(sample: &Sample, by_graph: &[String], got: &[String], counts: &mut Counts) -> Option<Difference> {
    let events = recording::read(&sample.file).ok()?.events;
    let Some(shown) = halts::shown(&events) else {
        counts.too_large_for_halts += 1;
        return None;
    };
    counts.by_halts += 1;
    if !agree(by_graph, &shown.lines) {
        return Some(difference("the halts and the lock graph", &shown.lines, by_graph));
    }
    let is_report = got.last().is_some_and(|line| !answer::is_fault(line));
    let is_empty = got.len() == 1;
    if is_report && is_empty != shown.lines.is_empty() {
        return Some(difference("the halts and the program's report being empty", &shown.lines, got));
    }
    None
}

/// A report has the circles of the halts. If it was refused for too many circles, the halts show too many. If it was
/// refused for too many chains, nothing is said of the circles.
pub fn agree(by_graph: &[String], by_halts: &[String]) -> bool {
    match cause_of(by_graph) {
        None => by_graph[..by_graph.len() - 1] == *by_halts,
        Some("13") => by_halts.len() > chains::CIRCLE_PLACES,
        Some(_) => true,
    }
}

fn print_difference(seed: u64, place: usize, sample: &Sample, differences: &[Difference]) {
    println!("recording {place} of seed {seed}, kind {}, {} bytes:", sample.kind, sample.file.len());
    println!("{}", sample.file.escape_ascii().to_string().replace("\\n", "\\n\n"));
    for Difference { what, wanted, got } in differences {
        println!("{what} differ; wanted:");
        wanted.iter().for_each(|line| println!("  {line}"));
        println!("got:");
        got.iter().for_each(|line| println!("  {line}"));
    }
}

//! Tests of the whole way from a file to its lines, and of the two ways against each other.

mod agreement;
mod limits;
mod refusals;
mod worked_recordings;

use crate::{answer, halts, recording};

/// Makes a file of events that are parted by blanks.
fn file(events: &str) -> Vec<u8> {
    events.split_whitespace().map(|event| format!("{event}\n")).collect::<String>().into_bytes()
}

/// The answer by the lock graph.
fn answer(events: &str) -> Vec<String> {
    answer::lines(&file(events))
}

/// The circle lines by trying every halt.
fn shown(events: &str) -> Vec<String> {
    let events = recording::read(&file(events)).expect("the recording is valid").events;
    halts::shown(&events).expect("the recording is small").lines
}

//! Taking a whole file, line by line, up to its end or its first fault.

use crate::event::Event;
use crate::fault::{Cause, Fault};
use crate::ledger::Ledger;
use crate::text;

/// A longer file is turned down before anything else is looked at.
pub const MOST_BYTES: usize = 60_000;

/// A recording all of whose events were accepted.
pub struct Recording {
    pub events: Vec<Event>,
    pub ledger: Ledger,
}

pub fn read(file: &[u8]) -> Result<Recording, Fault> {
    if file.len() > MOST_BYTES {
        return Err(Fault::of_whole_file(Cause::FileTooLong));
    }
    let mut recording = Recording { events: Vec::new(), ledger: Ledger::fresh() };
    for (index, line) in lines(file).into_iter().enumerate() {
        take_line(&mut recording, index + 1, line)?;
    }
    Ok(recording)
}

fn take_line(recording: &mut Recording, number: usize, line: &[u8]) -> Result<(), Fault> {
    let event = text::event(line).map_err(|wrong| Fault { line: number, column: wrong.column, cause: wrong.cause })?;
    recording.ledger.take(event).map_err(|cause| Fault { line: number, column: 1, cause })?;
    recording.events.push(event);
    Ok(())
}

/// A newline ends each line; the last newline may be missing. An empty file has no line.
fn lines(file: &[u8]) -> Vec<&[u8]> {
    let mut lines: Vec<&[u8]> = file.split(|&byte| byte == b'\n').collect();
    if lines.last().is_some_and(|last| last.is_empty()) {
        lines.pop();
    }
    lines
}

//! The whole printed answer to one file, by way of the lock graph.

use crate::chains::{self, Report};
use crate::fault::Fault;
use crate::recording;

/// A line for each circle and a last line with the counts, or the one line of a fault.
pub fn lines(file: &[u8]) -> Vec<String> {
    match report(file) {
        Ok(report) => report_lines(&report),
        Err(fault) => vec![fault.to_string()],
    }
}

fn report(file: &[u8]) -> Result<Report, Fault> {
    let ledger = recording::read(file)?.ledger;
    chains::report(&ledger.graph, &ledger.order, chains::BUDGET, chains::CIRCLE_PLACES).map_err(Fault::of_whole_file)
}

fn report_lines(report: &Report) -> Vec<String> {
    let mut lines: Vec<String> = report.circles.iter().map(|circle| circle.to_string()).collect();
    lines.push(format!("circles {} chains {}", report.circles.len(), report.chains));
    lines
}

/// Whether a line is the last one of an answer.
pub fn is_last(line: &str) -> bool {
    line.starts_with("circles ") || is_fault(line)
}

pub fn is_fault(line: &str) -> bool {
    line.starts_with("line ")
}

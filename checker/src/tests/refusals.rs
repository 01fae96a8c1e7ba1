//! Every number with which a recording is turned down, and which number comes first where several fit.

use super::answer;
use crate::answer::lines;
use crate::fault::Cause;
use crate::segments::SegmentOrder;

/// The last of the events, which stand in lines of their own, is turned down by the ledger.
fn assert_ledger_refuses_last(events: &str, cause: u8) {
    let line = events.split_whitespace().count();
    assert_eq!(answer(events), [format!("line {line} column 1 layer ledger cause {cause}")]);
}

#[test]
fn numbers_above_63() {
    assert_ledger_refuses_last("l(T64,L0)", 1);
    assert_ledger_refuses_last("u(T0,L999)", 1);
    assert_ledger_refuses_last("s(T1,T64)", 1);
    assert_ledger_refuses_last("j(T100,T100)", 1);
}

#[test]
fn threads_that_are_not_live() {
    assert_ledger_refuses_last("l(T1,L0)", 2);
    assert_ledger_refuses_last("s(T1,T1)", 2);
    assert_ledger_refuses_last("s(T0,T1) j(T0,T1) u(T1,L0)", 2);
    assert_ledger_refuses_last("s(T0,T1) j(T1,T0) j(T0,T1)", 2);
}

#[test]
fn locks_that_are_held() {
    assert_ledger_refuses_last("l(T0,L5) l(T0,L5)", 3);
    assert_ledger_refuses_last("s(T0,T1) l(T0,L5) l(T1,L5)", 4);
    assert_ledger_refuses_last("s(T0,T1) l(T1,L5) j(T0,T1) l(T0,L5)", 4);
}

#[test]
fn locks_that_are_not_held() {
    assert_ledger_refuses_last("u(T0,L5)", 5);
    assert_ledger_refuses_last("s(T0,T1) l(T1,L5) u(T0,L5)", 5);
}

#[test]
fn threads_that_cannot_be_started() {
    assert_ledger_refuses_last("s(T0,T0)", 6);
    assert_ledger_refuses_last("s(T0,T1) j(T0,T1) s(T0,T1)", 6);
}

#[test]
fn threads_that_cannot_be_joined() {
    assert_ledger_refuses_last("j(T0,T0)", 7);
    assert_ledger_refuses_last("j(T0,T1)", 7);
}

#[test]
fn a_joined_thread_can_be_joined_again() {
    assert_eq!(answer("s(T0,T1) j(T0,T1) j(T0,T1)"), ["circles 0 chains 0"]);
}

#[test]
fn segments_that_are_no_open_ends() {
    let mut order = SegmentOrder::fresh();
    assert_eq!(order.fork(1), Err(Cause::NotAnOpenEnd));
    assert_eq!(order.meet(0, 0), Err(Cause::NotAnOpenEnd));
    assert_eq!(order.fork(0), Ok(1));
    assert_eq!(order.fork(0), Err(Cause::NotAnOpenEnd));
    assert_eq!(order.meet(1, 2), Ok(3));
    assert_eq!(order.meet(1, 2), Err(Cause::NotAnOpenEnd));
    assert_eq!(order.meet(3, 2), Ok(4));
    assert_eq!(order.count(), 5);
}

#[test]
fn segments_stay_below_256() {
    let to_255 = format!("s(T0,T1) {}", "j(T0,T1) ".repeat(252));
    assert_eq!(answer(&format!("{to_255} j(T0,T1)")), ["circles 0 chains 0"]);
    assert_eq!(answer(&format!("{to_255} j(T0,T1) j(T0,T1)")), ["line 255 column 1 layer order cause 9"]);
    assert_eq!(answer(&format!("{to_255} s(T0,T2)")), ["line 254 column 1 layer order cause 9"]);
    assert_eq!(answer(&format!("{to_255} s(T0,T1)")), ["line 254 column 1 layer ledger cause 6"]);
}

#[test]
fn edges_need_places() {
    let takes: String = (0..46).map(|lock| format!("l(T0,L{lock}) ")).collect();
    assert_ledger_refuses_last(&takes, 10);
}

#[test]
fn lines_without_a_known_first_letter() {
    assert_eq!(lines(b"\n"), ["line 1 column 1 layer text cause 14"]);
    assert_eq!(lines(b"s(T0,T1)\n\n"), ["line 2 column 1 layer text cause 14"]);
    assert_eq!(lines(b"L(T0,L1)"), ["line 1 column 1 layer text cause 14"]);
    assert_eq!(lines(b" l(T0,L1)"), ["line 1 column 1 layer text cause 14"]);
}

/// A one-line file with a wrong byte.
fn assert_wrong_byte(line: &str, column: usize, cause: u8) {
    assert_eq!(lines(line.as_bytes()), [format!("line 1 column {column} layer text cause {cause}")]);
}

#[test]
fn wrong_missing_and_further_bytes() {
    assert_wrong_byte("l", 2, 15);
    assert_wrong_byte("l(", 3, 15);
    assert_wrong_byte("l(T0", 5, 15);
    assert_wrong_byte("l(T0,L1", 8, 15);
    assert_wrong_byte("l(T0,T1)", 6, 15);
    assert_wrong_byte("s(T0,L1)", 6, 15);
    assert_wrong_byte("l(T0,L1) ", 9, 15);
    assert_wrong_byte("l(T0,L1)\r\n", 9, 15);
    assert_wrong_byte("l(t0,L64)", 3, 15);
}

#[test]
fn wrong_numbers() {
    assert_wrong_byte("l(T", 4, 16);
    assert_wrong_byte("l(T,L1)", 4, 16);
    assert_wrong_byte("l(T00,L1)", 5, 16);
    assert_wrong_byte("l(T01,L1)", 5, 16);
    assert_wrong_byte("l(T1000,L1)", 7, 16);
    assert_wrong_byte("l(T0,L", 7, 16);
    assert_wrong_byte("l(T0,L-1)", 7, 16);
}

#[test]
fn the_text_is_read_before_the_event_is_checked() {
    assert_wrong_byte("l(T999,L1", 10, 15);
    assert_eq!(lines(b"l(T999,L1)"), ["line 1 column 1 layer ledger cause 1"]);
}

#[test]
fn the_first_fault_is_told() {
    assert_eq!(answer("l(T0,L1) l(T0,L1) x"), ["line 2 column 1 layer ledger cause 3"]);
    assert_eq!(answer("l(T0,L1) x l(T0,L1)"), ["line 2 column 1 layer text cause 14"]);
}

#[test]
fn a_file_has_at_most_60000_bytes() {
    assert_eq!(lines(&[b'x'; 60_000]), ["line 1 column 1 layer text cause 14"]);
    assert_eq!(lines(&[b'x'; 60_001]), ["line 0 column 0 layer text cause 17"]);
}

#[test]
fn the_last_newline_may_be_missing() {
    assert_eq!(lines(b"s(T0,T1)\nl(T1,L0)"), ["circles 0 chains 0"]);
}

//! Why a recording is turned down, and the one line that says so.

use std::fmt;

/// Every cause with its fixed number. Number 11 never ends a recording and has no name here.
#[derive(Clone, Copy, PartialEq, Eq, Debug)]
#[repr(u8)]
pub enum Cause {
    NumberAbove63 = 1,
    ThreadNotLive = 2,
    LockHeldAlready = 3,
    LockHeldByAnother = 4,
    LockNotHeld = 5,
    StartedNotUnborn = 6,
    JoinOfSelfOrUnborn = 7,
    NotAnOpenEnd = 8,
    SegmentCeiling = 9,
    EdgePlacesFull = 10,
    MoreChainsThanBudget = 12,
    MoreCirclesThanPlaces = 13,
    FirstLetter = 14,
    WrongByte = 15,
    WrongNumber = 16,
    FileTooLong = 17,
}

impl Cause {
    pub fn number(self) -> u8 {
        self as u8
    }

    pub fn layer(self) -> &'static str {
        match self.number() {
            1..=7 | 10 => "ledger",
            8 | 9 => "order",
            12 | 13 => "search",
            _ => "text",
        }
    }
}

/// A cause with its place. Lines and columns count from 1; a fault of the whole file has 0 and 0.
#[derive(Clone, Copy, PartialEq, Eq, Debug)]
pub struct Fault {
    pub line: usize,
    pub column: usize,
    pub cause: Cause,
}

impl Fault {
    pub fn of_whole_file(cause: Cause) -> Fault {
        Fault { line: 0, column: 0, cause }
    }
}

impl fmt::Display for Fault {
    fn fmt(&self, f: &mut fmt::Formatter<'_>) -> fmt::Result {
        let Fault { line, column, cause } = *self;
        write!(f, "line {line} column {column} layer {} cause {}", cause.layer(), cause.number())
    }
}

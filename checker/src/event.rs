//! The four kinds of event in a recording, and how an event is written as a line.

use std::fmt;

/// One event. `thread` is always the acting thread.
#[derive(Clone, Copy, PartialEq, Eq, Debug)]
pub enum Event {
    Lock { thread: usize, lock: usize },
    Release { thread: usize, lock: usize },
    Start { thread: usize, started: usize },
    Join { thread: usize, joined: usize },
}

impl Event {
    pub fn thread(self) -> usize {
        match self {
            Event::Lock { thread, .. }
            | Event::Release { thread, .. }
            | Event::Start { thread, .. }
            | Event::Join { thread, .. } => thread,
        }
    }
}

impl fmt::Display for Event {
    fn fmt(&self, f: &mut fmt::Formatter<'_>) -> fmt::Result {
        match *self {
            Event::Lock { thread, lock } => write!(f, "l(T{thread},L{lock})"),
            Event::Release { thread, lock } => write!(f, "u(T{thread},L{lock})"),
            Event::Start { thread, started } => write!(f, "s(T{thread},T{started})"),
            Event::Join { thread, joined } => write!(f, "j(T{thread},T{joined})"),
        }
    }
}

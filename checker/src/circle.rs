//! Circles of threads, their order, their odds and their printed lines.

use std::cmp::Ordering;
use std::fmt;

/// A thread holds one lock and wants another.
#[derive(Clone, Copy, PartialEq, Eq, PartialOrd, Ord, Debug)]
pub struct Step {
    pub thread: usize,
    pub held: usize,
    pub wanted: usize,
}

/// Each step's wanted lock is the next step's held lock, and the last wanted lock is the first held one.
#[derive(Clone, PartialEq, Eq, Debug)]
pub struct Circle {
    pub steps: Vec<Step>,
}

/// Shorter circles first; among equally long ones the first step that differs decides.
impl Ord for Circle {
    fn cmp(&self, other: &Circle) -> Ordering {
        let by_length = self.steps.len().cmp(&other.steps.len());
        by_length.then_with(|| self.steps.cmp(&other.steps))
    }
}

impl PartialOrd for Circle {
    fn partial_cmp(&self, other: &Circle) -> Option<Ordering> {
        Some(self.cmp(other))
    }
}

impl fmt::Display for Circle {
    fn fmt(&self, f: &mut fmt::Formatter<'_>) -> fmt::Result {
        for Step { thread, held, wanted } in &self.steps {
            write!(f, "T{thread}:L{held}>L{wanted} ")?;
        }
        let odds = odds(self.steps.len(), 1).expect("a circle has 2 to 64 steps");
        write!(f, "odds {odds}")
    }
}

/// 10,000 × k! / (n × k^k), rounded down, for k from 2 to 64 and n from 1 to 8; else nothing.
pub fn odds(k: usize, n: usize) -> Option<u128> {
    if !(2..=64).contains(&k) || !(1..=8).contains(&n) {
        return None;
    }
    if k >= 16 {
        return Some(0);
    }
    let factorial: u128 = (1..=k as u128).product();
    let power = (k as u128).pow(k as u32);
    Some(10_000 * factorial / (n as u128 * power))
}

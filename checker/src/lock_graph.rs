//! The edges of the lock graph: who held which lock while taking which other one.

use crate::fault::Cause;
use std::collections::BTreeSet;

/// How many different edges there is room for.
pub const PLACES: usize = 1024;

/// The fields stand in the order in which edges are compared. In `guards` lock i is bit i.
#[derive(Clone, Copy, PartialEq, Eq, PartialOrd, Ord, Debug)]
pub struct Edge {
    pub thread: usize,
    pub held: usize,
    pub wanted: usize,
    pub guards: u64,
    pub segment: usize,
}

#[derive(Default)]
pub struct LockGraph {
    edges: BTreeSet<Edge>,
}

impl LockGraph {
    /// Adds the edges that one taking of a lock draws: all of them, or none if the new ones do not fit.
    pub fn add(&mut self, drawn: &[Edge]) -> Result<(), Cause> {
        let new = drawn.iter().filter(|edge| !self.edges.contains(edge)).count();
        if new > PLACES - self.edges.len() {
            return Err(Cause::EdgePlacesFull);
        }
        self.edges.extend(drawn);
        Ok(())
    }

    /// The edges in ascending order.
    pub fn edges(&self) -> Vec<Edge> {
        self.edges.iter().copied().collect()
    }
}

//! The search of the lock graph: every chain of edges is counted, and every closed one gives a circle.
//!
//! In a chain each wanted lock is the next held lock. Every two of its edges differ in thread, share no guard and
//! lie in parallel segments. Its first thread is its smallest.

use crate::circle::{Circle, Step};
use crate::fault::Cause;
use crate::lock_graph::{Edge, LockGraph};
use crate::segments::{Precedence, SegmentOrder};
use std::collections::BTreeSet;

pub const BUDGET: u64 = 1_000_000;
pub const CIRCLE_PLACES: usize = 64;

pub struct Report {
    pub circles: BTreeSet<Circle>,
    pub chains: u64,
}

/// Too many chains are told before too many circles.
pub fn report(graph: &LockGraph, order: &SegmentOrder, budget: u64, places: usize) -> Result<Report, Cause> {
    let edges = graph.edges();
    let mut search = Search::over(&edges, order, budget, places);
    for &edge in &edges {
        search.visit(&mut vec![edge])?;
    }
    if search.circles.len() > places {
        return Err(Cause::MoreCirclesThanPlaces);
    }
    Ok(Report { circles: search.circles, chains: search.chains })
}

struct Search {
    /// For each lock the edges with that held lock, ascending.
    edges_by_held: Vec<Vec<Edge>>,
    precedence: Precedence,
    budget: u64,
    places: usize,
    chains: u64,
    circles: BTreeSet<Circle>,
}

impl Search {
    fn over(edges: &[Edge], order: &SegmentOrder, budget: u64, places: usize) -> Search {
        let mut edges_by_held = vec![Vec::new(); 64];
        for &edge in edges {
            edges_by_held[edge.held].push(edge);
        }
        let precedence = order.precedence();
        Search { edges_by_held, precedence, budget, places, chains: 0, circles: BTreeSet::new() }
    }

    /// Counts this chain and all that go on from it.
    fn visit(&mut self, chain: &mut Vec<Edge>) -> Result<(), Cause> {
        self.chains += 1;
        if self.chains > self.budget {
            return Err(Cause::MoreChainsThanBudget);
        }
        if closes(chain) {
            self.keep_circle(chain);
        }
        let held_next = chain[chain.len() - 1].wanted;
        for place in 0..self.edges_by_held[held_next].len() {
            let next = self.edges_by_held[held_next][place];
            if self.goes_on(chain, next) {
                chain.push(next);
                self.visit(chain)?;
                chain.pop();
            }
        }
        Ok(())
    }

    fn goes_on(&self, chain: &[Edge], next: Edge) -> bool {
        next.thread > chain[0].thread && chain.iter().all(|&edge| self.go_together(edge, next))
    }

    fn go_together(&self, a: Edge, b: Edge) -> bool {
        a.thread != b.thread && a.guards & b.guards == 0 && self.precedence.parallel(a.segment, b.segment)
    }

    /// Once there is one circle too many, no further one is needed.
    fn keep_circle(&mut self, chain: &[Edge]) {
        if self.circles.len() <= self.places {
            self.circles.insert(circle_of(chain));
        }
    }
}

fn closes(chain: &[Edge]) -> bool {
    chain.len() >= 2 && chain[chain.len() - 1].wanted == chain[0].held
}

fn circle_of(chain: &[Edge]) -> Circle {
    let step = |edge: &Edge| Step { thread: edge.thread, held: edge.held, wanted: edge.wanted };
    Circle { steps: chain.iter().map(step).collect() }
}

//! What the threads may do. The ledger keeps a row for each thread, draws the edges and cuts the segments.
//! A refused event changes nothing.

use crate::event::Event;
use crate::fault::Cause;
use crate::lock_graph::{Edge, LockGraph};
use crate::segments::SegmentOrder;

/// Threads and locks are numbered below this.
pub const NUMBERS: usize = 64;

#[derive(Clone, Copy, PartialEq, Eq)]
enum State {
    Unborn,
    Live,
    Joined,
}

#[derive(Clone, Copy)]
struct Row {
    state: State,
    segment: usize,
    /// Lock i is bit i.
    held: u64,
}

pub struct Ledger {
    rows: [Row; NUMBERS],
    pub order: SegmentOrder,
    pub graph: LockGraph,
}

impl Ledger {
    /// Thread 0 is live in segment 0, every other thread unborn, and no lock is held.
    pub fn fresh() -> Ledger {
        let unborn = Row { state: State::Unborn, segment: 0, held: 0 };
        let mut rows = [unborn; NUMBERS];
        rows[0].state = State::Live;
        Ledger { rows, order: SegmentOrder::fresh(), graph: LockGraph::default() }
    }

    pub fn take(&mut self, event: Event) -> Result<(), Cause> {
        match event {
            Event::Lock { thread, lock } => self.lock(thread, lock),
            Event::Release { thread, lock } => self.release(thread, lock),
            Event::Start { thread, started } => self.start(thread, started),
            Event::Join { thread, joined } => self.join(thread, joined),
        }
    }

    fn lock(&mut self, thread: usize, lock: usize) -> Result<(), Cause> {
        self.check_actor(thread, lock)?;
        if self.holds(thread, lock) {
            return Err(Cause::LockHeldAlready);
        }
        if (0..NUMBERS).any(|other| self.holds(other, lock)) {
            return Err(Cause::LockHeldByAnother);
        }
        let drawn = self.edges_drawn_by(thread, lock);
        self.graph.add(&drawn)?;
        self.rows[thread].held |= 1 << lock;
        Ok(())
    }

    fn release(&mut self, thread: usize, lock: usize) -> Result<(), Cause> {
        self.check_actor(thread, lock)?;
        if !self.holds(thread, lock) {
            return Err(Cause::LockNotHeld);
        }
        self.rows[thread].held &= !(1 << lock);
        Ok(())
    }

    fn start(&mut self, thread: usize, started: usize) -> Result<(), Cause> {
        self.check_actor(thread, started)?;
        if self.rows[started].state != State::Unborn {
            return Err(Cause::StartedNotUnborn);
        }
        let new = self.order.fork(self.rows[thread].segment)?;
        self.rows[thread].segment = new;
        self.rows[started] = Row { state: State::Live, segment: new + 1, held: 0 };
        Ok(())
    }

    fn join(&mut self, thread: usize, joined: usize) -> Result<(), Cause> {
        self.check_actor(thread, joined)?;
        if joined == thread || self.rows[joined].state == State::Unborn {
            return Err(Cause::JoinOfSelfOrUnborn);
        }
        let new = self.order.meet(self.rows[thread].segment, self.rows[joined].segment)?;
        self.rows[thread].segment = new;
        self.rows[joined].state = State::Joined;
        Ok(())
    }

    /// What every event is asked first: both numbers are in range, and the acting thread is live.
    fn check_actor(&self, thread: usize, other: usize) -> Result<(), Cause> {
        if thread >= NUMBERS || other >= NUMBERS {
            return Err(Cause::NumberAbove63);
        }
        if self.rows[thread].state != State::Live {
            return Err(Cause::ThreadNotLive);
        }
        Ok(())
    }

    fn holds(&self, thread: usize, lock: usize) -> bool {
        self.rows[thread].held & (1 << lock) != 0
    }

    /// One edge for each lock that the thread holds, in the segment that the thread is in now.
    fn edges_drawn_by(&self, thread: usize, wanted: usize) -> Vec<Edge> {
        let Row { segment, held: guards, .. } = self.rows[thread];
        (0..NUMBERS)
            .filter(|&held| self.holds(thread, held))
            .map(|held| Edge { thread, held, wanted, guards, segment })
            .collect()
    }
}

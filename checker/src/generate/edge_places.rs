//! Recordings that draw exactly as many edges as there are places for, and more.

use super::rich::started_first;
use super::text_of;
use crate::event::Event;
use crate::prng::Prng;
use std::collections::BTreeSet;

/// Exactly 1,024 edges and then a nest that draws only known ones; and, with few places left or none, a taking that
/// draws one new edge more than fit.
pub fn edges_1024(prng: &mut Prng) -> Vec<Vec<u8>> {
    let threads: Vec<usize> = (0..prng.between(1, 3)).collect();
    let mut drawing = Drawing::new(started_first(&threads).lists[0].clone());
    let few = prng.below(6);
    drawing.fill(prng, &threads, few);
    let known = drawing.nest_of_at_least(few + 1);
    let over = drawing.over_with(&known, few);
    drawing.fill(prng, &threads, 0);
    drawing.nest(known.0, &known.1);
    vec![text_of(&drawing.events), text_of(&over)]
}

fn ascending_mostly(prng: &mut Prng, size: usize) -> Vec<usize> {
    let mut locks = prng.distinct(size, 64);
    if prng.percent(95) {
        locks.sort();
    }
    locks
}

/// Nests of whole takings in one segment for each thread, with a count of the edges that they draw.
struct Drawing {
    events: Vec<Event>,
    edges: BTreeSet<(usize, usize, usize, u64)>,
    nests: Vec<(usize, Vec<usize>)>,
}

impl Drawing {
    fn new(events: Vec<Event>) -> Drawing {
        Drawing { events, edges: BTreeSet::new(), nests: Vec::new() }
    }

    fn free(&self) -> usize {
        1024 - self.edges.len()
    }

    /// Adds random nests until so many places are left.
    fn fill(&mut self, prng: &mut Prng, threads: &[usize], left: usize) {
        while self.free() > left {
            let to_fill = self.free() - left;
            let most = (2..=12).rev().find(|size| size * (size - 1) / 2 <= to_fill).expect("one place is to fill");
            let size = prng.between(2, most);
            let thread = prng.pick(threads);
            self.nest(thread, &ascending_mostly(prng, size));
        }
    }

    fn nest(&mut self, thread: usize, locks: &[usize]) {
        let mut guards = 0;
        for (place, &lock) in locks.iter().enumerate() {
            self.edges.extend(locks[..place].iter().map(|&held| (thread, held, lock, guards)));
            guards |= 1 << lock;
        }
        self.events.extend(locks.iter().map(|&lock| Event::Lock { thread, lock }));
        self.events.extend(locks.iter().rev().map(|&lock| Event::Release { thread, lock }));
        self.nests.push((thread, locks.to_vec()));
    }

    fn nest_of_at_least(&self, size: usize) -> (usize, Vec<usize>) {
        self.nests.iter().find(|nest| nest.1.len() >= size).expect("some nest is large").clone()
    }

    /// The first locks of a known nest are taken again, one more than places are free, and then a new lock.
    fn over_with(&self, known: &(usize, Vec<usize>), free: usize) -> Vec<Event> {
        let (thread, held) = (known.0, &known.1[..free + 1]);
        let guards = held.iter().fold(0, |guards, lock| guards | 1 << lock);
        let is_new = |wanted: &usize| !self.edges.contains(&(thread, held[0], *wanted, guards));
        let wanted = (0..64).find(|wanted| !held.contains(wanted) && is_new(wanted)).expect("some lock is new");
        let takes = held.iter().copied().chain([wanted]).map(|lock| Event::Lock { thread, lock });
        self.events.iter().copied().chain(takes).collect()
    }
}

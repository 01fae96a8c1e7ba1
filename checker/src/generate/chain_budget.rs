//! Recordings with an exactly known number of chains.
//!
//! A ladder of rungs: the edges of rung i lead from hub lock i to hub lock i + 1, and each rung has a number of
//! edges. Every run of one or more neighbouring rungs with one edge chosen on each is a chain. Ladders on
//! different locks add up.

use super::plan::Plan;
use super::rich::{pair, started_first};
use super::text_of;
use crate::event::Event;
use crate::prng::Prng;

pub const BUDGET: usize = 1_000_000;

/// Exactly the budget, one more, one near it, and one that may have too many chains and too many circles at once.
pub fn chains_1000000(prng: &mut Prng) -> Vec<Vec<u8>> {
    let near = prng.between(BUDGET - 20, BUDGET + 20);
    let recordings = [BUDGET, BUDGET + 1, near].map(|chains| with_chains(prng, chains));
    recordings.iter().chain([&crowd(prng)]).map(|events| text_of(events)).collect()
}

/// All 64 threads take two of a few locks, one inside the other, one to three times.
fn crowd(prng: &mut Prng) -> Vec<Event> {
    let mut plan = started_first(&(0..64).collect::<Vec<_>>());
    let few = prng.between(5, 9);
    let times = prng.between(1, 4);
    for thread in (0..64).flat_map(|thread| vec![thread; times]) {
        let locks = prng.distinct(2, few);
        plan.extend(pair(thread, locks[0], locks[1]));
    }
    plan.interleave(prng, 100, 1).expect("each thread does all that it does at once")
}

/// A recording with exactly so many chains, at least six. In some, six of them come from a circle of three threads.
pub fn with_chains(prng: &mut Prng, chains: usize) -> Vec<Event> {
    let mut hubs = Hubs::shuffled(prng);
    let circle = if prng.percent(50) { hubs.take(3) } else { Vec::new() };
    let in_ladders = if circle.is_empty() { chains } else { chains - 6 };
    let mut plan = if prng.percent(50) {
        rungs_of_many_threads(hubs, in_ladders)
    } else {
        rungs_of_many_segments(hubs, in_ladders)
    };
    for (thread, &held) in circle.iter().enumerate() {
        plan.extend(pair(thread, held, circle[(thread + 1) % 3]));
    }
    plan.interleave(prng, 99, 200).expect("only the circle can stop the threads, and seldom does")
}

/// On each rung every edge is drawn by another thread.
fn rungs_of_many_threads(mut hubs: Hubs, chains: usize) -> Plan {
    let mut plan = started_first(&(0..64).collect::<Vec<_>>());
    for sizes in ladders(chains) {
        let locks = hubs.take(sizes.len() + 1);
        let mut thread = 0;
        for (rung, &size) in sizes.iter().enumerate() {
            for _ in 0..size {
                plan.extend(pair(thread, locks[rung], locks[rung + 1]));
                thread += 1;
            }
        }
    }
    plan
}

/// On each rung one thread draws every edge, each in another segment, which it comes to by joining an idle thread.
fn rungs_of_many_segments(mut hubs: Hubs, chains: usize) -> Plan {
    let ladders = ladders(chains);
    let rungs = ladders.iter().map(Vec::len).max().unwrap_or(0);
    let idle = rungs + 1;
    let mut plan = started_first(&(0..=idle).collect::<Vec<_>>());
    let locks: Vec<Vec<usize>> = ladders.iter().map(|sizes| hubs.take(sizes.len() + 1)).collect();
    for rung in 0..rungs {
        let thread = rung + 1;
        let most = ladders.iter().filter_map(|sizes| sizes.get(rung)).max().copied().unwrap_or(0);
        for turn in 0..most {
            plan.push(Event::Join { thread, joined: idle });
            for (sizes, locks) in ladders.iter().zip(&locks) {
                if sizes.get(rung).is_some_and(|&size| turn < size) {
                    plan.extend(pair(thread, locks[rung], locks[rung + 1]));
                }
            }
        }
    }
    plan
}

/// Locks for the ladders, each used once.
struct Hubs {
    locks: Vec<usize>,
}

impl Hubs {
    fn shuffled(prng: &mut Prng) -> Hubs {
        Hubs { locks: prng.distinct(64, 64) }
    }

    fn take(&mut self, count: usize) -> Vec<usize> {
        self.locks.split_off(self.locks.len() - count)
    }
}

/// Rung sizes of ladders whose chains add up to the wanted number: the largest one that fits, then one for the rest.
fn ladders(mut chains: usize) -> Vec<Vec<usize>> {
    let mut ladders = Vec::new();
    while chains > 0 {
        let sizes = largest_ladder(chains);
        chains -= chains_of(&sizes);
        ladders.push(sizes);
    }
    ladders
}

fn largest_ladder(chains: usize) -> Vec<usize> {
    (1..=6).map(|rungs| grown_ladder(rungs, chains)).max_by_key(|sizes| chains_of(sizes)).unwrap_or_default()
}

/// Makes the rungs larger in turn while the chains still fit and 60 threads are enough.
fn grown_ladder(rungs: usize, chains: usize) -> Vec<usize> {
    let mut sizes = vec![0; rungs];
    let mut grew = true;
    while grew {
        grew = false;
        for rung in 0..rungs {
            sizes[rung] += 1;
            if chains_of(&sizes) <= chains && sizes.iter().sum::<usize>() <= 60 {
                grew = true;
            } else {
                sizes[rung] -= 1;
            }
        }
    }
    sizes
}

/// For each rung the chains that end there: each edge alone, and each edge behind every chain of the rung before.
pub fn chains_of(sizes: &[usize]) -> usize {
    let mut all = 0;
    let mut ending_here = 0;
    for &size in sizes {
        ending_here = size * (ending_here + 1);
        all += ending_here;
    }
    all
}

//! The circles of a recording by trying every halt. No edge, segment or chain is used here.
//!
//! A halt is a set of events that has, with each event, all that come before it. So it is told by how many of its
//! own events each thread has done. At a halt a thread holds what it took and did not release, and stands before
//! its next event. A halt shows a circle when each thread of the circle stands before the taking of its wanted
//! lock and holds its held lock, and no lock is held by two of the circle's threads.

use crate::event::Event;
use crate::happens_before::HappensBefore;
use std::collections::BTreeSet;

/// Recordings with more events, more acting threads or more halts are left out.
pub const MOST_EVENTS: usize = 600;
pub const MOST_THREADS: usize = 10;
pub const MOST_HALTS: usize = 200_000;

/// All circles that some halt shows, as printed lines in the order of a report.
pub struct Shown {
    pub lines: Vec<String>,
    pub halts: usize,
}

/// Nothing, if the recording is too large to try every halt.
pub fn shown(events: &[Event]) -> Option<Shown> {
    if events.len() > MOST_EVENTS || acting_threads(events).len() > MOST_THREADS {
        return None;
    }
    let mut trial = Trial { threads: threads_of(events), halts: 0, circles: BTreeSet::new() };
    trial.try_all(&mut Vec::new())?;
    Some(Shown { lines: trial.circles.iter().map(|(_, steps)| line(steps)).collect(), halts: trial.halts })
}

/// Thread, held lock, wanted lock.
type Step = (usize, usize, usize);

/// A thread that acts in the recording. Its tables have an entry for each number of own events done, from 0 on.
struct Thread {
    /// How many events each acting thread must have done too.
    needs: Vec<Vec<usize>>,
    stands: Vec<Stand>,
}

/// Where a thread is at a halt: what it holds, and the lock that its next event takes, if it takes one.
#[derive(Clone, Copy)]
struct Stand {
    thread: usize,
    held: u64,
    wanted: Option<usize>,
}

fn threads_of(events: &[Event]) -> Vec<Thread> {
    let happens_before = HappensBefore::of(events);
    let numbers = acting_threads(events);
    let own_places: Vec<Vec<usize>> = numbers.iter().map(|&number| places_of(events, number)).collect();
    let mut threads = Vec::new();
    for (number, own) in numbers.into_iter().zip(&own_places) {
        let mut needs = vec![vec![0; own_places.len()]];
        for &place in own {
            needs.push(own_places.iter().map(|places| happens_before.count_before(place, places)).collect());
        }
        threads.push(Thread { needs, stands: stands_of(events, number, own) });
    }
    threads
}

fn acting_threads(events: &[Event]) -> BTreeSet<usize> {
    events.iter().map(|event| event.thread()).collect()
}

fn places_of(events: &[Event], thread: usize) -> Vec<usize> {
    (0..events.len()).filter(|&place| events[place].thread() == thread).collect()
}

fn stands_of(events: &[Event], thread: usize, own: &[usize]) -> Vec<Stand> {
    let mut held = 0;
    let mut stands = Vec::new();
    for &place in own {
        let wanted = match events[place] {
            Event::Lock { lock, .. } => Some(lock),
            _ => None,
        };
        stands.push(Stand { thread, held, wanted });
        match events[place] {
            Event::Lock { lock, .. } => held |= 1 << lock,
            Event::Release { lock, .. } => held &= !(1 << lock),
            _ => {}
        }
    }
    stands.push(Stand { thread, held, wanted: None });
    stands
}

struct Trial {
    threads: Vec<Thread>,
    halts: usize,
    /// With the number of steps in front, so that shorter circles come first.
    circles: BTreeSet<(usize, Vec<Step>)>,
}

impl Trial {
    /// Goes through all halts in which the first threads have done as many events as `done` says.
    fn try_all(&mut self, done: &mut Vec<usize>) -> Option<()> {
        let Some(thread) = self.threads.get(done.len()) else {
            self.halts += 1;
            self.look_at_halt(done);
            return (self.halts <= MOST_HALTS).then_some(());
        };
        for own_done in 0..thread.stands.len() {
            done.push(own_done);
            if self.newest_fits(done) {
                self.try_all(done)?;
            }
            done.pop();
        }
        Some(())
    }

    /// Whether the newest thread and each one before it have done what the other one needs.
    fn newest_fits(&self, done: &[usize]) -> bool {
        let newest = done.len() - 1;
        let newest_needs = &self.threads[newest].needs[done[newest]];
        (0..newest).all(|other| {
            newest_needs[other] <= done[other] && self.threads[other].needs[done[other]][newest] <= done[newest]
        })
    }

    fn look_at_halt(&mut self, done: &[usize]) {
        let all_stands = self.threads.iter().zip(done).map(|(thread, &own)| thread.stands[own]);
        let stands: Vec<Stand> = all_stands.filter(|stand| stand.wanted.is_some() && stand.held != 0).collect();
        for &stand in &stands {
            self.go_round(&stands, &mut vec![stand]);
        }
    }

    /// Follows the waits from the last thread of the round; the first thread stays the smallest.
    fn go_round(&mut self, stands: &[Stand], round: &mut Vec<Stand>) {
        let Some(wanted) = round[round.len() - 1].wanted else {
            return;
        };
        if round.len() >= 2 && holds(round[0], wanted) {
            self.circles.insert((round.len(), steps_of(round, wanted)));
        }
        for &next in stands {
            let holds_no_lock_of_others = round.iter().all(|stand| stand.held & next.held == 0);
            if next.thread > round[0].thread && holds(next, wanted) && holds_no_lock_of_others {
                round.push(next);
                self.go_round(stands, round);
                round.pop();
            }
        }
    }
}

fn holds(stand: Stand, lock: usize) -> bool {
    stand.held & (1 << lock) != 0
}

/// Each thread's held lock is the one that the thread before it wants.
fn steps_of(round: &[Stand], last_wanted: usize) -> Vec<Step> {
    let mut held = last_wanted;
    let mut steps = Vec::new();
    for stand in round {
        let wanted = stand.wanted.expect("every thread of a round wants a lock");
        steps.push((stand.thread, held, wanted));
        held = wanted;
    }
    steps
}

fn line(steps: &[Step]) -> String {
    let words: Vec<String> =
        steps.iter().map(|(thread, held, wanted)| format!("T{thread}:L{held}>L{wanted}")).collect();
    format!("{} odds {}", words.join(" "), odds(steps.len() as u128))
}

/// 10,000 × k! / k^k, rounded down, by dividing k times. k is at most 17 here: at a halt that shows a circle each
/// of its k threads could do one event more or not, which makes 2^k halts.
fn odds(k: u128) -> u128 {
    let mut odds = 10_000 * (1..=k).product::<u128>();
    for _ in 0..k {
        odds /= k;
    }
    odds
}

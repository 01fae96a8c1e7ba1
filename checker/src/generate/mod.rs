//! Recordings from a seed. The recording at a place depends on the seed and the place only, not on how many follow.

pub mod chain_budget;
mod damage;
pub mod edge_places;
pub mod limits;
mod plan;
mod rich;
mod world;

use crate::event::Event;
use crate::prng::Prng;
use plan::Plan;

pub struct Sample {
    pub kind: &'static str,
    pub file: Vec<u8>,
    /// The place of another interleaving of the same threads.
    pub twin: Option<usize>,
}

/// The first `count` recordings of a seed.
pub fn samples(seed: u64, count: usize) -> Vec<Sample> {
    let mut samples = Vec::new();
    let mut group = 0;
    while samples.len() < count {
        let (kind, files) = group_of(seed, group);
        let are_twins = kind == TWINS;
        let first = samples.len();
        for file in files {
            let twin = (are_twins && samples.len() > first).then_some(first);
            samples.push(Sample { kind, file, twin });
        }
        group += 1;
    }
    samples.truncate(count);
    samples
}

const TWINS: &str = "two-interleavings";

type OneRecording = fn(&mut Prng) -> Vec<Event>;
type OneFile = fn(&mut Prng) -> Vec<u8>;
type SomeFiles = fn(&mut Prng) -> Vec<Vec<u8>>;

const RICH: &[(&str, OneRecording)] = &[
    ("crossing-nests", rich::crossing_nests),
    ("gate-locks", rich::gate_locks),
    ("starts-and-joins", rich::starts_and_joins),
    ("idle-joined-threads", rich::idle_joined_threads),
    ("locks-left-held", rich::locks_left_held),
    ("random-walks", rich::random_walks),
    ("rings", rich::rings),
];

const DAMAGED: &[(&str, OneFile)] = &[
    ("byte-changed", damage::byte_changed),
    ("byte-cut", damage::byte_cut),
    ("byte-doubled", damage::byte_doubled),
    ("line-moved", damage::line_moved),
    ("line-dropped", damage::line_dropped),
    ("line-doubled", damage::line_doubled),
    ("strange-event", damage::strange_event),
    ("after-a-join", damage::after_a_join),
    ("number-changed", damage::number_changed),
    ("line-ends", damage::line_ends),
];

const LIMITS: &[(&str, SomeFiles)] = &[
    ("64-threads", limits::threads_64),
    ("64-locks", limits::locks_64),
    ("most-locks-of-one-thread", limits::most_locks_of_one_thread),
    ("1024-edges", edge_places::edges_1024),
    ("256-segments", limits::segments_256),
    ("64-circles", limits::circles_64),
];

/// These cost far more than the others and are few.
const COSTLY: &[(&str, SomeFiles)] =
    &[("1000000-chains", chain_budget::chains_1000000), ("60000-bytes", limits::bytes_60000)];

/// The kind of a group by its number: each kind comes up in turn, in every hundred or every two thousand groups.
fn group_of(seed: u64, group: usize) -> (&'static str, Vec<Vec<u8>>) {
    let prng = &mut Prng::new(seed, group as u64);
    let round = group / 100;
    match group % 100 {
        0 if round % 20 < COSTLY.len() => some_files(prng, COSTLY[round % 20]),
        0..=2 => ("wide-walks", vec![text_of(&rich::wide_walks(prng))]),
        3..=5 => some_files(prng, LIMITS[(3 * round + group % 100) % LIMITS.len()]),
        place @ 6..=45 => {
            let (kind, file) = DAMAGED[place % DAMAGED.len()];
            (kind, vec![file(prng)])
        }
        46..=62 => (TWINS, two_interleavings(prng)),
        place => {
            let (kind, recording) = RICH[(place + round) % RICH.len()];
            let events = recording(prng);
            (kind, vec![with_or_without_last_newline(prng, text_of(&events))])
        }
    }
}

fn some_files(prng: &mut Prng, (kind, files): (&'static str, SomeFiles)) -> (&'static str, Vec<Vec<u8>>) {
    (kind, files(prng))
}

pub fn some_rich_recording(prng: &mut Prng) -> Vec<Event> {
    let (_, recording) = prng.pick(RICH);
    recording(prng)
}

/// A valid recording and another order of its events, in which each thread does the same.
fn two_interleavings(prng: &mut Prng) -> Vec<Vec<u8>> {
    loop {
        let events = some_rich_recording(prng);
        let stay = prng.pick(&[0, 30, 70]);
        let other = Plan::of_recording(&events).interleave(prng, stay, 30);
        if let Some(other) = other.filter(|other| *other != events) {
            return vec![text_of(&events), text_of(&other)];
        }
    }
}

fn with_or_without_last_newline(prng: &mut Prng, mut file: Vec<u8>) -> Vec<u8> {
    if prng.percent(20) {
        file.pop();
    }
    file
}

/// A line for each event.
pub fn text_of(events: &[Event]) -> Vec<u8> {
    events.iter().map(|event| format!("{event}\n")).collect::<String>().into_bytes()
}

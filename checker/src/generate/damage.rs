//! Valid recordings with one thing wrong, which most often, but not always, makes them faulty.

use super::{rich, text_of};
use crate::event::Event;
use crate::prng::Prng;

const TELLING_BYTES: &[u8] = b"lusjTL(),0123456789\n\r LUSJtx-\0\xff";

pub fn byte_changed(prng: &mut Prng) -> Vec<u8> {
    let (mut file, place) = file_and_place(prng);
    file[place] = if prng.percent(80) { prng.pick(TELLING_BYTES) } else { prng.below(256) as u8 };
    file
}

/// One byte is gone, or all from a place on are.
pub fn byte_cut(prng: &mut Prng) -> Vec<u8> {
    let (mut file, place) = file_and_place(prng);
    if prng.percent(70) {
        file.remove(place);
    } else {
        file.truncate(place);
    }
    file
}

pub fn byte_doubled(prng: &mut Prng) -> Vec<u8> {
    let (mut file, place) = file_and_place(prng);
    file.insert(place, file[place]);
    file
}

pub fn line_moved(prng: &mut Prng) -> Vec<u8> {
    let (mut events, place) = events_and_place(prng);
    let event = events.remove(place);
    let new_place = prng.between(0, events.len());
    events.insert(new_place, event);
    text_of(&events)
}

pub fn line_dropped(prng: &mut Prng) -> Vec<u8> {
    let (mut events, place) = events_and_place(prng);
    events.remove(place);
    text_of(&events)
}

pub fn line_doubled(prng: &mut Prng) -> Vec<u8> {
    let (mut events, place) = events_and_place(prng);
    let new_place = if prng.percent(50) { place } else { prng.between(0, events.len()) };
    events.insert(new_place, events[place]);
    text_of(&events)
}

/// Some event with any numbers, many of them small, is put somewhere.
pub fn strange_event(prng: &mut Prng) -> Vec<u8> {
    let (mut events, place) = events_and_place(prng);
    let (a, b) = (any_number(prng), any_number(prng));
    let strange = match prng.below(4) {
        0 => Event::Lock { thread: a, lock: b },
        1 => Event::Release { thread: a, lock: b },
        2 => Event::Start { thread: a, started: b },
        _ => Event::Join { thread: a, joined: b },
    };
    events.insert(place, strange);
    text_of(&events)
}

fn any_number(prng: &mut Prng) -> usize {
    match prng.below(10) {
        0..=6 => prng.below(5),
        7 => prng.between(60, 67),
        8 => prng.below(64),
        _ => prng.below(1000),
    }
}

/// Behind a join comes an event that has to do with the joined thread, or wants a lock that it may still hold.
pub fn after_a_join(prng: &mut Prng) -> Vec<u8> {
    let (mut events, place, joined) = events_with_a_join(prng);
    let other = prng.pick(&events).thread();
    let lock = prng.pick(&telling_locks(&events, joined));
    let event = match prng.below(7) {
        0 => Event::Lock { thread: joined, lock },
        1 => Event::Release { thread: joined, lock },
        2 => Event::Start { thread: joined, started: 40 },
        3 => Event::Join { thread: joined, joined: other },
        4 => Event::Start { thread: other, started: joined },
        5 => Event::Join { thread: other, joined },
        _ => Event::Lock { thread: other, lock },
    };
    let new_place = prng.between(place + 1, events.len());
    events.insert(new_place, event);
    text_of(&events)
}

/// A recording, the place of a join in it, and the joined thread.
fn events_with_a_join(prng: &mut Prng) -> (Vec<Event>, usize, usize) {
    loop {
        let events = some_events(prng);
        let joins = events.iter().enumerate().filter_map(|(place, event)| match *event {
            Event::Join { joined, .. } => Some((place, joined)),
            _ => None,
        });
        let joins: Vec<(usize, usize)> = joins.collect();
        if !joins.is_empty() {
            let (place, joined) = prng.pick(&joins);
            return (events, place, joined);
        }
    }
}

/// The locks that a thread holds at the end; if there are none, those that it took; if there are none, lock 0.
fn telling_locks(events: &[Event], thread: usize) -> Vec<usize> {
    let own = events.iter().filter(|event| event.thread() == thread);
    let mut taken = Vec::new();
    let mut held = Vec::new();
    for event in own {
        match *event {
            Event::Lock { lock, .. } => {
                taken.push(lock);
                held.push(lock);
            }
            Event::Release { lock, .. } => held.retain(|&other| other != lock),
            _ => {}
        }
    }
    [held, taken, vec![0]].into_iter().find(|locks| !locks.is_empty()).unwrap_or_default()
}

/// A number of some line is written in another way.
pub fn number_changed(prng: &mut Prng) -> Vec<u8> {
    const WAYS: &[&str] =
        &["", "0", "00", "01", "007", "63", "64", "099", "100", "999", "1000", "0000", "12345", "-1", "+1", "1 ", " 1"];
    let file = a_valid_file(prng);
    let digits: Vec<usize> = (0..file.len()).filter(|&place| file[place].is_ascii_digit()).collect();
    let place = prng.pick(&digits);
    let way = prng.pick(WAYS).bytes();
    file[..place].iter().copied().chain(way).chain(file[place + 1..].iter().copied()).collect()
}

/// Blank lines, missing or doubled newlines, carriage returns, and files that are nearly empty.
pub fn line_ends(prng: &mut Prng) -> Vec<u8> {
    let file = a_valid_file(prng);
    let newlines: Vec<usize> = (0..file.len()).filter(|&place| file[place] == b'\n').collect();
    let place = prng.pick(&newlines);
    let (before, after) = (file[..place].to_vec(), &file[place + 1..]);
    match prng.below(6) {
        0 => [&before, &b"\n\n"[..], after].concat(),
        1 => [&before, &b"\r\n"[..], after].concat(),
        2 => [&before, &b" \n"[..], after].concat(),
        3 => before,
        4 => [&b"\n"[..], &file].concat(),
        _ => prng.pick(&[&b""[..], b"\n", b"\n\n", b"l", b"l(", b"s(T0,T1)", b"l(T0,L"]).to_vec(),
    }
}

fn file_and_place(prng: &mut Prng) -> (Vec<u8>, usize) {
    let file = a_valid_file(prng);
    let place = prng.below(file.len());
    (file, place)
}

fn events_and_place(prng: &mut Prng) -> (Vec<Event>, usize) {
    let events = some_events(prng);
    let place = prng.below(events.len());
    (events, place)
}

fn a_valid_file(prng: &mut Prng) -> Vec<u8> {
    text_of(&some_events(prng))
}

/// At least one event.
fn some_events(prng: &mut Prng) -> Vec<Event> {
    loop {
        let events = match prng.below(5) {
            0 => rich::crossing_nests(prng),
            1 => rich::gate_locks(prng),
            2 => rich::idle_joined_threads(prng),
            3 => rich::locks_left_held(prng),
            _ => rich::starts_and_joins(prng),
        };
        if !events.is_empty() {
            return events;
        }
    }
}

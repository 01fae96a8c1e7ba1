//! Recordings that come up to a limit, and the same with one more.

use super::plan::Plan;
use super::rich::{nest, pair, started_first};
use super::text_of;
use crate::event::Event;
use crate::prng::Prng;

/// All 64 threads, started in a random tree; then a thread number above 63.
pub fn threads_64(prng: &mut Prng) -> Vec<Vec<u8>> {
    let mut threads = vec![0];
    let mut events = Vec::new();
    for number in prng.distinct(63, 63) {
        let started = number + 1;
        events.push(Event::Start { thread: prng.pick(&threads), started });
        threads.push(started);
    }
    for _ in 0..prng.between(2, 12) {
        let thread = prng.pick(&threads);
        events.extend(nest(prng, thread, &[0, 31, 62, 63], 2, 2));
    }
    let live = prng.pick(&threads);
    let one_more = match prng.below(4) {
        0 => Event::Start { thread: live, started: 64 },
        1 => Event::Join { thread: live, joined: 64 },
        2 => Event::Lock { thread: 64, lock: 0 },
        _ => Event::Start { thread: 64, started: 63 },
    };
    at_and_over(events, [one_more])
}

/// All 64 locks held at the same time by a few threads; then a lock number above 63.
pub fn locks_64(prng: &mut Prng) -> Vec<Vec<u8>> {
    let threads: Vec<usize> = (0..prng.pick(&[2, 3, 4, 16])).collect();
    let mut plan = started_first(&threads);
    for (place, lock) in prng.distinct(64, 64).into_iter().enumerate() {
        plan.push(Event::Lock { thread: threads[place % threads.len()], lock });
    }
    let mut events = plan.interleave(prng, 50, 1).expect("no two threads take one lock");
    if prng.percent(50) {
        let releases: Vec<Event> = events.iter().copied().filter_map(release_of).collect();
        events.extend(releases);
    }
    let one_more = prng.pick(&[Event::Lock { thread: 0, lock: 64 }, Event::Release { thread: 0, lock: 64 }]);
    at_and_over(events, [one_more])
}

fn release_of(event: Event) -> Option<Event> {
    match event {
        Event::Lock { thread, lock } => Some(Event::Release { thread, lock }),
        _ => None,
    }
}

/// One thread holds 45 locks, which draws 990 edges; a 46th needs 45 more and does not fit. So no thread comes to
/// hold all 64 locks, and the third recording, which tries, ends at its 46th taking.
pub fn most_locks_of_one_thread(prng: &mut Prng) -> Vec<Vec<u8>> {
    let takes: Vec<Event> = prng.distinct(64, 64).into_iter().map(|lock| Event::Lock { thread: 0, lock }).collect();
    let mut releases: Vec<Event> = takes[..45].iter().copied().filter_map(release_of).collect();
    prng.shuffle(&mut releases);
    let held_and_released: Vec<Event> = takes[..45].iter().copied().chain(releases).collect();
    vec![text_of(&held_and_released), text_of(&takes[..46]), text_of(&takes)]
}

/// 256 segments; then a join or a start that needs one more. A start needs two, so it is also tried after 255.
pub fn segments_256(prng: &mut Prng) -> Vec<Vec<u8>> {
    let starts = prng.between(3, 63);
    let over_by_start = starts < 63 && prng.percent(50);
    let segments = if over_by_start { prng.between(255, 256) } else { 256 };
    let plan = plan_with_segments(prng, starts, segments);
    let events = plan.interleave(prng, 95, 20).unwrap_or_else(|| plan.interleave_as_far_as_possible(prng));
    let one_more = if over_by_start {
        Event::Start { thread: 0, started: starts + 1 }
    } else {
        Event::Join { thread: 0, joined: starts }
    };
    at_and_over(events, [one_more])
}

/// The first half of the threads joins the second half again and again, and some take locks in between.
fn plan_with_segments(prng: &mut Prng, starts: usize, segments: usize) -> Plan {
    let mut plan = started_first(&(0..=starts).collect::<Vec<_>>());
    let last_joiner = starts / 2;
    for _ in 0..segments - 1 - 2 * starts {
        let thread = prng.between(0, last_joiner);
        let joined = prng.between(last_joiner + 1, starts);
        plan.push(Event::Join { thread, joined });
    }
    for thread in 0..=last_joiner {
        if prng.percent(60) {
            let nest = nest(prng, thread, &[1, 2, 3], 2, 2);
            insert_together(prng, &mut plan.lists[thread], nest);
        }
    }
    plan
}

fn insert_together(prng: &mut Prng, list: &mut Vec<Event>, events: Vec<Event>) {
    let place = prng.between(0, list.len());
    list.splice(place..place, events);
}

/// Exactly 64 circles; then one more. Some come from a crowd of threads that take locks 0 and 1 in both orders, the
/// others from threads 0 and 1. Some takings stand twice, in two segments, and give no new circle.
pub fn circles_64(prng: &mut Prng) -> Vec<Vec<u8>> {
    let crowd = if prng.percent(50) { prng.between(2, 8) } else { 0 };
    let circles_of_crowd = crowd * crowd.saturating_sub(1);
    let threads: Vec<usize> = (0..=crowd.max(2)).collect();
    let idle = threads[threads.len() - 1];
    let mut events = started_first(&threads).lists[0].clone();
    events.extend((0..crowd).flat_map(|thread| [pair(thread, 0, 1), pair(thread, 1, 0)].concat()));
    let crossings = crossings(prng, 65 - circles_of_crowd);
    for &(held, wanted) in &crossings[1..] {
        events.extend(crossed(held, wanted));
        if prng.percent(5) {
            events.push(Event::Join { thread: 1, joined: idle });
            events.extend(pair(1, wanted, held));
        }
    }
    at_and_over(events, crossed(crossings[0].0, crossings[0].1))
}

fn crossed(held: usize, wanted: usize) -> Vec<Event> {
    [pair(0, held, wanted), pair(1, wanted, held)].concat()
}

/// Different pairs of locks, none with lock 0 or 1.
fn crossings(prng: &mut Prng, count: usize) -> Vec<(usize, usize)> {
    let mut all: Vec<(usize, usize)> = (2..64).flat_map(|a| (2..a).map(move |b| (a, b))).collect();
    prng.shuffle(&mut all);
    all.truncate(count);
    all
}

/// Files of 59,999, of 60,000 and of 60,001 bytes, and one of 60,000 with a wrong byte.
pub fn bytes_60000(prng: &mut Prng) -> Vec<Vec<u8>> {
    let start = super::rich::crossing_nests(prng);
    let mut files: Vec<Vec<u8>> = [59_999, 60_000, 60_001].map(|length| padded_to(&start, length)).into();
    let mut damaged = files[1].clone();
    let place = prng.below(damaged.len());
    damaged[place] = prng.pick(b"lusjTL(),0123456789\n");
    files.push(damaged);
    files
}

/// Thread 0 takes and releases a lock until the file has the length. A taking and a release of lock 9 have 18 bytes
/// together, of lock 59 they have 20; the last newline is left out for an odd rest.
fn padded_to(start: &[Event], length: usize) -> Vec<u8> {
    let mut file = text_of(start);
    let rest = length - file.len();
    let even_rest = rest + rest % 2;
    let long_pairs =
        (0..9).find(|longs| (even_rest - 20 * longs).is_multiple_of(18)).expect("2 divides 18 and the rest");
    let short_pairs = (even_rest - 20 * long_pairs) / 18;
    file.extend(b"l(T0,L59)\nu(T0,L59)\n".repeat(long_pairs));
    file.extend(b"l(T0,L9)\nu(T0,L9)\n".repeat(short_pairs));
    file.truncate(length);
    file
}

fn at_and_over(at: Vec<Event>, more: impl IntoIterator<Item = Event>) -> Vec<Vec<u8>> {
    let over: Vec<Event> = at.iter().copied().chain(more).collect();
    vec![text_of(&at), text_of(&over)]
}

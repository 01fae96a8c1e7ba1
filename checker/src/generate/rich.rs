//! Valid recordings that are rich in circles, most of them small enough to try every halt.

use super::plan::Plan;
use super::world::World;
use crate::event::Event;
use crate::prng::Prng;

/// Threads take few locks in crossing orders; all are started first.
pub fn crossing_nests(prng: &mut Prng) -> Vec<Event> {
    let threads = threads(prng, 2, 4);
    let locks = locks(prng, 2, 4);
    let mut plan = started_first(&threads);
    for &thread in &threads {
        let takes = prng.between(2, 9 / threads.len() + 1);
        plan.extend(nest(prng, thread, &locks, takes, 3));
    }
    plan.interleave_as_far_as_possible(prng)
}

/// Some nests stand inside a gate lock, which keeps some circles from closing.
pub fn gate_locks(prng: &mut Prng) -> Vec<Event> {
    let threads = threads(prng, 2, 4);
    let mut locks = locks(prng, 3, 4);
    let gate = locks.pop().expect("there are at least three locks");
    let mut plan = started_first(&threads);
    for &thread in &threads {
        let gated = prng.percent(60);
        plan.extend(gated.then_some(Event::Lock { thread, lock: gate }));
        plan.extend(nest(prng, thread, &locks, 2, 2));
        plan.extend(gated.then_some(Event::Release { thread, lock: gate }));
        if threads.len() < 4 && prng.percent(40) {
            plan.extend(nest(prng, thread, &locks, 2, 2));
        }
    }
    plan.interleave_as_far_as_possible(prng)
}

/// Starts and joins stand anywhere in the threads' lists, also inside nests.
pub fn starts_and_joins(prng: &mut Prng) -> Vec<Event> {
    let threads = threads(prng, 2, 5);
    let locks = locks(prng, 2, 3);
    let mut plan = nests_only(prng, &threads, &locks);
    put_starts_anywhere(prng, &mut plan, &threads);
    put_joins_anywhere(prng, &mut plan, &threads);
    plan.interleave_as_far_as_possible(prng)
}

/// Threads that do nothing are started by one thread and joined by another, and so pass an order on.
pub fn idle_joined_threads(prng: &mut Prng) -> Vec<Event> {
    let all = threads(prng, 4, 6);
    let idle = prng.between(1, 2);
    let (busy, idle) = all.split_at(all.len() - idle);
    let locks = locks(prng, 2, 3);
    let mut plan = nests_only(prng, &busy[..busy.len().min(3)], &locks);
    put_starts_anywhere(prng, &mut plan, &busy[..busy.len().min(3)]);
    for &thread in idle {
        let starter = prng.pick(&busy[..2]);
        let joiner = prng.pick(&busy[..busy.len().min(3)]);
        plan.insert_anywhere(prng, Event::Start { thread: starter, started: thread });
        plan.insert_anywhere(prng, Event::Join { thread: joiner, joined: thread });
    }
    plan.interleave_as_far_as_possible(prng)
}

/// Threads end with locks held, and some are joined so.
pub fn locks_left_held(prng: &mut Prng) -> Vec<Event> {
    let threads = threads(prng, 2, 4);
    let locks = locks(prng, 3, 4);
    let mut plan = nests_only(prng, &threads, &locks);
    put_starts_anywhere(prng, &mut plan, &threads);
    for &thread in &threads {
        let list = &mut plan.lists[thread];
        if prng.percent(50) {
            drop_last_release(list);
        }
    }
    put_joins_anywhere(prng, &mut plan, &threads);
    plan.interleave_as_far_as_possible(prng)
}

/// Each thread holds one lock and wants the next, all around; up to 64 threads.
pub fn rings(prng: &mut Prng) -> Vec<Event> {
    let largest = prng.pick(&[3, 4, 5, 5, 6, 20, 64]);
    let threads = threads(prng, 2, largest);
    let locks = prng.distinct(threads.len(), 64);
    let mut round = threads.clone();
    prng.shuffle(&mut round);
    let mut plan = started_first(&threads);
    for (place, &thread) in round.iter().enumerate() {
        let wanted = locks[(place + 1) % locks.len()];
        plan.extend(pair(thread, locks[place], wanted));
    }
    plan.interleave(prng, 100, 8).unwrap_or_else(|| plan.interleave_as_far_as_possible(prng))
}

/// At each step any event that the threads may do.
pub fn random_walks(prng: &mut Prng) -> Vec<Event> {
    let threads = threads(prng, 3, 5);
    let locks = locks(prng, 2, 3);
    let mut world = World::fresh();
    let mut events = Vec::new();
    let length = prng.between(5, 30);
    for _ in 0..200 {
        let event = any_event(prng, &threads, &locks);
        if world.allows(event) && events.len() < length {
            world.apply(event);
            events.push(event);
        }
    }
    events
}

/// Many threads, locks, starts and joins; too large to try every halt.
pub fn wide_walks(prng: &mut Prng) -> Vec<Event> {
    let threads = threads(prng, 8, 64);
    let locks = locks(prng, 6, 40);
    let mut plan = nests_only(prng, &threads, &locks);
    put_starts_anywhere(prng, &mut plan, &threads);
    put_joins_anywhere(prng, &mut plan, &threads);
    plan.interleave_as_far_as_possible(prng)
}

/// Different threads, thread 0 first; some of them far apart in number.
pub fn threads(prng: &mut Prng, least: usize, most: usize) -> Vec<usize> {
    let count = prng.between(least, most);
    let bound = if prng.percent(75) { count - 1 } else { 63 };
    let others = prng.distinct(count - 1, bound).into_iter().map(|number| number + 1);
    std::iter::once(0).chain(others).collect()
}

/// Different locks, some of them far apart in number.
pub fn locks(prng: &mut Prng, least: usize, most: usize) -> Vec<usize> {
    let count = prng.between(least, most);
    let bound = if prng.percent(75) { count } else { 64 };
    prng.distinct(count, bound)
}

/// Thread 0, or a thread already started, starts each thread before anything else happens.
pub fn started_first(threads: &[usize]) -> Plan {
    let mut plan = Plan::empty();
    for &started in &threads[1..] {
        plan.push(Event::Start { thread: threads[0], started });
    }
    plan
}

/// One lock taken inside another, both released.
pub fn pair(thread: usize, held: usize, wanted: usize) -> [Event; 4] {
    [
        Event::Lock { thread, lock: held },
        Event::Lock { thread, lock: wanted },
        Event::Release { thread, lock: wanted },
        Event::Release { thread, lock: held },
    ]
}

/// So many takes, at most `depth` locks at once, with all released at the end and not always in reverse order.
pub fn nest(prng: &mut Prng, thread: usize, locks: &[usize], takes: usize, depth: usize) -> Vec<Event> {
    let mut free = locks.to_vec();
    let mut held = Vec::new();
    let mut events = Vec::new();
    let mut taken = 0;
    while taken < takes || !held.is_empty() {
        let can_take = taken < takes && held.len() < depth && !free.is_empty();
        if can_take && (held.is_empty() || prng.percent(70)) {
            let lock = free.swap_remove(prng.below(free.len()));
            held.push(lock);
            events.push(Event::Lock { thread, lock });
            taken += 1;
        } else {
            let place = if prng.percent(75) { held.len() - 1 } else { prng.below(held.len()) };
            let lock = held.remove(place);
            free.push(lock);
            events.push(Event::Release { thread, lock });
        }
    }
    events
}

fn nests_only(prng: &mut Prng, threads: &[usize], locks: &[usize]) -> Plan {
    let mut plan = Plan::empty();
    for &thread in threads {
        let takes = prng.between(1, 4);
        let depth = prng.between(2, 3);
        plan.extend(nest(prng, thread, locks, takes, depth));
    }
    plan
}

/// Each thread but the first is started by one that stands before it in the list.
fn put_starts_anywhere(prng: &mut Prng, plan: &mut Plan, threads: &[usize]) {
    for place in 1..threads.len() {
        let start = Event::Start { thread: threads[prng.below(place)], started: threads[place] };
        if prng.percent(50) {
            plan.lists[start.thread()].insert(0, start);
        } else {
            plan.insert_anywhere(prng, start);
        }
    }
}

fn put_joins_anywhere(prng: &mut Prng, plan: &mut Plan, threads: &[usize]) {
    for _ in 0..prng.between(0, threads.len()) {
        let joiner = prng.below(threads.len());
        let joined = prng.below(threads.len());
        if joiner < joined || (joiner != joined && prng.percent(30)) {
            let join = Event::Join { thread: threads[joiner], joined: threads[joined] };
            if prng.percent(75) {
                plan.insert_late(prng, join);
            } else {
                plan.insert_anywhere(prng, join);
            }
        }
    }
}

fn drop_last_release(list: &mut Vec<Event>) {
    if let Some(place) = list.iter().rposition(|event| matches!(event, Event::Release { .. })) {
        list.remove(place);
    }
}

fn any_event(prng: &mut Prng, threads: &[usize], locks: &[usize]) -> Event {
    let thread = prng.pick(threads);
    match prng.below(20) {
        0..=9 => Event::Lock { thread, lock: prng.pick(locks) },
        10..=14 => Event::Release { thread, lock: prng.pick(locks) },
        15..=18 => Event::Start { thread, started: prng.pick(threads) },
        _ => Event::Join { thread, joined: prng.pick(threads) },
    }
}

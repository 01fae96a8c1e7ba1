//! What each thread is to do by itself, and interleavings of it.

use super::world::World;
use crate::event::Event;
use crate::prng::Prng;

/// For each thread the list of the events in which it acts.
#[derive(Clone)]
pub struct Plan {
    pub lists: Vec<Vec<Event>>,
}

impl Plan {
    pub fn empty() -> Plan {
        Plan { lists: vec![Vec::new(); 64] }
    }

    pub fn of_recording(events: &[Event]) -> Plan {
        let mut plan = Plan::empty();
        for &event in events {
            plan.push(event);
        }
        plan
    }

    pub fn push(&mut self, event: Event) {
        self.lists[event.thread()].push(event);
    }

    pub fn extend(&mut self, events: impl IntoIterator<Item = Event>) {
        for event in events {
            self.push(event);
        }
    }

    /// Puts an event at a random place of its thread's list.
    pub fn insert_anywhere(&mut self, prng: &mut Prng, event: Event) {
        let list = &mut self.lists[event.thread()];
        let place = prng.between(0, list.len());
        list.insert(place, event);
    }

    /// Puts an event in the second half of its thread's list.
    pub fn insert_late(&mut self, prng: &mut Prng, event: Event) {
        let list = &mut self.lists[event.thread()];
        let place = prng.between(list.len().div_ceil(2), list.len());
        list.insert(place, event);
    }

    fn length(&self) -> usize {
        self.lists.iter().map(Vec::len).sum()
    }

    /// One interleaving, up to its end or to where no thread can act. A thread goes on acting while it can in
    /// `stay` of a hundred cases.
    fn interleave_once(&self, prng: &mut Prng, stay: usize) -> Vec<Event> {
        let mut run = Run { plan: self, done: [0; 64], world: World::fresh() };
        let mut events: Vec<Event> = Vec::new();
        loop {
            let last = events.last().map(|event| event.thread());
            let same = last.and_then(|thread| run.next_of(thread)).filter(|_| prng.percent(stay));
            let Some(event) = same.or_else(|| run.any_next(prng)) else {
                return events;
            };
            run.act(event);
            events.push(event);
        }
    }

    /// A complete interleaving, if one is found in so many tries.
    pub fn interleave(&self, prng: &mut Prng, stay: usize, tries: usize) -> Option<Vec<Event>> {
        (0..tries).map(|_| self.interleave_once(prng, stay)).find(|events| events.len() == self.length())
    }

    /// A complete interleaving if one is found soon, else one that ends where all threads are stuck.
    pub fn interleave_as_far_as_possible(&self, prng: &mut Prng) -> Vec<Event> {
        let stay = prng.pick(&[0, 50, 80, 95]);
        self.interleave(prng, stay, 8).unwrap_or_else(|| self.interleave_once(prng, 50))
    }
}

/// How far an interleaving has come.
struct Run<'a> {
    plan: &'a Plan,
    done: [usize; 64],
    world: World,
}

impl Run<'_> {
    /// The next event of a thread, if it can happen now. A thread is joined only when it has done everything.
    fn next_of(&self, thread: usize) -> Option<Event> {
        let event = *self.plan.lists[thread].get(self.done[thread])?;
        if let Event::Join { joined, .. } = event {
            if self.done[joined] < self.plan.lists[joined].len() {
                return None;
            }
        }
        self.world.allows(event).then_some(event)
    }

    fn any_next(&self, prng: &mut Prng) -> Option<Event> {
        let possible: Vec<Event> = (0..64).filter_map(|thread| self.next_of(thread)).collect();
        (!possible.is_empty()).then(|| prng.pick(&possible))
    }

    fn act(&mut self, event: Event) {
        self.done[event.thread()] += 1;
        self.world.apply(event);
    }
}

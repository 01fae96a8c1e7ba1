//! Which events of a recording come before which, whatever the scheduler does.

use crate::event::Event;

/// For each place of a recording the set of places that come before it.
pub struct HappensBefore {
    before: Vec<PlaceSet>,
}

impl HappensBefore {
    pub fn of(events: &[Event]) -> HappensBefore {
        let mut before = direct(events);
        connect(&mut before);
        HappensBefore { before }
    }

    /// How many of the given places come before place `q`.
    pub fn count_before(&self, q: usize, places: &[usize]) -> usize {
        places.iter().filter(|&&p| self.before[q].has(p)).count()
    }
}

fn direct(events: &[Event]) -> Vec<PlaceSet> {
    let places = 0..events.len();
    let mut before: Vec<PlaceSet> = places.clone().map(|_| PlaceSet::empty(events.len())).collect();
    for q in places.clone() {
        for p in places.clone() {
            let same_thread_earlier = events[p].thread() == events[q].thread() && p < q;
            if same_thread_earlier || starts_for(events[p], events[q]) || ends_for(events[p], events[q]) {
                before[q].put(p);
            }
        }
    }
    before
}

/// A start comes before all that the started thread does, and before every join of that thread.
fn starts_for(a: Event, b: Event) -> bool {
    match (a, b) {
        (Event::Start { started, .. }, Event::Join { joined, .. }) if joined == started => true,
        (Event::Start { started, .. }, _) => b.thread() == started,
        _ => false,
    }
}

/// All that a thread does comes before every join of it.
fn ends_for(a: Event, b: Event) -> bool {
    matches!(b, Event::Join { joined, .. } if joined == a.thread())
}

/// Connections over several events count too.
fn connect(before: &mut [PlaceSet]) {
    for middle in 0..before.len() {
        let before_middle = before[middle].clone();
        for set in before.iter_mut().filter(|set| set.has(middle)) {
            set.put_all(&before_middle);
        }
    }
}

#[derive(Clone)]
struct PlaceSet {
    words: Vec<u64>,
}

impl PlaceSet {
    fn empty(places: usize) -> PlaceSet {
        PlaceSet { words: vec![0; places.div_ceil(64)] }
    }

    fn has(&self, place: usize) -> bool {
        self.words[place / 64] & (1 << (place % 64)) != 0
    }

    fn put(&mut self, place: usize) {
        self.words[place / 64] |= 1 << (place % 64);
    }

    fn put_all(&mut self, other: &PlaceSet) {
        for (word, more) in self.words.iter_mut().zip(&other.words) {
            *word |= more;
        }
    }
}

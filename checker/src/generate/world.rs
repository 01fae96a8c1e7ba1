//! What the generator itself knows of threads and locks, so that it can choose events that should be accepted.

use crate::event::Event;

const NUMBERS: usize = 64;

#[derive(Clone, Copy, PartialEq, Eq)]
enum Life {
    Unborn,
    Live,
    Joined,
}

pub struct World {
    lives: [Life; NUMBERS],
    holders: [Option<usize>; NUMBERS],
}

impl World {
    pub fn fresh() -> World {
        let mut lives = [Life::Unborn; NUMBERS];
        lives[0] = Life::Live;
        World { lives, holders: [None; NUMBERS] }
    }

    pub fn is_live(&self, thread: usize) -> bool {
        self.lives[thread] == Life::Live
    }

    pub fn allows(&self, event: Event) -> bool {
        self.is_live(event.thread())
            && match event {
                Event::Lock { lock, .. } => self.holders[lock].is_none(),
                Event::Release { thread, lock } => self.holders[lock] == Some(thread),
                Event::Start { started, .. } => self.lives[started] == Life::Unborn,
                Event::Join { thread, joined } => joined != thread && self.lives[joined] != Life::Unborn,
            }
    }

    pub fn apply(&mut self, event: Event) {
        match event {
            Event::Lock { thread, lock } => self.holders[lock] = Some(thread),
            Event::Release { lock, .. } => self.holders[lock] = None,
            Event::Start { started, .. } => self.lives[started] = Life::Live,
            Event::Join { joined, .. } => self.lives[joined] = Life::Joined,
        }
    }
}

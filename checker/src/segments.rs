//! The order of segments as plain arrows. One segment precedes another when a path of one or more arrows leads
//! from the first to the second.

use crate::fault::Cause;

/// Segment numbers stay below this.
pub const CEILING: usize = 256;

pub struct SegmentOrder {
    /// For each segment, where its arrows lead.
    arrows: Vec<Vec<usize>>,
    /// For each segment, whether the order can grow there.
    open: Vec<bool>,
}

impl SegmentOrder {
    /// One segment, number 0, which is open.
    pub fn fresh() -> SegmentOrder {
        SegmentOrder { arrows: vec![Vec::new()], open: vec![true] }
    }

    pub fn count(&self) -> usize {
        self.arrows.len()
    }

    /// Two new segments follow `x`. Answers the number of the first.
    pub fn fork(&mut self, x: usize) -> Result<usize, Cause> {
        if !self.is_open(x) {
            return Err(Cause::NotAnOpenEnd);
        }
        self.check_room(2)?;
        let first = self.add_segment_after(&[x]);
        self.add_segment_after(&[x]);
        self.open[x] = false;
        Ok(first)
    }

    /// One new segment follows both `x` and `y`. `y` stays open. Answers the number of the new one.
    pub fn meet(&mut self, x: usize, y: usize) -> Result<usize, Cause> {
        if !self.is_open(x) || !self.is_open(y) || x == y {
            return Err(Cause::NotAnOpenEnd);
        }
        self.check_room(1)?;
        let new = self.add_segment_after(&[x, y]);
        self.open[x] = false;
        Ok(new)
    }

    fn is_open(&self, x: usize) -> bool {
        self.open.get(x) == Some(&true)
    }

    fn check_room(&self, new_segments: usize) -> Result<(), Cause> {
        if self.count() + new_segments > CEILING {
            return Err(Cause::SegmentCeiling);
        }
        Ok(())
    }

    fn add_segment_after(&mut self, sources: &[usize]) -> usize {
        let new = self.count();
        self.arrows.push(Vec::new());
        self.open.push(true);
        for &source in sources {
            self.arrows[source].push(new);
        }
        new
    }

    /// All segments to which a path of one or more arrows leads from `x`.
    fn followers(&self, x: usize) -> Vec<bool> {
        let mut reached = vec![false; self.count()];
        let mut to_visit = self.arrows[x].clone();
        while let Some(segment) = to_visit.pop() {
            if !reached[segment] {
                reached[segment] = true;
                to_visit.extend(&self.arrows[segment]);
            }
        }
        reached
    }

    /// Who precedes whom, worked out once for many questions.
    pub fn precedence(&self) -> Precedence {
        Precedence { followers: (0..self.count()).map(|x| self.followers(x)).collect() }
    }
}

pub struct Precedence {
    followers: Vec<Vec<bool>>,
}

impl Precedence {
    pub fn precedes(&self, x: usize, y: usize) -> bool {
        self.followers[x][y]
    }

    pub fn parallel(&self, x: usize, y: usize) -> bool {
        !self.precedes(x, y) && !self.precedes(y, x)
    }
}

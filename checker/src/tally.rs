//! Counts of what was compared, by kind of recording.

use std::collections::BTreeMap;

#[derive(Default)]
pub struct Tally {
    kinds: BTreeMap<&'static str, Counts>,
}

#[derive(Default)]
pub struct Counts {
    pub recordings: usize,
    pub with_circles: usize,
    pub by_halts: usize,
    pub too_large_for_halts: usize,
    pub faults_by_cause: BTreeMap<String, usize>,
}

impl Tally {
    pub fn of(&mut self, kind: &'static str) -> &mut Counts {
        self.kinds.entry(kind).or_default()
    }

    pub fn print(&self) {
        println!(
            "{:26}{:>11}{:>14}{:>10}{:>11}  faults by cause",
            "kind", "recordings", "with circles", "by halts", "too large"
        );
        let mut sum = Counts::default();
        for (kind, counts) in &self.kinds {
            print_row(kind, counts);
            sum.add(counts);
        }
        print_row("all", &sum);
    }
}

impl Counts {
    fn add(&mut self, other: &Counts) {
        self.recordings += other.recordings;
        self.with_circles += other.with_circles;
        self.by_halts += other.by_halts;
        self.too_large_for_halts += other.too_large_for_halts;
        for (cause, count) in &other.faults_by_cause {
            *self.faults_by_cause.entry(cause.clone()).or_default() += count;
        }
    }
}

fn print_row(kind: &str, counts: &Counts) {
    let mut faults: Vec<(&String, &usize)> = counts.faults_by_cause.iter().collect();
    faults.sort_by_key(|(cause, _)| (cause.len(), cause.as_str()));
    let faults: Vec<String> = faults.iter().map(|(cause, count)| format!("{cause}: {count}")).collect();
    println!(
        "{kind:26}{:>11}{:>14}{:>10}{:>11}  {}",
        counts.recordings,
        counts.with_circles,
        counts.by_halts,
        counts.too_large_for_halts,
        faults.join(", ")
    );
}

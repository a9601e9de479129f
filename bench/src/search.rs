//! One search over either library: depth first on which task goes next, with both passes until nothing changes. Each library is called as its
//! user would call it: ours on the search's own ranges, with its mirrored pass; the published Rust on its domains, for latest starts in mirrored time.
use crate::inputs::{Rng, schedule};
use crate::published::{Domains, Published, domains};
use reedgrit::{Mirrored, Outcome, Propagator, Range, Words};

/// What the search needs from a library: passes that narrow ranges. Each says whether a range became narrower, or nothing where there is no schedule.
pub trait Machine {
    fn raise(&mut self, ranges: &mut [Range]) -> Option<bool>;
    fn lower(&mut self, ranges: &mut [Range]) -> Option<bool>;
}

/// Ours: one record for both directions. A pass that finds no schedule leaves ranges that nobody reads again.
pub struct Ours {
    propagator: Propagator,
    words: Words,
}

impl Ours {
    pub fn new(durations: &[i32]) -> Ours {
        let propagator = Propagator::new(durations).expect("durations within the limits");
        Ours { words: propagator.words(), propagator }
    }
}

impl Machine for Ours {
    fn raise(&mut self, ranges: &mut [Range]) -> Option<bool> {
        match self.propagator.run(ranges, &mut self.words).expect("ranges within the limits") {
            Outcome::Done { posts, .. } => Some(posts.len() > 0),
            _ => None,
        }
    }

    fn lower(&mut self, ranges: &mut [Range]) -> Option<bool> {
        match self.propagator.run_mirrored(ranges, &mut self.words).expect("ranges within the limits") {
            Mirrored::Done { posts } => Some(posts.len() > 0),
            _ => None,
        }
    }
}

/// The published Rust: a propagator for each direction, kept through the search, as a solver keeps its propagators.
pub struct Theirs {
    durations: Vec<i32>,
    there: Published,
    back: Published,
    domains: Domains,
}

impl Theirs {
    pub fn new(durations: &[i32]) -> Theirs {
        Theirs {
            durations: durations.to_vec(),
            there: Published::new(durations),
            back: Published::new(durations),
            domains: domains(&vec![Range::new(0, 0); durations.len()]),
        }
    }
}

impl Machine for Theirs {
    fn raise(&mut self, ranges: &mut [Range]) -> Option<bool> {
        self.domains.posts.clear();
        for (domain, range) in self.domains.ranges.iter_mut().zip(&*ranges) {
            (domain.lower, domain.upper) = (range.earliest, range.latest);
        }
        self.there.run(&mut self.domains).ok()?;
        for (domain, range) in self.domains.ranges.iter().zip(ranges) {
            range.earliest = domain.lower;
        }
        Some(!self.domains.posts.is_empty())
    }

    fn lower(&mut self, ranges: &mut [Range]) -> Option<bool> {
        self.domains.posts.clear();
        for ((domain, range), duration) in self.domains.ranges.iter_mut().zip(&*ranges).zip(&self.durations) {
            (domain.lower, domain.upper) = (-range.latest - duration, -range.earliest - duration);
        }
        self.back.run(&mut self.domains).ok()?;
        for ((domain, range), duration) in self.domains.ranges.iter().zip(ranges).zip(&self.durations) {
            range.latest = -domain.lower - duration;
        }
        Some(!self.domains.posts.is_empty())
    }
}

/// A search for a schedule, of so many nodes at most.
pub struct Search<'a, M> {
    pub machine: M,
    pub durations: &'a [i32],
    pub nodes: usize,
    pub most: usize,
}

impl<M: Machine> Search<'_, M> {
    fn narrow(&mut self, ranges: &mut [Range]) -> Option<()> {
        loop {
            let raised = self.machine.raise(ranges)?;
            let lowered = self.machine.lower(ranges)?;
            if !raised && !lowered {
                return Some(());
            }
        }
    }

    /// Whether the tasks that are left can go after the others; false also where the nodes are spent. They are tried by earliest start, equal ones by number.
    pub fn found(&mut self, mut ranges: Vec<Range>, left: TaskSet) -> bool {
        if self.nodes == self.most {
            return false;
        }
        self.nodes += 1;
        if self.narrow(&mut ranges).is_none() {
            return false;
        }
        let mut untried = left;
        while let Some(next) = untried.tasks().min_by_key(|task| ranges[*task].earliest) {
            untried = untried.without(next);
            if self.next(&ranges, left.without(next), next) {
                return true;
            }
        }
        left == TaskSet(0)
    }

    fn next(&mut self, ranges: &[Range], others: TaskSet, next: usize) -> bool {
        let end = ranges[next].earliest + self.durations[next];
        if others.tasks().any(|other| ranges[other].latest < end) {
            return false;
        }
        let mut after = ranges.to_vec();
        after[next].latest = after[next].earliest;
        for other in others.tasks() {
            after[other].earliest = after[other].earliest.max(end);
        }
        self.found(after, others)
    }
}

/// A set of up to 64 tasks, a bit for each.
#[derive(Clone, Copy, PartialEq, Eq)]
pub struct TaskSet(u64);

impl TaskSet {
    pub fn all(n: usize) -> TaskSet {
        TaskSet(u64::MAX >> (64 - n))
    }

    fn without(self, task: usize) -> TaskSet {
        TaskSet(self.0 & !(1 << task))
    }

    /// The tasks by number.
    fn tasks(self) -> impl Iterator<Item = usize> {
        let mut bits = self.0;
        std::iter::from_fn(move || {
            let task = bits.trailing_zeros() as usize;
            bits &= bits.wrapping_sub(1);
            (task < 64).then_some(task)
        })
    }
}

/// Tasks with ranges around a schedule in a random order, with no gap in it: there is a plan, and the search goes down to it.
pub fn instance(rng: &mut Rng, n: usize) -> (Vec<i32>, Vec<Range>) {
    let durations: Vec<i32> = (0..n).map(|_| rng.to(1, 12) as i32).collect();
    let starts = schedule(rng, &durations, 0, 0);
    let span = i64::from(durations.iter().sum::<i32>());
    let mut around = |start: &i64| {
        let (before, after) = (rng.pick(&[span / 2, span / 8]), rng.pick(&[span / 2, span / 8]));
        let latest = if rng.one_in(4) { *start } else { start + rng.to(0, after) };
        Range::new((start - rng.to(0, before)).max(0) as i32, latest as i32)
    };
    let ranges = starts.iter().map(&mut around).collect();
    (durations, ranges)
}

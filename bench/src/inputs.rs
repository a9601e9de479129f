//! Random inputs, the same for the same seed.
use reedgrit::{Atom, Comparison, Outcome, Propagator, Range};

/// A small generator (xorshift64*).
pub struct Rng(u64);

impl Rng {
    pub fn new(seed: u64) -> Rng {
        Rng(seed.wrapping_mul(0x9E37_79B9_7F4A_7C15) | 1)
    }

    fn next(&mut self) -> u64 {
        self.0 ^= self.0 >> 12;
        self.0 ^= self.0 << 25;
        self.0 ^= self.0 >> 27;
        self.0.wrapping_mul(0x2545_F491_4F6C_DD1D)
    }

    /// A number from `low` to `high`.
    pub fn to(&mut self, low: i64, high: i64) -> i64 {
        low + (self.next() >> 11).rem_euclid((high - low + 1) as u64) as i64
    }

    pub fn one_in(&mut self, n: i64) -> bool {
        self.to(1, n) == 1
    }

    pub fn pick<T: Copy>(&mut self, from: &[T]) -> T {
        from[self.to(0, from.len() as i64 - 1) as usize]
    }
}

const LIMIT: i64 = 400_000_000;

/// Durations of n tasks: equal ones, short ones, long ones up to the limit of their sum.
pub fn durations(rng: &mut Rng, n: usize) -> Vec<i32> {
    let longest = LIMIT / n as i64;
    let top = rng.pick(&[1, 2, 4, 10, 20, longest]).min(longest);
    (0..n).map(|_| rng.to(1, top) as i32).collect()
}

/// Starts of a schedule of the tasks in a random order, with gaps.
pub fn schedule(rng: &mut Rng, durations: &[i32], base: i64, gap: i64) -> Vec<i64> {
    let mut order: Vec<usize> = (0..durations.len()).collect();
    for k in (1..order.len()).rev() {
        order.swap(k, rng.to(0, k as i64) as usize);
    }
    let mut starts = vec![0; durations.len()];
    let mut time = base;
    for k in order {
        time += rng.to(0, gap);
        starts[k] = time;
        time += i64::from(durations[k]);
    }
    starts
}

/// Ranges for the tasks: tight ones, tied ones, ones around a schedule, wide ones, also at both ends of the permitted starts.
pub fn ranges(rng: &mut Rng, durations: &[i32]) -> Vec<Range> {
    let n = durations.len() as i64;
    let total: i64 = durations.iter().map(|d| i64::from(*d)).sum();
    let unit = (total / (4 * n)).max(1);
    let base = match rng.to(0, 6) {
        0 => -LIMIT,
        1 => LIMIT - total,
        2 => rng.to(-LIMIT, LIMIT),
        3 => -total,
        _ => 0,
    };
    let clamp = |z: i64| z.clamp(-LIMIT, LIMIT) as i32;
    let mode = rng.to(0, 4);
    let starts = schedule(rng, durations, base, if mode == 4 { unit } else { 0 });
    let slack = rng.pick(&[0, 1, 2, unit, 3 * unit, total]);
    durations
        .iter()
        .zip(starts)
        .map(|(duration, start)| {
            let (earliest, latest) = match mode {
                0 => {
                    let e = base + rng.to(0, 4 * unit);
                    (e, e + rng.to(0, slack))
                }
                1 => (base + unit * rng.to(0, 3), base + unit * rng.to(0, 3) + total - i64::from(*duration)),
                2 => (base + rng.to(0, total), base + rng.to(0, total)),
                _ => {
                    let back = if rng.one_in(3) { 0 } else { rng.to(0, slack) };
                    let on = if rng.one_in(3) { 0 } else { rng.to(0, slack) };
                    (start - back, start + on)
                }
            };
            Range::new(clamp(earliest.min(latest)), clamp(earliest.max(latest)))
        })
        .collect()
}

/// The same ranges, each with up to 16 barred starts inside it: some in a row from where a run without bars takes the earliest start to, so that
/// posts meet them, and the others anywhere.
pub fn barred(rng: &mut Rng, durations: &[i32], ranges: &[Range]) -> Vec<Range> {
    let mut after = ranges.to_vec();
    let mut propagator = Propagator::new(durations).expect("durations within the limits");
    let mut words = propagator.words();
    // Only the starts that it leaves are asked for, however it ends.
    let _ = propagator.run(&mut after, &mut words).expect("ranges within the limits");
    let bars = |rng: &mut Rng, range: &Range, raised: i32| {
        let (low, high) = (i64::from(range.earliest) + 1, i64::from(range.latest) - 1);
        let count = if low <= high { rng.to(0, 16) } else { 0 };
        let row = rng.to(0, count);
        let first = i64::from(raised).max(low);
        let mut bars: Vec<i32> = (0..count).map(|k| if k < row { first + k } else { rng.to(low, high) } as i32).collect();
        bars.retain(|bar| (low..=high).contains(&i64::from(*bar)));
        bars.sort_unstable();
        bars.dedup();
        range.barred(&bars)
    };
    ranges.iter().zip(&after).map(|(range, after)| bars(rng, range, after.earliest)).collect()
}

/// What the ranges of the runs are to be like.
#[derive(Clone, Copy, Debug, PartialEq, Eq)]
pub enum Family {
    /// Any.
    Mixed,
    /// Every run ends in Done.
    Done,
    /// Every run ends in Done, and 0 to n - 1 is sorted in both orders: by earliest start, and by latest completion with the greatest first.
    Sorted,
    /// The same with the tasks numbered the other way round: both orders are n - 1 to 0.
    Reversed,
    /// Any, with 0 to 16 barred starts for each task; the only one that has bars.
    Barred,
    /// Those of `Mixed`, for the mirrored pass; the published Rust runs on them in mirrored time.
    Mirrored,
}

impl Family {
    pub const ALL: [Family; 6] = [Family::Mixed, Family::Done, Family::Sorted, Family::Reversed, Family::Barred, Family::Mirrored];

    pub fn name(self) -> &'static str {
        match self {
            Family::Mixed => "mixed",
            Family::Done => "done",
            Family::Sorted => "sorted",
            Family::Reversed => "reversed",
            Family::Barred => "barred",
            Family::Mirrored => "mirrored",
        }
    }
}

/// Tasks, and ranges for them.
pub struct Case {
    pub durations: Vec<i32>,
    pub ranges: Vec<Range>,
}

/// Ranges without bars in mirrored time.
pub fn mirrored(durations: &[i32], ranges: &[Range]) -> Vec<Range> {
    ranges.iter().zip(durations).map(|(range, duration)| Range::new(-range.latest - duration, -range.earliest - duration)).collect()
}

fn is_done(durations: &[i32], ranges: &[Range]) -> bool {
    let mut propagator = Propagator::new(durations).expect("durations within the limits");
    let mut words = propagator.words();
    matches!(propagator.run(&mut ranges.to_vec(), &mut words), Ok(Outcome::Done { .. }))
}

/// Ranges of which each is within the one before. The last task starts in the middle; each task before it has room for itself and for those within,
/// and a slack that is divided at random between both ends.
fn nested(rng: &mut Rng, durations: &[i32]) -> Vec<Range> {
    let unit = (durations.iter().map(|d| i64::from(*d)).sum::<i64>() / durations.len() as i64).max(1);
    let slack = rng.pick(&[0, 1, unit, 3 * unit]);
    let (mut start, mut end) = (0, 0);
    let mut made = Vec::new();
    for duration in durations.iter().rev() {
        let room = i64::from(*duration).max(2) + rng.to(0, slack);
        let before = rng.to(1, room - 1);
        start -= before;
        end += room - before;
        made.push(Range::new(start as i32, (end - i64::from(*duration)) as i32));
    }
    made.reverse();
    made
}

pub fn cases(family: Family, n: usize, count: usize, seed: u64) -> Vec<Case> {
    let mut rng = Rng::new(seed + 1000 * n as u64);
    let mut made = Vec::new();
    while made.len() < count {
        let mut durations = durations(&mut rng, n);
        let mut ranges = match family {
            Family::Mixed | Family::Done | Family::Mirrored => ranges(&mut rng, &durations),
            Family::Sorted | Family::Reversed => nested(&mut rng, &durations),
            Family::Barred => {
                let free = ranges(&mut rng, &durations);
                barred(&mut rng, &durations, &free)
            }
        };
        if family == Family::Reversed {
            durations.reverse();
            ranges.reverse();
        }
        if matches!(family, Family::Mixed | Family::Barred | Family::Mirrored) || is_done(&durations, &ranges) {
            made.push(Case { durations, ranges });
        }
    }
    made
}

/// A check: the reason of a post or of an overload, as it is or with one value changed.
pub struct Check {
    pub durations: Vec<i32>,
    pub premises: Vec<Atom>,
    pub consequent: Option<Atom>,
}

/// Checks on n tasks; where `changed`, one value of each is off by one or two.
pub fn checks(n: usize, count: usize, changed: bool, seed: u64) -> Vec<Check> {
    let mut rng = Rng::new(seed + 1000 * n as u64);
    let mut made = Vec::new();
    while made.len() < count {
        let durations = durations(&mut rng, n);
        let mut propagator = Propagator::new(&durations).expect("durations within the limits");
        let mut words = propagator.words();
        let outcome = propagator.run(&mut ranges(&mut rng, &durations), &mut words).expect("ranges within the limits");
        let mut found: Vec<(Vec<Atom>, Option<Atom>)> = Vec::new();
        if outcome.posts().len() > 0 {
            let at = rng.to(0, outcome.posts().len() as i64 - 1) as usize;
            let post = outcome.posts().nth(at).expect("it is there");
            found.push((post.reason.to_vec(), Some(post.atom())));
        }
        if let Outcome::Overload { reason, .. } = outcome {
            found.push((reason.into_atoms(), None));
        }
        for (mut premises, consequent) in found {
            if changed {
                let at = rng.to(0, premises.len() as i64 - 1) as usize;
                let old = premises[at];
                let off = rng.pick(&[-2, -1, 1, 2]);
                premises[at] = Atom::new(old.variable(), old.comparison(), old.value() + off);
            }
            made.push(Check { durations: durations.clone(), premises, consequent });
        }
    }
    made.truncate(count);
    made
}

/// An atom on one of a few variables with one of a few values, so that atoms meet.
pub fn any_atom(rng: &mut Rng, variables: i64, base: i64, width: i64) -> Atom {
    let comparison = rng.pick(&[
        Comparison::GreaterEqual,
        Comparison::GreaterEqual,
        Comparison::LessEqual,
        Comparison::LessEqual,
        Comparison::Equal,
        Comparison::NotEqual,
    ]);
    let value = (base + rng.to(-width, width)).clamp(-900_000_000, 900_000_000) as i32;
    Atom::new(rng.to(0, variables - 1) as usize, comparison, value)
}

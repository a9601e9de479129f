//! Judges written from the definitions, over all sets and all orders of tasks.
//! Nothing here calls the Rust under test. All numbers are 64-bit.

/// One task: earliest start, latest start, duration.
#[derive(Debug, Clone, Copy, PartialEq)]
pub struct Task {
    pub e: i64,
    pub l: i64,
    pub p: i64,
}

pub struct Sets {
    pub est: Vec<i64>,
    pub lct: Vec<i64>,
    pub p: Vec<i64>,
    pub ect: Vec<i64>,
    /// Smallest latest completion less duration sum over the non-empty subsets.
    pub lst: Vec<i64>,
}

pub fn sets(tasks: &[Task]) -> Sets {
    let n = tasks.len();
    let m = 1usize << n;
    let mut s = Sets {
        est: vec![i64::MAX; m],
        lct: vec![i64::MIN; m],
        p: vec![0; m],
        ect: vec![i64::MIN; m],
        lst: vec![i64::MAX; m],
    };
    for x in 1..m {
        for k in 0..n {
            if x >> k & 1 == 1 {
                s.est[x] = s.est[x].min(tasks[k].e);
                s.lct[x] = s.lct[x].max(tasks[k].l + tasks[k].p);
                s.p[x] += tasks[k].p;
            }
        }
    }
    for x in 1..m {
        let mut sub = x;
        while sub > 0 {
            s.ect[x] = s.ect[x].max(s.est[sub] + s.p[sub]);
            s.lst[x] = s.lst[x].min(s.lct[sub] - s.p[sub]);
            sub = (sub - 1) & x;
        }
    }
    s
}

#[derive(Debug, Clone, PartialEq)]
pub struct Verdict {
    pub overload: bool,
    /// The largest edge-finding bound of each task, if it has one.
    pub bound: Vec<Option<i64>>,
    pub passes: bool,
    /// The mirrored rule: the smallest latest start that it gives each task.
    pub upper: Vec<Option<i64>>,
    pub upper_passes: bool,
}

pub fn verdict(tasks: &[Task]) -> Verdict {
    let n = tasks.len();
    let s = sets(tasks);
    let overload = (1..1usize << n).any(|x| s.est[x] + s.p[x] > s.lct[x]);
    let mut bound = vec![None; n];
    let mut upper = vec![None; n];
    for i in 0..n {
        for x in 1..1usize << n {
            if x >> i & 1 == 1 {
                continue;
            }
            if s.ect[x | 1 << i] > s.lct[x] {
                bound[i] = Some(bound[i].map_or(s.ect[x], |b: i64| b.max(s.ect[x])));
            }
            if s.lst[x | 1 << i] < s.est[x] {
                let v = s.lst[x] - tasks[i].p;
                upper[i] = Some(upper[i].map_or(v, |b: i64| b.min(v)));
            }
        }
    }
    let passes = (0..n).any(|i| bound[i].is_some_and(|b| b > tasks[i].l));
    let upper_passes = (0..n).any(|i| upper[i].is_some_and(|b| b < tasks[i].e));
    Verdict { overload, bound, passes, upper, upper_passes }
}

/// The whole numbers that one start may take.
#[derive(Debug, Clone, Default)]
pub struct Admitted {
    pub lower: Option<i64>,
    pub upper: Option<i64>,
    pub holes: Vec<i64>,
}

impl Admitted {
    pub fn first_from(&self, t: i64) -> Option<i64> {
        let mut v = self.lower.map_or(t, |l| l.max(t));
        while self.holes.contains(&v) {
            v += 1;
        }
        if self.upper.is_some_and(|u| v > u) { None } else { Some(v) }
    }
    pub fn contains(&self, v: i64) -> bool {
        self.lower.is_none_or(|l| v >= l) && self.upper.is_none_or(|u| v <= u) && !self.holes.contains(&v)
    }
}

/// The starts of tasks with these ranges and barred starts.
pub fn whole(tasks: &[Task], holes: &[Vec<i32>]) -> Vec<Admitted> {
    tasks
        .iter()
        .enumerate()
        .map(|(k, t)| Admitted {
            lower: Some(t.e),
            upper: Some(t.l),
            holes: holes.get(k).map_or(vec![], |h| h.iter().map(|v| *v as i64).collect()),
        })
        .collect()
}

/// Is there a choice of starts, one for each task, with no two overlapping? A task without a lower
/// bound fits before all others, one without an upper bound after all others (each only if its set
/// is not empty, which a missing bound grants); the rest are tried in every order, each begun as
/// early as it can be.
pub fn schedule_exists(durations: &[i64], admitted: &[Admitted]) -> bool {
    let bounded: Vec<usize> = (0..durations.len())
        .filter(|k| admitted[*k].lower.is_some() && admitted[*k].upper.is_some())
        .collect();
    let m = bounded.len();
    let mut end: Vec<Option<i64>> = vec![None; 1 << m];
    end[0] = Some(i64::MIN / 2);
    for x in 1..1usize << m {
        for (b, k) in bounded.iter().enumerate() {
            if x >> b & 1 == 0 {
                continue;
            }
            let Some(before) = end[x & !(1 << b)] else { continue };
            if let Some(s) = admitted[*k].first_from(before) {
                let e = s + durations[*k];
                end[x] = Some(end[x].map_or(e, |o| o.min(e)));
            }
        }
    }
    end[(1 << m) - 1].is_some()
}

/// The same question by counting through every choice of starts; for small finite ranges.
pub fn schedule_exists_by_counting(durations: &[i64], admitted: &[Admitted]) -> bool {
    fn go(k: usize, d: &[i64], a: &[Admitted], starts: &mut Vec<i64>) -> bool {
        if k == d.len() {
            return true;
        }
        for s in a[k].lower.unwrap()..=a[k].upper.unwrap() {
            if !a[k].contains(s) {
                continue;
            }
            if (0..k).all(|j| starts[j] + d[j] <= s || s + d[k] <= starts[j]) {
                starts.push(s);
                if go(k + 1, d, a, starts) {
                    return true;
                }
                starts.pop();
            }
        }
        false
    }
    go(0, durations, admitted, &mut Vec::new())
}

/// What a list of atoms (variable, kind, value) admits for one variable.
pub fn admitted(atoms: &[(u32, i32, i64)], variable: u32) -> Admitted {
    let mut a = Admitted::default();
    for (v, kind, x) in atoms {
        if *v != variable {
            continue;
        }
        if *kind == 0 || *kind == 2 {
            a.lower = Some(a.lower.map_or(*x, |l| l.max(*x)));
        }
        if *kind == 1 || *kind == 2 {
            a.upper = Some(a.upper.map_or(*x, |u| u.min(*x)));
        }
        if *kind == 3 {
            a.holes.push(*x);
        }
    }
    a
}

pub fn negated(atom: (u32, i32, i64)) -> (u32, i32, i64) {
    match atom.1 {
        0 => (atom.0, 1, atom.2 - 1),
        1 => (atom.0, 0, atom.2 + 1),
        2 => (atom.0, 3, atom.2),
        _ => (atom.0, 2, atom.2),
    }
}

/// Does some schedule, its ranges unbounded, meet all premises and not the consequent?
pub fn check_is_contradicted(
    durations: &[i64],
    premises: &[(u32, i32, i64)],
    consequent: Option<(u32, i32, i64)>,
) -> bool {
    let mut atoms = premises.to_vec();
    atoms.extend(consequent.map(negated));
    let sets: Vec<Admitted> = (0..durations.len()).map(|k| admitted(&atoms, k as u32)).collect();
    schedule_exists(durations, &sets)
}

/// Request (h): the tasks that must come before i, and ect of them.
pub fn precedence(tasks: &[Task], i: usize) -> (Vec<usize>, Option<i64>) {
    let set: Vec<usize> = (0..tasks.len())
        .filter(|j| *j != i && tasks[*j].l < tasks[i].e + tasks[i].p)
        .collect();
    let chosen: Vec<Task> = set.iter().map(|k| tasks[*k]).collect();
    let ect = if chosen.is_empty() { None } else { Some(sets(&chosen).ect[(1 << chosen.len()) - 1]) };
    (set, ect)
}

/// The verdict for many tasks, by intervals instead of sets: an overloading set exists exactly when
/// all tasks inside some interval [est, lct] overload it; without one, a task's largest bound comes
/// from a set of all others that complete by some b. The audit compares it with `verdict`.
/// Bounds are right only where nothing overloads.
pub fn verdict_by_intervals(tasks: &[Task]) -> (bool, Vec<Option<i64>>) {
    let n = tasks.len();
    let lct = |k: usize| tasks[k].l + tasks[k].p;
    let ect = |set: &[usize]| -> i64 {
        set.iter()
            .map(|a| tasks[*a].e + set.iter().filter(|k| tasks[**k].e >= tasks[*a].e).map(|k| tasks[*k].p).sum::<i64>())
            .max()
            .unwrap()
    };
    let overload = (0..n).any(|b| {
        let set: Vec<usize> = (0..n).filter(|k| lct(*k) <= lct(b)).collect();
        ect(&set) > lct(b)
    });
    let mut bound = vec![None; n];
    for i in 0..n {
        for b in (0..n).filter(|b| *b != i) {
            let mut set: Vec<usize> = (0..n).filter(|k| *k != i && lct(*k) <= lct(b)).collect();
            let without = ect(&set);
            set.push(i);
            if ect(&set) > lct(b) {
                bound[i] = Some(bound[i].map_or(without, |x: i64| x.max(without)));
            }
        }
    }
    (overload, bound)
}

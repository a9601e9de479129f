//! Random series through the binding against the published Rust: runs, checks, states.
use bench::inputs::{Case, Family, Rng, any_atom, barred, cases, checks, durations, mirrored, ranges};
use bench::published::{Checked, Checker, Conflicted, Published, atom, domains};
use bench::search::{Machine, Ours, Search, TaskSet, Theirs, instance};
use pumpkin_checking::{IntExt, VariableState};
use reedgrit::state::{Bound, NoState, lower_bound, upper_bound};
use reedgrit::{Mirrored, Outcome, Propagator, Verdict, Words, check};
use std::cmp::Ordering;

/// How often each thing occurred in runs.
#[derive(Debug, Default)]
struct Seen {
    done: usize,
    overload: usize,
    emptied: usize,
    posts: usize,
    /// Posts whose task starts later than their bound, by its bars.
    moved: usize,
}

/// One run of ours and one of a newly made published propagator: outcome, posts, reasons and starts are the same, and our record stays.
fn same_run(ours: &mut Propagator, words: &mut Words, case: &Case, seen: &mut Seen) {
    let before = ours.clone();
    let mut ranges = case.ranges.clone();
    let mut store = domains(&ranges);
    let outcome = ours.run(&mut ranges, words).unwrap();
    match (&outcome, Published::new(&case.durations).run(&mut store)) {
        (Outcome::Done { .. }, Ok(())) => seen.done += 1,
        (Outcome::Overload { reason, .. }, Err(Conflicted::Propagator(why))) => {
            seen.overload += 1;
            assert_eq!(reason.atoms().iter().map(atom).collect::<Vec<_>>(), why);
        }
        (Outcome::Emptied { .. }, Err(Conflicted::EmptyDomain)) => seen.emptied += 1,
        (ours, theirs) => panic!("{:?} {:?} {ours} {theirs:?}", case.durations, case.ranges),
    }
    assert_eq!(outcome.posts().len(), store.posts.len());
    for (post, (predicate, why)) in outcome.posts().zip(&store.posts) {
        seen.posts += 1;
        assert_eq!(atom(&post.atom()), *predicate);
        assert_eq!(post.reason.iter().map(atom).collect::<Vec<_>>(), *why);
        seen.moved += usize::from(post.bound < ranges[post.task].earliest);
    }
    assert!(ranges.iter().zip(&case.ranges).all(|(after, before)| after.bars() == before.bars()));
    let starts: Vec<(i32, i32)> = ranges.iter().map(|r| (r.earliest, r.latest)).collect();
    assert_eq!(starts, store.ranges.iter().map(|r| (r.lower, r.upper)).collect::<Vec<_>>());
    assert_eq!(*ours, before);
}

/// One mirrored pass of ours, and a run of a newly made published propagator in mirrored time: outcome, posts and latest starts are the same.
fn same_mirrored(ours: &Propagator, words: &mut Words, case: &Case, seen: &mut Seen) {
    let mut ranges = case.ranges.clone();
    let mut store = domains(&mirrored(&case.durations, &ranges));
    let outcome = ours.run_mirrored(&mut ranges, words).unwrap();
    match (&outcome, Published::new(&case.durations).run(&mut store)) {
        (Mirrored::Done { .. }, Ok(())) => seen.done += 1,
        (Mirrored::Overload { .. }, Err(Conflicted::Propagator(_))) => seen.overload += 1,
        (Mirrored::Emptied { .. }, Err(Conflicted::EmptyDomain)) => seen.emptied += 1,
        (ours, theirs) => panic!("{:?} {:?} {ours} {theirs:?}", case.durations, case.ranges),
    }
    assert_eq!(outcome.posts().len(), store.posts.len());
    for (post, (predicate, why)) in outcome.posts().zip(&store.posts) {
        seen.posts += 1;
        assert_eq!((post.task, -post.bound - case.durations[post.task]), (predicate.variable as usize, predicate.value));
        assert_eq!(post.reason.len(), why.len());
    }
    let latest: Vec<i32> = ranges.iter().map(|r| r.latest).collect();
    assert_eq!(latest, store.ranges.iter().zip(&case.durations).map(|(r, d)| -r.lower - d).collect::<Vec<_>>());
}

/// Series of runs on one record of ours, each against a newly made published propagator.
#[test]
fn runs() {
    let mut rng = Rng::new(1);
    let mut seen = Seen::default();
    for series in 0..4000 {
        let n = if series % 4 == 0 { rng.to(1, 48) } else { rng.to(1, 9) } as usize;
        let durations = durations(&mut rng, n);
        let mut ours = Propagator::new(&durations).unwrap();
        let mut words = ours.words();
        for _ in 0..rng.to(1, 5) {
            let case = Case { durations: durations.clone(), ranges: ranges(&mut rng, &durations) };
            same_run(&mut ours, &mut words, &case, &mut seen);
        }
    }
    // every outcome occurred, often
    assert!(seen.done > 500 && seen.overload > 500 && seen.emptied > 100 && seen.posts > 1000 && seen.moved == 0, "{seen:?}");
}

/// The same with barred starts, which are holes of the published Rust's domains.
#[test]
fn barred_runs() {
    let mut rng = Rng::new(6);
    let mut seen = Seen::default();
    for series in 0..4000 {
        let n = if series % 4 == 0 { rng.to(1, 48) } else { rng.to(1, 9) } as usize;
        let durations = durations(&mut rng, n);
        let mut ours = Propagator::new(&durations).unwrap();
        let mut words = ours.words();
        for _ in 0..rng.to(1, 5) {
            let free = ranges(&mut rng, &durations);
            let case = Case { ranges: barred(&mut rng, &durations, &free), durations: durations.clone() };
            same_run(&mut ours, &mut words, &case, &mut seen);
        }
    }
    assert!(seen.done > 500 && seen.overload > 500 && seen.emptied > 100 && seen.posts > 1000 && seen.moved > 1000, "{seen:?}");
}

/// Whether each task compares so with the next by the keys of both orders, earliest start and latest completion with the greatest first.
fn follow(case: &Case, way: Ordering) -> bool {
    let keys: Vec<(i32, i32)> = case.ranges.iter().zip(&case.durations).map(|(r, d)| (r.earliest, -(r.latest + d))).collect();
    keys.windows(2).all(|two| two[0].0.cmp(&two[1].0) == way && two[0].1.cmp(&two[1].1) == way)
}

/// The runs that the benchmark times; those of the families that are to end in Done do.
#[test]
fn timed_runs() {
    for family in Family::ALL {
        let mut seen = Seen::default();
        for n in [8, 16, 32, 48] {
            for case in cases(family, n, 100, 5) {
                let mut ours = Propagator::new(&case.durations).unwrap();
                let mut words = ours.words();
                if family == Family::Mirrored {
                    same_mirrored(&ours, &mut words, &case, &mut seen);
                } else {
                    same_run(&mut ours, &mut words, &case, &mut seen);
                }
                assert!(family != Family::Sorted || follow(&case, Ordering::Less));
                assert!(family != Family::Reversed || follow(&case, Ordering::Greater));
            }
        }
        assert!(matches!(family, Family::Mixed | Family::Barred | Family::Mirrored) || seen.done == 400, "{seen:?}");
        assert_eq!(family == Family::Barred, seen.moved > 0, "{seen:?}");
    }
}

/// The searches that the benchmark times: both libraries lead through the same nodes.
#[test]
fn timed_searches() {
    fn visited<M: Machine>(machine: M, durations: &[i32], ranges: &[reedgrit::Range]) -> (bool, usize) {
        let mut search = Search { machine, durations, nodes: 0, most: 300 };
        (search.found(ranges.to_vec(), TaskSet::all(durations.len())), search.nodes)
    }
    let mut rng = Rng::new(7);
    for n in [3, 8, 16, 48] {
        for _ in 0..20 {
            let (durations, ranges) = instance(&mut rng, n);
            assert_eq!(visited(Ours::new(&durations), &durations, &ranges), visited(Theirs::new(&durations), &durations, &ranges));
        }
    }
}

/// Checks of reasons, as they are and changed: the published Rust's answers.
#[test]
fn reasons() {
    let mut seen = [0; 3];
    for n in [2, 3, 5, 8, 16, 32, 48] {
        for changed in [false, true] {
            for one in checks(n, 400, changed, 2) {
                let verdict = check(&one.durations, &one.premises, one.consequent).unwrap();
                assert!(changed || verdict == Verdict::Passed);
                let premises: Vec<_> = one.premises.iter().map(atom).collect();
                let theirs = Checker::new(&one.durations).check(&premises, one.consequent.as_ref().map(atom));
                seen[compare(verdict, theirs)] += 1;
            }
        }
    }
    assert!(seen[0] > 1000 && seen[1] > 100, "{seen:?}");
}

/// Checks of any atoms. Those on which the published Rust panics (docs/DIFFERENCES.md) are refused or not passed here. It panics at sums
/// that overflow, so this wants a profile with overflow checks, which `cargo test` has.
#[test]
fn any_checks() {
    std::panic::set_hook(Box::new(|_| {}));
    let mut rng = Rng::new(3);
    let (mut seen, mut panics) = ([0; 3], 0);
    for _ in 0..20_000 {
        let n = rng.to(1, 6) as usize;
        let durations = durations(&mut rng, n);
        let base = rng.pick(&[0, 0, -20, 900_000_000, -900_000_000]);
        let width = rng.pick(&[3, 8, 40]);
        let premises: Vec<_> = (0..rng.to(0, 4 * n as i64)).map(|_| any_atom(&mut rng, n as i64 + 1, base, width)).collect();
        let consequent = if rng.one_in(2) { Some(any_atom(&mut rng, n as i64, base, width)) } else { None };
        let ours = check(&durations, &premises, consequent);
        let theirs = std::panic::catch_unwind(|| {
            let premises: Vec<_> = premises.iter().map(atom).collect();
            Checker::new(&durations).check(&premises, consequent.as_ref().map(atom))
        });
        match (ours, theirs) {
            (Ok(verdict), Ok(theirs)) => seen[compare(verdict, theirs)] += 1,
            (Err(refused), Err(_)) => {
                assert!(consequent.is_some() && refused == reedgrit::Refused::Consequent);
                panics += 1;
            }
            (Ok(Verdict::NotPassed), Err(_)) => panics += 1,
            (ours, theirs) => panic!("{durations:?} {premises:?} {consequent:?}: {ours:?} {theirs:?}"),
        }
    }
    let _ = std::panic::take_hook();
    assert!(seen.iter().all(|times| *times > 100) && panics > 100, "{seen:?} {panics}");
}

fn compare(ours: Verdict, theirs: Checked) -> usize {
    match (ours, theirs) {
        (Verdict::Passed, Checked::Passed) => 0,
        (Verdict::NotPassed, Checked::NotPassed) => 1,
        (Verdict::Contradiction(x), Checked::Contradiction(y)) if x == y => 2,
        _ => panic!("{ours} {theirs:?}"),
    }
}

/// The bounds of the state that atoms leave.
#[test]
fn states() {
    let mut rng = Rng::new(4);
    let mut contradictions = 0;
    for _ in 0..10_000 {
        let premises: Vec<_> = (0..rng.to(0, 12)).map(|_| any_atom(&mut rng, 3, 0, 6)).collect();
        let theirs = VariableState::prepare_for_conflict_check(premises.iter().map(atom), None);
        for variable in 0..3 {
            let bounds = (lower_bound(&premises, variable), upper_bound(&premises, variable));
            match &theirs {
                Ok(state) => {
                    let own = |bound| match bound {
                        IntExt::Int(value) => Ok(Bound::At(value)),
                        IntExt::NegativeInf => Ok(Bound::NegativeInfinity),
                        IntExt::PositiveInf => Ok(Bound::PositiveInfinity),
                    };
                    let asked = variable as u32;
                    assert_eq!(bounds, (own(state.lower_bound(&asked)), own(state.upper_bound(&asked))));
                }
                Err(x) => {
                    contradictions += 1;
                    let none = Err(NoState::Contradiction(*x as usize));
                    assert_eq!(bounds, (none, none));
                }
            }
        }
    }
    assert!(contradictions > 1000);
}

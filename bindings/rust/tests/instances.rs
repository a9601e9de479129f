//! The instances A to L through the binding.
use reedgrit::Comparison::{Equal, GreaterEqual, LessEqual, NotEqual};
use reedgrit::state::{Bound, NoState, is_true, lower_bound, upper_bound};
use reedgrit::{Atom, Outcome, Propagator, Range, Refused, Verdict, check};

/// What a run says: its posts with their reasons, how it ended, its overload's reason, and the earliest starts afterwards.
#[derive(Debug, PartialEq)]
struct Said {
    posts: Vec<(usize, i32, Vec<String>)>,
    end: String,
    overload: Vec<String>,
    starts: Vec<i32>,
}

fn shown(atoms: &[Atom]) -> Vec<String> {
    atoms.iter().map(Atom::to_string).collect()
}

/// Runs tasks (earliest, latest, duration) on a new propagator; each reason passes the check on the way.
fn run(tasks: &[(i32, i32, i32)]) -> Said {
    let durations: Vec<i32> = tasks.iter().map(|task| task.2).collect();
    let mut ranges: Vec<Range> = tasks.iter().map(|task| Range::new(task.0, task.1)).collect();
    let mut propagator = Propagator::new(&durations).unwrap();
    let mut words = propagator.words();
    let outcome = propagator.run(&mut ranges, &mut words).unwrap();
    let mut posts = Vec::new();
    for post in outcome.posts() {
        assert_eq!(post.check(&durations), Ok(Verdict::Passed));
        posts.push((post.task, post.bound, shown(post.reason)));
    }
    let mut overload = Vec::new();
    if let Outcome::Overload { reason, .. } = &outcome {
        assert_eq!(reason.check(&durations), Ok(Verdict::Passed));
        overload = shown(reason.atoms());
    }
    for (range, task) in ranges.iter().zip(tasks) {
        assert_eq!(range.latest, task.1);
    }
    Said { posts, end: outcome.to_string(), overload, starts: ranges.iter().map(|range| range.earliest).collect() }
}

fn said(posts: &[(usize, i32, &[&str])], end: &str, overload: &[&str], starts: &[i32]) -> Said {
    let own = |texts: &[&str]| texts.iter().map(|text| text.to_string()).collect();
    Said {
        posts: posts.iter().map(|(task, bound, why)| (*task, *bound, own(why))).collect(),
        end: end.to_string(),
        overload: own(overload),
        starts: starts.to_vec(),
    }
}

const A: [i32; 3] = [4, 5, 3];
fn reason_of_a() -> [Atom; 5] {
    [
        Atom::new(0, GreaterEqual, 0),
        Atom::new(0, LessEqual, 7),
        Atom::new(1, GreaterEqual, 0),
        Atom::new(1, LessEqual, 6),
        Atom::new(2, GreaterEqual, 0),
    ]
}

#[test]
fn a_posts_the_third_task() {
    let why = ["0 >= 0", "0 <= 7", "1 >= 0", "1 <= 6", "2 >= 0"];
    assert_eq!(run(&[(0, 6, 4), (1, 5, 5), (0, 20, 3)]), said(&[(2, 9, &why)], "done", &[], &[0, 1, 9]));
}

#[test]
fn b_overloads() {
    let why = ["0 >= 0", "0 <= 3", "1 >= 0", "1 <= 3"];
    assert_eq!(run(&[(0, 2, 4), (1, 2, 4)]), said(&[], "overload", &why, &[0, 1]));
}

#[test]
fn c_is_full_and_no_overload() {
    assert_eq!(run(&[(0, 4, 4), (1, 4, 4)]), said(&[], "done", &[], &[0, 1]));
}

#[test]
fn d_overloads_without_its_first_task() {
    let why = ["1 >= 10", "1 <= 12", "2 >= 10", "2 <= 12"];
    assert_eq!(run(&[(0, 13, 1), (10, 11, 3), (10, 11, 3)]), said(&[], "overload", &why, &[0, 10, 10]));
}

#[test]
fn e_empties_a_range_that_stays() {
    let why = ["1 >= 1", "1 <= 2", "0 >= 0"];
    assert_eq!(run(&[(0, 5, 3), (1, 1, 5)]), said(&[(0, 6, &why)], "emptied", &[], &[0, 1]));
}

#[test]
fn f_has_room_for_the_post() {
    let why = ["1 >= 1", "1 <= 2", "0 >= 0"];
    assert_eq!(run(&[(0, 6, 3), (1, 1, 5)]), said(&[(0, 6, &why)], "done", &[], &[6, 1]));
}

#[test]
fn g_is_one_task() {
    assert_eq!(run(&[(7, 7, 1)]), said(&[], "done", &[], &[7]));
}

/// The leaf changes of a run on a new propagator.
fn changes(tasks: &[(i32, i32, i32)]) -> usize {
    let durations: Vec<i32> = tasks.iter().map(|task| task.2).collect();
    let mut ranges: Vec<Range> = tasks.iter().map(|task| Range::new(task.0, task.1)).collect();
    let mut propagator = Propagator::new(&durations).unwrap();
    let mut words = propagator.words();
    let outcome = propagator.run(&mut ranges, &mut words).unwrap();
    outcome.changes()
}

#[test]
fn leaf_changes_of_a_to_g() {
    assert_eq!(changes(&[(0, 6, 4), (1, 5, 5), (0, 20, 3)]), 8);
    assert_eq!(changes(&[(0, 2, 4), (1, 2, 4)]), 2);
    assert_eq!(changes(&[(0, 4, 4), (1, 4, 4)]), 4);
    assert_eq!(changes(&[(0, 13, 1), (10, 11, 3), (10, 11, 3)]), 3);
    assert_eq!(changes(&[(0, 5, 3), (1, 1, 5)]), 4);
    assert_eq!(changes(&[(0, 6, 3), (1, 1, 5)]), 5);
    assert_eq!(changes(&[(7, 7, 1)]), 1);
}

#[test]
fn most_leaf_changes() {
    for n in 1..=48 {
        let tasks: Vec<_> = (0..n).map(|k| (10 * k, 10 * k, 10)).collect();
        assert_eq!(changes(&tasks), 4 * n as usize - 3);
    }
}

#[test]
fn h_skips_the_hole() {
    let premises = [Atom::new(3, NotEqual, 5), Atom::new(3, GreaterEqual, 5)];
    assert_eq!(lower_bound(&premises, 3), Ok(Bound::At(6)));
    assert_eq!(upper_bound(&premises, 3), Ok(Bound::PositiveInfinity));
    assert_eq!(lower_bound(&premises, 4), Ok(Bound::NegativeInfinity));
    assert_eq!(is_true(&premises, Atom::new(3, NotEqual, 5)), Ok(true));
    assert_eq!(is_true(&premises, Atom::new(3, GreaterEqual, 7)), Ok(false));
    assert_eq!(is_true(&[], Atom::new(3, GreaterEqual, 7)), Ok(false));
    assert_eq!(is_true(&[Atom::new(3, Equal, 2), Atom::new(3, Equal, 3)], premises[0]), Err(NoState::Contradiction(3)));
    assert_eq!(lower_bound(&premises, 64), Err(NoState::Refused(Refused::Atoms)));
}

#[test]
fn i_checks_nothing() {
    assert_eq!(check(&A, &[], None), Ok(Verdict::NotPassed));
}

#[test]
fn j_starts_up_to_the_limit() {
    let mut propagator = Propagator::new(&[1]).unwrap();
    let mut words = propagator.words();
    for start in [400_000_000, -400_000_000] {
        assert!(propagator.run(&mut [Range::new(start, start)], &mut words).is_ok());
    }
    for range in [Range::new(0, 400_000_001), Range::new(-400_000_001, 0)] {
        assert_eq!(propagator.run(&mut [range], &mut words).map(drop), Err(Refused::Start(0)));
    }
}

#[test]
fn k_48_tasks_and_no_more() {
    let mut propagator = Propagator::new(&[1; 48]).unwrap();
    let mut words = propagator.words();
    assert!(propagator.run(&mut [Range::new(0, 47); 48], &mut words).is_ok());
    assert_eq!(Propagator::new(&[1; 49]), Err(Refused::TaskCount));
    assert_eq!(check(&[1; 49], &[], None), Err(Refused::TaskCount));
}

#[test]
fn l_passes_its_bound_and_not_the_next() {
    assert_eq!(check(&A, &reason_of_a(), Some(Atom::new(2, GreaterEqual, 9))), Ok(Verdict::Passed));
    assert_eq!(check(&A, &reason_of_a(), Some(Atom::new(2, GreaterEqual, 10))), Ok(Verdict::NotPassed));
    assert_eq!(check(&A, &reason_of_a(), Some(Atom::new(2, GreaterEqual, 0))), Ok(Verdict::Contradiction(2)));
    assert_eq!(check(&A, &[], Some(Atom::new(2, GreaterEqual, 9))), Err(Refused::Consequent));
    assert_eq!(check(&A, &reason_of_a(), Some(Atom::new(3, GreaterEqual, 9))), Err(Refused::Consequent));
}

// Every type may go to another thread and be shared.
#[test]
fn send_and_sync() {
    fn both<T: Send + Sync>() {}
    both::<Propagator>();
    both::<Range>();
    both::<Atom>();
    both::<reedgrit::Words>();
    both::<Outcome>();
    both::<Verdict>();
    both::<Refused>();
}

// An atom and its negation: of every start of a range, exactly one of them holds.
#[test]
fn negations() {
    for value in -2..=2 {
        for comparison in [GreaterEqual, LessEqual, Equal, NotEqual] {
            let atom = Atom::new(0, comparison, value);
            assert_eq!(!!atom, atom);
            for start in -4..=4 {
                let ranges = [Range::new(start, start)];
                assert_ne!(atom.holds(&ranges), (!atom).holds(&ranges), "{atom} at {start}");
            }
        }
    }
}

// A post's reason holds in the ranges at entry.
#[test]
fn reasons_hold_at_entry() {
    let entry = [Range::new(0, 6), Range::new(1, 5), Range::new(0, 20)];
    let mut propagator = Propagator::new(&A).unwrap();
    let mut words = propagator.words();
    let mut ranges = entry;
    let outcome = propagator.run(&mut ranges, &mut words).unwrap();
    assert_eq!(outcome.posts().len(), 1);
    assert!(
        outcome
            .posts()
            .all(|post| post.reason.iter().all(|atom| atom.holds(&entry)) && !post.atom().holds(&entry) && post.atom().holds(&ranges))
    );
}

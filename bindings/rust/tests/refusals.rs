//! What a refusal leaves: the propagator, the ranges and the lent words as they were; and what a run leaves of words it does not write.
use reedgrit::Comparison::{GreaterEqual, LessEqual, NotEqual};
use reedgrit::state::{Bound, NoState, is_true, lower_bound, upper_bound};
use reedgrit::{Atom, Propagator, Range, Refused, Verdict, Words, check};

const DURATIONS: [i32; 3] = [4, 5, 3];
const RANGES: [Range; 3] = [Range::new(0, 6), Range::new(1, 5), Range::new(0, 20)];

fn made() -> Propagator {
    Propagator::new(&DURATIONS).unwrap()
}

/// The run is refused, and nothing that was lent has changed.
fn refuses(ranges: &[Range], post_words: usize, atom_words: usize, why: Refused) {
    let mut propagator = made();
    let before = propagator.clone();
    let mut after = ranges.to_vec();
    let mut posts: Vec<i32> = (0..post_words as i32).map(|k| 1000 + k).collect();
    let mut atoms: Vec<i32> = (0..atom_words as i32).map(|k| 2000 + k).collect();
    let (posts_before, atoms_before) = (posts.clone(), atoms.clone());
    assert_eq!(propagator.run_on(&mut after, &mut posts, &mut atoms).map(drop), Err(why));
    assert_eq!(propagator, before);
    assert_eq!(after, ranges);
    assert_eq!(posts, posts_before);
    assert_eq!(atoms, atoms_before);
}

#[test]
fn refused_runs_leave_everything() {
    refuses(&[], 12, 54, Refused::RangeCount);
    refuses(&RANGES[..2], 12, 54, Refused::RangeCount);
    refuses(&[Range::new(0, 1); 4], 12, 54, Refused::RangeCount);
    refuses(&[Range::new(0, 1); 49], 12, 54, Refused::RangeCount);
    refuses(&[Range::new(0, 1); 1000], 12, 54, Refused::RangeCount);
    for limit in [400_000_001, i32::MAX, -400_000_001, i32::MIN] {
        refuses(&[RANGES[0], RANGES[1], Range::new(limit, 0)], 12, 54, Refused::Start(2));
        refuses(&[RANGES[0], RANGES[1], Range::new(0, limit)], 12, 54, Refused::Start(2));
    }
    refuses(&[RANGES[0], Range::new(6, 5), RANGES[2]], 12, 54, Refused::Crossed(1));
    // The lowest task of several is named.
    refuses(&[RANGES[0], Range::new(6, 5), Range::new(1, 0)], 12, 54, Refused::Crossed(1));
    refuses(&[Range::new(0, i32::MAX), Range::new(i32::MIN, 5), RANGES[2]], 12, 54, Refused::Start(0));
    refuses(&RANGES, 11, 54, Refused::Room);
    refuses(&RANGES, 12, 53, Refused::Room);
    refuses(&RANGES, 0, 0, Refused::Room);
    // each test is tried over the whole input before the next
    refuses(&[RANGES[0], Range::new(6, 5), Range::new(0, 400_000_001)], 0, 0, Refused::Start(2));
    refuses(&[Range::new(6, 5)], 0, 0, Refused::RangeCount);
}

#[test]
fn the_words_of_fewer_tasks_are_refused() {
    let mut propagator = made();
    let before = propagator.clone();
    let mut ranges = RANGES;
    assert_eq!(propagator.run(&mut ranges, &mut Words::new(2)).map(drop), Err(Refused::Room));
    assert_eq!((&propagator, ranges), (&before, RANGES));
    assert!(propagator.run(&mut ranges, &mut Words::new(48)).is_ok());
}

#[test]
fn unused_words_keep_what_they_held() {
    let mut propagator = made();
    let (mut posts, mut atoms) = ([-7; 20], [-8; 60]);
    let mut ranges = RANGES;
    let outcome = propagator.run_on(&mut ranges, &mut posts, &mut atoms).unwrap();
    assert_eq!(outcome.posts().len(), 1);
    assert_eq!(posts[..4], [2, 9, 0, 5]);
    assert!(posts[4..].iter().all(|word| *word == -7));
    assert_eq!(atoms[..15], [0, 0, 0, 0, 1, 7, 1, 0, 0, 1, 1, 6, 2, 0, 0]);
    assert!(atoms[15..].iter().all(|word| *word == -8));
}

#[test]
fn creation_refuses_in_order() {
    assert_eq!(Propagator::new(&[]), Err(Refused::TaskCount));
    assert_eq!(Propagator::new(&[0; 49]), Err(Refused::TaskCount));
    assert_eq!(Propagator::new(&[400_000_001, 0]), Err(Refused::Duration(1)));
    assert_eq!(Propagator::new(&[i32::MIN]), Err(Refused::Duration(0)));
    assert_eq!(Propagator::new(&[200_000_000, 200_000_001]), Err(Refused::DurationSum));
    assert_eq!(Propagator::new(&[i32::MAX; 48]), Err(Refused::DurationSum));
    assert_eq!(Propagator::new(&[200_000_000, 200_000_000]).unwrap().durations(), [200_000_000; 2]);
}

#[test]
fn checks_refuse_in_order() {
    let at = |variable, value| Atom::new(variable, GreaterEqual, value);
    assert_eq!(check(&[1, 0], &[at(64, 0); 513], None), Err(Refused::Duration(1)));
    assert_eq!(check(&DURATIONS, &[at(64, 0); 513], None), Err(Refused::Premises));
    assert_eq!(check(&DURATIONS, &[at(64, 0); 512], None), Err(Refused::Atoms));
    assert_eq!(check(&DURATIONS, &[at(usize::MAX, 0)], None), Err(Refused::Atoms));
    assert_eq!(check(&DURATIONS, &[at(0, 900_000_001)], None), Err(Refused::Atoms));
    assert_eq!(check(&DURATIONS, &[at(0, i32::MIN)], None), Err(Refused::Atoms));
    assert_eq!(check(&DURATIONS, &[at(63, 900_000_000); 512], None), Ok(Verdict::NotPassed));
    let mut holes: Vec<Atom> = (0..17).map(|k| Atom::new(0, NotEqual, 2 * k)).collect();
    assert_eq!(check(&DURATIONS, &holes, None), Err(Refused::Holes));
    holes.pop();
    assert_eq!(check(&DURATIONS, &holes, None), Ok(Verdict::NotPassed));
}

/// The three questions on a variable answer that there is no state.
fn no_state(premises: &[Atom], variable: usize, why: NoState) {
    assert_eq!(lower_bound(premises, variable), Err(why));
    assert_eq!(upper_bound(premises, variable), Err(why));
    assert_eq!(is_true(premises, Atom::new(variable, GreaterEqual, 0)), Err(why));
}

#[test]
fn questions_refuse_in_order() {
    let at = |variable, value| Atom::new(variable, GreaterEqual, value);
    let holes: Vec<Atom> = (1..=17).map(|k| Atom::new(0, NotEqual, k)).collect();
    let crossed = [at(0, 1), Atom::new(0, LessEqual, 0)];
    // what the premises lead to, whichever variable is asked about
    no_state(&holes, 1, NoState::Refused(Refused::Holes));
    no_state(&crossed, 1, NoState::Contradiction(0));
    // 6 comes before both: of the question's own words, and of a premise behind the one that decides
    for variable in [64, 1 << 32, usize::MAX] {
        no_state(&[], variable, NoState::Refused(Refused::Atoms));
        no_state(&holes, variable, NoState::Refused(Refused::Atoms));
        no_state(&crossed, variable, NoState::Refused(Refused::Atoms));
    }
    for premises in [&holes[..], &crossed] {
        no_state(&[premises, &[at(64, 0)]].concat(), 1, NoState::Refused(Refused::Atoms));
        assert_eq!(is_true(premises, at(1, 900_000_001)), Err(NoState::Refused(Refused::Atoms)));
        assert_eq!(is_true(premises, at(1, i32::MIN)), Err(NoState::Refused(Refused::Atoms)));
    }
    // 7 comes before 6
    for variable in [1, 64] {
        no_state(&[at(64, 0); 513], variable, NoState::Refused(Refused::Premises));
    }
    no_state(&[at(0, 0); 512], 64, NoState::Refused(Refused::Atoms));
    assert_eq!(lower_bound(&[at(0, 0); 512], 0), Ok(Bound::At(0)));
    // 21 or a contradiction, by the atom that comes first
    no_state(&[&holes[..], &crossed].concat(), 0, NoState::Refused(Refused::Holes));
    no_state(&[&crossed[..], &holes].concat(), 0, NoState::Contradiction(0));
}

#[test]
fn refusals_say_why() {
    assert_eq!(Refused::Room.to_string(), "refused 9: too few words for posts or atoms");
    assert_eq!(Refused::Record.number(), 20);
    let error: Box<dyn std::error::Error> = Box::new(Refused::Start(2));
    assert_eq!(error.to_string(), "refused 3: a start outside -400000000 to 400000000 (task 2)");
}

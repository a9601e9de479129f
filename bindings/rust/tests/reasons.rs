//! Reasons of both passes by one type: each passes the check of its own pass, kept or lent; and ranges narrowed by hand, against brute force.
use reedgrit::{
    Atom, Mirrored, Outcome, Pass, Precedences, Propagator, Range, Reason, Refused, Stretch, Verdict, check, check_mirrored, state,
};
use small::{Numbers, schedules};
use std::collections::HashSet;

mod small;

#[test]
fn every_reason_passes_its_own_check() {
    let mut numbers = Numbers(31);
    let (mut overloads, mut posts, mut only_mirrored) = (0, 0, 0);
    for _ in 0..2000 {
        let (durations, ranges) = numbers.instance();
        let mut propagator = Propagator::new(&durations).unwrap();
        let (mut words, mut latest_words) = (propagator.words(), propagator.words());
        let (mut up, mut down) = (ranges.clone(), ranges.clone());
        let outcome = propagator.run(&mut up, &mut words).unwrap();
        let mirrored = propagator.run_mirrored(&mut down, &mut latest_words).unwrap();
        assert!(outcome.posts().all(|post| post.check(&durations) == Ok(Verdict::Passed)));
        assert!(mirrored.posts().all(|post| post.check(&durations) == Ok(Verdict::Passed)));
        assert_eq!(outcome.reasons().count(), outcome.posts().len() + usize::from(matches!(outcome, Outcome::Overload { .. })));
        assert_eq!(mirrored.reasons().count(), mirrored.posts().len() + usize::from(matches!(mirrored, Mirrored::Overload { .. })));
        assert!(outcome.reasons().all(|reason| reason.pass() == Pass::Run));
        assert!(mirrored.reasons().all(|reason| reason.pass() == Pass::Mirrored));
        let kept: Vec<Reason<'static>> = outcome.reasons().chain(mirrored.reasons()).map(Reason::into_owned).collect();
        let starts = schedules(&durations, &ranges);
        for (reason, lent) in kept.iter().zip(outcome.reasons().chain(mirrored.reasons())) {
            assert_eq!(*reason, lent);
            assert!(reason.holds(&ranges));
            assert_eq!(reason.check(&durations), Ok(Verdict::Passed));
            match reason.post() {
                Some(post) => {
                    posts += 1;
                    assert!(
                        starts.iter().all(|starts| post.holds(&starts.iter().map(|start| Range::new(*start, *start)).collect::<Vec<_>>()))
                    );
                }
                None => {
                    overloads += 1;
                    assert!(starts.is_empty());
                }
            }
            let plain = check(&durations, reason.atoms(), reason.post());
            only_mirrored += usize::from(reason.pass() == Pass::Mirrored && plain == Ok(Verdict::NotPassed));
        }
    }
    assert!(overloads > 100 && posts > 100 && only_mirrored > 0, "{overloads} {posts} {only_mirrored}");
}

#[test]
fn contradictions_are_implied_by_the_atoms_alone() {
    let premises = [Atom::at_least(0, 5)];
    for judge in [check, check_mirrored] {
        assert_eq!(judge(&[3], &premises, Some(Atom::at_least(0, 5))), Ok(Verdict::Contradiction(0)));
        assert_eq!(judge(&[3], &[premises[0], Atom::at_most(0, 4)], None), Ok(Verdict::Contradiction(0)));
    }
}

// Of every small range with bars, and of every bound: the first permitted start from it on, and the last up to it.
#[test]
fn ranges_narrowed_by_hand() {
    for latest in 0..5 {
        for set in 0..1 << (latest - 1_i32).max(0) {
            let bars: Vec<i32> = (1..latest).filter(|start| set >> (start - 1) & 1 == 1).collect();
            let range = Range::new(0, latest).barred(&bars);
            let permitted: Vec<i32> = (0..=latest).filter(|start| !bars.contains(start)).collect();
            for bound in -2..=latest + 2 {
                let first = permitted.iter().copied().find(|start| *start >= bound);
                let last = permitted.iter().copied().rev().find(|start| *start <= bound);
                let (mut up, mut down) = (range, range);
                assert_eq!((up.raise(bound), up.earliest), (first.is_some(), first.unwrap_or(0)));
                assert_eq!((down.lower(bound), down.latest), (last.is_some(), last.unwrap_or(latest)));
                assert_eq!((up.latest, up.bars(), down.earliest, down.bars()), (latest, &bars[..], 0, &bars[..]));
            }
        }
    }
    // Where a range is wide, no more than the bars are passed over.
    let row: Vec<i32> = (1..17).collect();
    let mut wide = Range::new(-400_000_000, 400_000_000).barred(&row);
    assert!(wide.raise(1) && wide.earliest == 17 && wide.lower(400_000_001) && wide.latest == 400_000_000);
    assert!(!wide.raise(i32::MAX) && !wide.lower(i32::MIN) && wide == Range::new(17, 400_000_000).barred(&row));
}

#[test]
fn shown_and_compared() {
    let durations = [4, 4];
    let mut propagator = Propagator::new(&durations).unwrap();
    let (mut words, mut other_words) = (propagator.words(), propagator.words());
    let tight = [Range::new(0, 2), Range::new(1, 2)];
    let outcome = propagator.run(&mut { tight }, &mut words).unwrap();
    let again = propagator.run(&mut { tight }, &mut other_words).unwrap();
    assert_eq!(outcome, again);
    let shown: Vec<String> = outcome.reasons().map(|reason| reason.to_string()).collect();
    assert_eq!(shown, ["overload, by 0 >= 0, 0 <= 3, 1 >= 0, 1 <= 3"]);
    let done = propagator.run(&mut [Range::new(0, 4), Range::new(0, 4)], &mut other_words).unwrap();
    assert_ne!(outcome, done);

    assert_eq!(Precedences::Emptied(3).to_string(), "emptied 3");
    assert_eq!(Stretch { time: 15, start: -12 }.to_string(), "15 covered from -12");
    let premises = [Atom::at_least(0, 6)];
    assert_eq!(state::lower_bound(&premises, 0).unwrap().to_string(), "6");
    assert_eq!(state::upper_bound(&premises, 0).unwrap().to_string(), "infinity");
    assert_eq!(state::lower_bound(&premises, 1).unwrap().to_string(), "-infinity");

    let made: HashSet<Propagator> = [&[4, 4][..], &[4, 5], &[4, 4]].iter().map(|list| Propagator::new(list).unwrap()).collect();
    assert_eq!(made.len(), 2);
}

// The task that a refusal names, of each that names one.
#[test]
fn refusals_name_their_task() {
    assert_eq!(Propagator::new(&[4, 0]).unwrap_err().task(), Some(1));
    let propagator = Propagator::new(&[4, 3]).unwrap();
    let fits = Range::new(0, 20);
    for (unfit, refused) in [
        (Range::new(0, 400_000_001), Refused::Start(1)),
        (Range::new(1, 0), Refused::Crossed(1)),
        (Range::new(0, 20).barred(&[20]), Refused::Bars(1)),
    ] {
        assert_eq!(propagator.overload_test(&[fits, unfit]), Err(refused));
        assert_eq!(refused.task(), Some(1));
    }
    assert_eq!(propagator.overload_test(&[fits]).unwrap_err().task(), None);
}

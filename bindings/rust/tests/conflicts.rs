//! Conflicts against brute force on small instances: over all sets of tasks, over all schedules, and against the run.
use reedgrit::{Conflict, Outcome, Propagator, Range, Refused, Work};
use small::{Numbers, schedules};

mod small;

/// est, lct and p over the tasks, of which there is one or more.
fn numbers_of(tasks: &[usize], durations: &[i32], ranges: &[Range]) -> (i32, i32, i32) {
    let est = tasks.iter().map(|k| ranges[*k].earliest).min().unwrap();
    let lct = tasks.iter().map(|k| ranges[*k].latest + durations[*k]).max().unwrap();
    (est, lct, tasks.iter().map(|k| durations[*k]).sum())
}

/// The tasks of each set that is not empty.
fn sets(tasks: &[usize]) -> impl Iterator<Item = Vec<usize>> {
    (1u32..1 << tasks.len()).map(|set| tasks.iter().enumerate().filter(|(k, _)| set >> k & 1 == 1).map(|(_, task)| *task).collect())
}

fn overloads(durations: &[i32], ranges: &[Range]) -> bool {
    let all: Vec<usize> = (0..durations.len()).collect();
    sets(&all).any(|set| {
        let (est, lct, p) = numbers_of(&set, durations, ranges);
        est + p > lct
    })
}

/// The greatest est + p of the sets of these tasks.
fn ect(tasks: &[usize], durations: &[i32], ranges: &[Range]) -> i32 {
    let ends = sets(tasks).map(|set| {
        let (est, _, p) = numbers_of(&set, durations, ranges);
        est + p
    });
    ends.max().unwrap()
}

/// Whether some task cannot go before the tasks of a set without it, and so starts past its latest start.
fn late(durations: &[i32], ranges: &[Range]) -> bool {
    (0..durations.len()).any(|task| {
        let others: Vec<usize> = (0..durations.len()).filter(|k| *k != task).collect();
        sets(&others).any(|set| {
            let (_, lct, _) = numbers_of(&set, durations, ranges);
            let (est, _, p) = numbers_of(&[&set[..], &[task]].concat(), durations, ranges);
            est + p > lct && ect(&set, durations, ranges) > ranges[task].latest
        })
    })
}

/// The work's numbers are those of its tasks, which ascend; the lct of these is returned.
fn right(work: &Work, durations: &[i32], ranges: &[Range]) -> i32 {
    let (est, lct, p) = numbers_of(work.tasks(), durations, ranges);
    assert!(work.tasks().is_sorted());
    assert_eq!((work.est(), work.p() as i32), (est, p));
    lct
}

/// The conflict adds up.
fn adds_up(conflict: &Conflict, durations: &[i32], ranges: &[Range]) {
    let (Conflict::Overload { set, lct, excess } | Conflict::Late { set, lct, excess, .. }) = conflict;
    let lct_of_all = right(set, durations, ranges);
    assert!(*excess >= 1 && set.est() + set.p() as i32 == lct + *excess as i32);
    match conflict {
        Conflict::Overload { .. } => assert_eq!(*lct, lct_of_all),
        Conflict::Late { task, latest_start, bound, before, .. } => {
            assert!(set.tasks().contains(task));
            let others: Vec<usize> = set.tasks().iter().copied().filter(|k| k != task).collect();
            assert_eq!(*lct, numbers_of(&others, durations, ranges).1);
            right(before, durations, ranges);
            assert!(before.tasks().iter().all(|k| others.contains(k)));
            assert_eq!(before.est() + before.p() as i32, *bound);
            assert_eq!(*bound, ect(&others, durations, ranges));
            assert!(*latest_start == ranges[*task].latest && latest_start < bound);
        }
    }
}

#[test]
fn conflicts_are_those_of_all_sets() {
    let mut numbers = Numbers(31);
    let (mut overloaded, mut lates, mut none) = (0, 0, 0);
    for _ in 0..6000 {
        let (durations, ranges) = numbers.instance();
        let mut propagator = Propagator::new(&durations).unwrap();
        let conflict = propagator.conflict(&ranges).unwrap();
        let (mut words, mut after) = (propagator.words(), ranges.clone());
        let done = matches!(propagator.run(&mut after, &mut words).unwrap(), Outcome::Done { .. });
        assert_eq!(conflict.is_none(), done);
        assert_eq!(propagator.conflict_page(&ranges).unwrap().is_none(), done);
        let some_set = overloads(&durations, &ranges);
        let Some(conflict) = conflict else {
            none += 1;
            assert!(!some_set && !late(&durations, &ranges));
            continue;
        };
        adds_up(&conflict, &durations, &ranges);
        assert_eq!(matches!(conflict, Conflict::Overload { .. }), some_set);
        if some_set {
            overloaded += 1
        } else {
            lates += 1
        }
        assert!(some_set || late(&durations, &ranges));
        assert!(schedules(&durations, &ranges).is_empty());
    }
    assert!(overloaded > 500 && lates > 50 && none > 500, "{overloaded} {lates} {none}");
}

/// The page as this file writes it.
fn page(conflict: &Conflict, durations: &[i32], ranges: &[Range]) -> String {
    let (Conflict::Overload { set, lct, excess } | Conflict::Late { set, lct, excess, .. }) = conflict;
    let marked: &[usize] = if let Conflict::Late { before, .. } = conflict { before.tasks() } else { &[] };
    let mut lines = vec!["  NR        FROM       UNTIL       TAKES  ".to_string()];
    for task in set.tasks() {
        let (from, until, mark) = (ranges[*task].earliest, ranges[*task].latest + durations[*task], marked.contains(task));
        lines.push(format!("{task:4} {from:11} {until:11} {:11} {}", durations[*task], if mark { '*' } else { ' ' }));
    }
    let sum = |work: &Work| format!("{} + {} = {}", work.est(), work.p(), work.est() + work.p() as i32);
    match conflict {
        Conflict::Overload { .. } => {
            lines.push(format!("{} units from {} to {lct}, and they take {}", lct - set.est(), set.est(), set.p()));
            lines.push(format!("{excess} too many"));
        }
        Conflict::Late { task, latest_start, before, .. } => {
            lines.push(format!("{task} comes after the others: {} is past {lct}", sum(set)));
            lines.push(format!("{task} starts after those marked *: {} is past {latest_start}", sum(before)));
        }
    }
    lines.join("\n") + "\n"
}

#[test]
fn pages_have_the_conflicts_numbers() {
    let mut numbers = Numbers(32);
    for _ in 0..2000 {
        let (durations, ranges) = numbers.instance();
        let propagator = Propagator::new(&durations).unwrap();
        let written = propagator.conflict_page(&ranges).unwrap();
        assert_eq!(written, propagator.conflict(&ranges).unwrap().map(|conflict| page(&conflict, &durations, &ranges)));
        let mut out = [7; 43 * 53];
        let room = 43 * (durations.len() + 5);
        let bytes = propagator.conflict_page_on(&ranges, &mut out[..room]).unwrap().map(<[u8]>::to_vec);
        assert_eq!(bytes.as_deref(), written.as_deref().map(str::as_bytes));
        assert!(out[bytes.map_or(0, |bytes| bytes.len())..].iter().all(|byte| *byte == 7));
        assert_eq!(propagator.conflict_page_on(&ranges, &mut out[..room - 1]), Err(Refused::PageRoom));
    }
    // The widest numbers, and 48 tasks.
    let durations = [8_333_333; 48];
    let ranges = [Range::new(-400_000_000, -400_000_000); 48];
    let propagator = Propagator::new(&durations).unwrap();
    let conflict = propagator.conflict(&ranges).unwrap().unwrap();
    adds_up_alone(&conflict, &durations, &ranges);
    assert_eq!(propagator.conflict_page(&ranges).unwrap(), Some(page(&conflict, &durations, &ranges)));
}

/// An overload's numbers, without those of all sets.
fn adds_up_alone(conflict: &Conflict, durations: &[i32], ranges: &[Range]) {
    let Conflict::Overload { set, lct, excess } = conflict else { panic!("{conflict:?}") };
    assert_eq!(right(set, durations, ranges), *lct);
    assert!(*excess >= 1 && set.est() + set.p() as i32 == lct + *excess as i32);
}

#[test]
fn conflicts_are_refused_as_the_overload_test_is() {
    let propagator = Propagator::new(&[4, 5, 3]).unwrap();
    let ranges = [Range::new(0, 6), Range::new(1, 5), Range::new(0, 20)];
    let with = |task: usize, range: Range| {
        let mut changed = ranges;
        changed[task] = range;
        changed
    };
    for (ranges, why) in [
        (&ranges[..2], Refused::RangeCount),
        (&[ranges[0]; 49][..], Refused::RangeCount),
        (&with(2, Range::new(0, 400_000_001)), Refused::Start(2)),
        (&with(1, Range::new(6, 5)), Refused::Crossed(1)),
        (&with(0, Range::new(0, 6).barred(&[3, 2])), Refused::Bars(0)),
    ] {
        assert_eq!(propagator.conflict(ranges), Err(why));
        assert_eq!(propagator.conflict_page(ranges), Err(why));
        // The room is tried last.
        assert_eq!(propagator.conflict_page_on(ranges, &mut []), Err(why));
        assert_eq!(propagator.overload_test(ranges), Err(why));
    }
    assert_eq!(propagator.conflict_page_on(&ranges, &mut []), Err(Refused::PageRoom));
    // Barred starts change no answer.
    let tight = [Range::new(0, 3), Range::new(0, 3), Range::new(0, 3)];
    assert_eq!(propagator.conflict(&tight.map(|range| range.barred(&[1, 2]))), propagator.conflict(&tight));
}

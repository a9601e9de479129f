//! The calls beside the run, against brute force on small instances: the mirrored pass against a run on mirrored input, the overload test over
//! all sets, and the questions to a fixed schedule minute by minute.
use reedgrit::{Atom, Bill, Mirrored, Outcome, Precedences, Propagator, Range, Refused, Stretch, Verdict, check, check_mirrored};
use small::{Numbers, schedules};

mod small;

/// A fixed schedule: the tasks one after the other, with gaps, in an order of their own.
fn schedule(numbers: &mut Numbers) -> (Vec<i32>, Vec<Range>) {
    let tasks = 1 + numbers.below(5) as usize;
    let durations: Vec<i32> = (0..tasks).map(|_| 1 + numbers.below(4)).collect();
    let mut ranges = vec![Range::new(0, 0); tasks];
    let (mut at, turn) = (numbers.below(9) - 8, numbers.below(5) as usize);
    for k in 0..tasks {
        let task = (k + turn) % tasks;
        at += numbers.below(4);
        ranges[task] = Range::new(at, at);
        at += durations[task];
    }
    (durations, ranges)
}

fn mirrored(range: Range, duration: i32) -> Range {
    Range::new(-(range.latest + duration), -(range.earliest + duration))
}

/// start ≥ v of mirrored time reads start ≤ −v − p.
fn mirrored_atom(atom: &Atom, durations: &[i32]) -> Atom {
    let text = atom.to_string();
    let mut parts = text.split(' ');
    let task: usize = parts.next().unwrap().parse().unwrap();
    let kind = parts.next().unwrap();
    let value: i32 = parts.next().unwrap().parse().unwrap();
    let other = -value - durations[task];
    if kind == ">=" { Atom::at_most(task, other) } else { Atom::at_least(task, other) }
}

fn overloads(durations: &[i32], ranges: &[Range]) -> bool {
    (1u32..1 << durations.len()).any(|set| {
        let tasks = || (0..durations.len()).filter(move |k| set >> k & 1 == 1);
        let est = tasks().map(|k| ranges[k].earliest).min().unwrap();
        let lct = tasks().map(|k| ranges[k].latest + durations[k]).max().unwrap();
        est + tasks().map(|k| durations[k]).sum::<i32>() > lct
    })
}

#[test]
fn the_mirrored_pass_is_a_run_on_mirrored_input() {
    let mut numbers = Numbers(1);
    let (mut posts_seen, mut overloads_seen) = (0, 0);
    for _ in 0..2000 {
        let (durations, ranges) = numbers.instance();
        let mut propagator = Propagator::new(&durations).unwrap();
        let (mut words, mut there_words) = (propagator.words(), propagator.words());
        let mut after = ranges.clone();
        let ended = propagator.run_mirrored(&mut after, &mut words).unwrap();
        let mut there: Vec<Range> = ranges.iter().zip(&durations).map(|(range, duration)| mirrored(*range, *duration)).collect();
        let outcome = propagator.run(&mut there, &mut there_words).unwrap();
        assert_eq!(ended.to_string(), outcome.to_string());
        let back: Vec<Range> = there.iter().zip(&durations).map(|(range, duration)| mirrored(*range, *duration)).collect();
        assert_eq!(after, back);
        assert_eq!(ended.posts().len(), outcome.posts().len());
        let starts = schedules(&durations, &ranges);
        for (post, other) in ended.posts().zip(outcome.posts()) {
            posts_seen += 1;
            assert_eq!(post.atom(), mirrored_atom(&other.atom(), &durations));
            let reason: Vec<Atom> = other.reason.iter().map(|atom| mirrored_atom(atom, &durations)).collect();
            assert_eq!(post.reason, reason);
            assert_eq!(post.check(&durations), Ok(Verdict::Passed));
            assert!(starts.iter().all(|starts| starts[post.task] <= post.bound));
        }
        if let Mirrored::Overload { reason, .. } = ended {
            overloads_seen += 1;
            assert_eq!(reason.check(&durations), Ok(Verdict::Passed));
        }
        if !matches!(outcome, Outcome::Done { .. }) {
            assert!(starts.is_empty());
        }
    }
    assert!(posts_seen > 100 && overloads_seen > 100);
}

#[test]
fn the_two_checks_are_turned_back_alike() {
    let premises = [Atom::at_least(0, 0), Atom::at_most(0, 5)];
    for durations in [&[][..], &[0], &[1; 49], &[200_000_000, 200_000_001], &[1, 2]] {
        for consequent in
            [None, Some(Atom::at_least(1, 3)), Some(Atom::at_least(64, 3)), Some(Atom::at_most(0, -1)), Some(Atom::at_most(0, 900_000_001))]
        {
            let (here, there) = (check(durations, &premises, consequent), check_mirrored(durations, &premises, consequent));
            match here {
                Ok(Verdict::Passed | Verdict::NotPassed) => assert!(matches!(there, Ok(Verdict::Passed | Verdict::NotPassed))),
                other => assert_eq!(there, other),
            }
        }
    }
}

#[test]
fn the_overload_test_is_over_all_sets() {
    let mut numbers = Numbers(2);
    for _ in 0..3000 {
        let (durations, ranges) = numbers.instance();
        let propagator = Propagator::new(&durations).unwrap();
        assert_eq!(propagator.overload_test(&ranges).unwrap().is_some(), overloads(&durations, &ranges));
    }
}

/// The bound of one task over all sets of those that must come before it, where it is above the earliest start.
fn bound(durations: &[i32], ranges: &[Range], task: usize) -> Option<i32> {
    let end = ranges[task].earliest + durations[task];
    let before: Vec<usize> = (0..durations.len()).filter(|j| *j != task && ranges[*j].latest < end).collect();
    let completion = |set: u32| {
        let tasks = || before.iter().enumerate().filter(move |(k, _)| set >> k & 1 == 1).map(|(_, j)| *j);
        tasks().map(|j| ranges[j].earliest).min().unwrap() + tasks().map(|j| durations[j]).sum::<i32>()
    };
    (1u32..1 << before.len()).map(completion).max().filter(|ect| *ect > ranges[task].earliest)
}

#[test]
fn a_bound_is_that_of_all_sets_before_the_task() {
    let mut numbers = Numbers(15);
    let (mut found, mut past) = (0, 0);
    for _ in 0..2000 {
        let (durations, ranges) = numbers.instance();
        let propagator = Propagator::new(&durations).unwrap();
        let starts = schedules(&durations, &ranges);
        for task in 0..durations.len() {
            let told = propagator.precedence_bound(&ranges, task).unwrap();
            assert_eq!(told, bound(&durations, &ranges, task));
            let mut words = vec![0; 6 * durations.len()];
            let reason = propagator.precedence_reason(&ranges, task, &mut words).unwrap();
            assert_eq!(told.is_some(), !reason.is_empty());
            let Some(bound) = told else { continue };
            found += 1;
            past += usize::from(bound > ranges[task].latest);
            assert!(starts.iter().all(|starts| starts[task] >= bound));
            // no starts meet the reason and the opposite of the bound, whatever the other tasks do
            let both = |j: &usize| [Atom::at_least(*j, ranges[*j].earliest), Atom::at_most(*j, ranges[*j].latest)];
            let before: Vec<usize> =
                (0..durations.len()).filter(|j| *j != task && both(j).iter().all(|atom| reason.contains(atom))).collect();
            let mut lasting: Vec<i32> = before.iter().map(|j| durations[*j]).collect();
            let mut reached: Vec<Range> = before.iter().map(|j| ranges[*j]).collect();
            assert!(reason.contains(&Atom::at_least(task, ranges[task].earliest)));
            lasting.push(durations[task]);
            reached.push(Range::new(ranges[task].earliest, bound - 1));
            assert!(schedules(&lasting, &reached).is_empty());
        }
    }
    assert!(found > 500 && past > 100, "{found} {past}");
    let propagator = Propagator::new(&[3, 5]).unwrap();
    let ranges = [Range::new(0, 6), Range::new(1, 1)];
    assert_eq!(propagator.precedence_bound(&ranges, 2), Err(Refused::Task));
    assert_eq!(propagator.precedence_bound(&ranges, usize::MAX), Err(Refused::Task));
    assert_eq!(propagator.precedence_bound(&ranges[..1], 2), Err(Refused::RangeCount));
}

#[test]
fn precedences_hold_in_all_schedules() {
    let mut numbers = Numbers(3);
    let mut raised = 0;
    for _ in 0..2000 {
        let (durations, ranges) = numbers.instance();
        let propagator = Propagator::new(&durations).unwrap();
        let mut after = ranges.clone();
        let ended = propagator.precedences(&mut after).unwrap();
        let starts = schedules(&durations, &ranges);
        if let Precedences::Emptied(_) = ended {
            assert!(starts.is_empty());
        }
        for task in 0..durations.len() {
            assert_eq!(after[task].latest, ranges[task].latest);
            raised += usize::from(after[task].earliest > ranges[task].earliest);
            assert!(starts.iter().all(|starts| starts[task] >= after[task].earliest));
            let mut words = vec![0; 6 * durations.len()];
            let reason = propagator.precedence_reason(&ranges, task, &mut words).unwrap();
            let consequent = Atom::at_least(task, after[task].earliest);
            if after[task].earliest > ranges[task].earliest {
                assert!(!reason.is_empty() && !reason.contains(&consequent));
            }
        }
    }
    assert!(raised > 100);
    let propagator = Propagator::new(&[3, 5]).unwrap();
    let ranges = [Range::new(0, 6), Range::new(1, 1)];
    assert_eq!(propagator.precedence_reason(&ranges, 2, &mut [0; 12]), Err(Refused::Task));
    assert_eq!(propagator.precedence_reason(&ranges, 0, &mut [0; 11]), Err(Refused::ReasonRoom));
    assert_eq!(propagator.precedence_reason(&ranges[..1], 0, &mut [0; 12]), Err(Refused::RangeCount));
}

#[test]
fn changes_are_those_of_the_list() {
    let mut numbers = Numbers(4);
    for _ in 0..300 {
        let mut list = vec![1 + numbers.below(9)];
        let mut propagator = Propagator::new(&list).unwrap();
        for _ in 0..60 {
            if numbers.below(3) > 0 {
                let duration = 1 + numbers.below(9);
                let answer = propagator.add(duration);
                if list.len() == 48 { assert_eq!(answer, Err(Refused::TaskCount)) } else { list.push(duration) }
            } else {
                let task = numbers.below(50) as usize;
                let answer = propagator.remove(task);
                if task >= list.len() {
                    assert_eq!(answer, Err(Refused::Removed))
                } else if list.len() == 1 {
                    assert_eq!(answer, Err(Refused::TaskCount))
                } else {
                    list.remove(task);
                }
            }
            assert_eq!(propagator.durations(), list);
            assert_eq!(propagator, Propagator::new(&list).unwrap());
        }
    }
    let mut propagator = Propagator::new(&[3]).unwrap();
    assert_eq!(propagator.add(-1), Err(Refused::Duration(1)));
    assert_eq!(propagator.add(i32::MAX), Err(Refused::DurationSum));
    assert_eq!(propagator.durations(), [3]);
}

#[test]
fn fixed_schedules_minute_by_minute() {
    let mut numbers = Numbers(5);
    for _ in 0..500 {
        let (durations, ranges) = schedule(&mut numbers);
        let propagator = Propagator::new(&durations).unwrap();
        let covered =
            |minute: i32| (0..durations.len()).any(|k| ranges[k].earliest <= minute && minute < ranges[k].earliest + durations[k]);
        let (from, length) = (numbers.below(40) - 20, 1 + numbers.below(6));
        let free = (from..).find(|start| (*start..start + length).all(|minute| !covered(minute)));
        assert_eq!(propagator.free_start(&ranges, from, length).ok(), free);
        let time = |start: i32| (start..start + length).filter(|minute| covered(*minute)).count() as u32;
        let first = ranges.iter().map(|range| range.earliest).min().unwrap();
        let last = ranges.iter().map(|range| range.earliest).max().unwrap();
        let most = (first..=last).map(time).max().unwrap();
        let Stretch { time: best, start } = propagator.busiest_stretch(&ranges, length).unwrap();
        assert_eq!((best, time(start)), (most, most));
        assert!(first <= start && (first..start).all(|earlier| time(earlier) < most));

        let page = propagator.page(&ranges).unwrap();
        assert_eq!(page.lines().count(), durations.len() + 1);
        let mut out = [7; 31 * 49];
        assert_eq!(propagator.page_on(&ranges, &mut out).unwrap(), page.as_bytes());
        assert!(out[page.len()..].iter().all(|byte| *byte == 7));
        assert_eq!(propagator.page_on(&ranges, &mut out[..31 * durations.len()]), Err(Refused::PageRoom));

        let ends: Vec<i32> = (0..durations.len()).map(|k| ranges[k].earliest + durations[k]).collect();
        assert_eq!(propagator.charges(&ranges, &ends).unwrap().total(), 0);
        let due: Vec<i32> = ends.iter().map(|end| end + numbers.below(5) - 2).collect();
        let bill: Bill = propagator.charges(&ranges, &due).unwrap();
        assert_eq!(bill.charges().iter().sum::<u32>(), bill.total());
        assert!((0..durations.len()).all(|k| (bill.charges()[k] > 0) == (due[k] < ends[k])));
        assert_eq!(propagator.charges(&ranges, &due[1..]).map(drop), Err(Refused::Due));
    }
    let propagator = Propagator::new(&[4, 15]).unwrap();
    let (fixed, loose) = ([Range::new(3, 3), Range::new(-12, -12)], [Range::new(3, 4), Range::new(-12, -12)]);
    assert_eq!(propagator.free_start(&loose, 0, 1), Err(Refused::Schedule));
    assert_eq!(propagator.free_start(&fixed, 0, 0), Err(Refused::Question));
    assert_eq!(propagator.free_start(&fixed, 400_000_001, 1), Err(Refused::Question));
    assert_eq!(propagator.busiest_stretch(&loose, 1), Err(Refused::Schedule));
    assert_eq!(propagator.busiest_stretch(&fixed, 0), Err(Refused::Length));
    assert_eq!(propagator.page(&loose), Err(Refused::Schedule));
    assert_eq!(propagator.charges(&loose, &[0, 0]).map(drop), Err(Refused::Schedule));
}

#[test]
fn refusals_have_their_numbers() {
    for (refused, number) in [
        (Refused::Removed, 12),
        (Refused::Schedule, 14),
        (Refused::PageRoom, 15),
        (Refused::ReasonRoom, 16),
        (Refused::Task, 17),
        (Refused::Question, 18),
        (Refused::Due, 19),
        (Refused::Length, 23),
    ] {
        assert_eq!(refused.number(), number);
        assert!(refused.to_string().starts_with(&format!("refused {number}: ")));
    }
}

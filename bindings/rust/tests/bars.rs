//! Barred starts, against brute force on small instances: outcome, posts and reasons are those without bars, a start that a post moves goes to the
//! next permitted one, no schedule at permitted starts is lost, and no call changes a bar. Then 13 at its place among the refusals.
use reedgrit::{Atom, Comparison, Mirrored, Outcome, Precedences, Propagator, Range, Refused, Verdict};
use small::{Numbers, schedules};

mod small;

/// Tasks, and ranges of which most have bars, some of them outside the range.
fn barred_instance(numbers: &mut Numbers) -> (Vec<i32>, Vec<Range>) {
    let (durations, ranges) = numbers.instance();
    let mut bar = |range: &Range| {
        let one_in = 1 + numbers.below(4);
        let inner = |start: &i32| *start != range.earliest && *start != range.latest;
        let bars: Vec<i32> =
            (range.earliest - 3..=range.latest + 3).filter(inner).filter(|_| numbers.below(one_in + 1) < one_in).take(16).collect();
        range.barred(&bars)
    };
    let ranges = ranges.iter().map(&mut bar).collect();
    (durations, ranges)
}

fn without_bars(ranges: &[Range]) -> Vec<Range> {
    ranges.iter().map(|range| range.barred(&[])).collect()
}

/// The first permitted start from `bound` on, for a bound that is not past the range's end.
fn first_permitted(range: &Range, bound: i32) -> i32 {
    (bound..).find(|start| range.permits(*start)).unwrap()
}

fn last_permitted(range: &Range, bound: i32) -> i32 {
    (range.earliest..=bound).rev().find(|start| range.permits(*start)).unwrap()
}

/// What stays whatever a call does: bars, and permitted ends.
fn same_bars(before: &[Range], after: &[Range]) {
    for (before, after) in before.iter().zip(after) {
        assert_eq!(before.bars(), after.bars());
        assert!(after.permits(after.earliest) && after.permits(after.latest));
    }
}

/// Every schedule that the ranges had they have still.
fn none_lost(schedules: &[Vec<i32>], after: &[Range]) {
    assert!(schedules.iter().all(|starts| starts.iter().zip(after).all(|(start, range)| range.permits(*start))));
}

#[test]
fn a_run_goes_on_to_the_first_permitted_start() {
    let mut numbers = Numbers(11);
    let (mut moved, mut ended) = (0, [0; 3]);
    for _ in 0..4000 {
        let (durations, ranges) = barred_instance(&mut numbers);
        let mut propagator = Propagator::new(&durations).unwrap();
        let (mut words, mut plain_words) = (propagator.words(), propagator.words());
        let (mut after, mut plain) = (ranges.clone(), without_bars(&ranges));
        let outcome = propagator.run(&mut after, &mut words).unwrap();
        let plain_outcome = propagator.run(&mut plain, &mut plain_words).unwrap();
        assert_eq!(outcome, plain_outcome);
        for ((range, after), plain) in ranges.iter().zip(&after).zip(&plain) {
            let start = if plain.earliest == range.earliest { range.earliest } else { first_permitted(range, plain.earliest) };
            assert_eq!((after.earliest, after.latest), (start, range.latest));
            moved += usize::from(start != plain.earliest);
        }
        same_bars(&ranges, &after);
        let emptied = matches!(outcome, Outcome::Emptied { .. });
        for (k, post) in outcome.posts().enumerate() {
            assert_eq!(post.check(&durations), Ok(Verdict::Passed));
            assert!(post.reason.iter().all(|atom| atom.holds(&ranges)) && !post.atom().holds(&ranges));
            assert!(post.atom().holds(&after) || emptied && k + 1 == outcome.posts().len());
        }
        let schedules = schedules(&durations, &ranges);
        match outcome {
            Outcome::Done { .. } => none_lost(&schedules, &after),
            _ => assert!(schedules.is_empty()),
        }
        ended[["done", "overload", "emptied"].iter().position(|end| *end == outcome.to_string()).unwrap()] += 1;
    }
    assert!(moved > 100 && ended.iter().all(|times| *times > 50), "{moved} {ended:?}");
}

#[test]
fn a_mirrored_pass_goes_back_to_the_last_permitted_start() {
    let mut numbers = Numbers(12);
    let (mut moved, mut ended) = (0, [0; 3]);
    for _ in 0..4000 {
        let (durations, ranges) = barred_instance(&mut numbers);
        let propagator = Propagator::new(&durations).unwrap();
        let (mut words, mut plain_words) = (propagator.words(), propagator.words());
        let (mut after, mut plain) = (ranges.clone(), without_bars(&ranges));
        let outcome = propagator.run_mirrored(&mut after, &mut words).unwrap();
        let plain_outcome = propagator.run_mirrored(&mut plain, &mut plain_words).unwrap();
        assert_eq!(outcome, plain_outcome);
        for ((range, after), plain) in ranges.iter().zip(&after).zip(&plain) {
            let start = if plain.latest == range.latest { range.latest } else { last_permitted(range, plain.latest) };
            assert_eq!((after.earliest, after.latest), (range.earliest, start));
            moved += usize::from(start != plain.latest);
        }
        same_bars(&ranges, &after);
        for post in outcome.posts() {
            assert_eq!(post.check(&durations), Ok(Verdict::Passed));
        }
        let schedules = schedules(&durations, &ranges);
        match outcome {
            Mirrored::Done { .. } => none_lost(&schedules, &after),
            _ => assert!(schedules.is_empty()),
        }
        ended[["done", "overload", "emptied"].iter().position(|end| *end == outcome.to_string()).unwrap()] += 1;
    }
    assert!(moved > 100 && ended.iter().all(|times| *times > 50), "{moved} {ended:?}");
}

#[test]
fn a_pass_by_precedences_goes_on_to_permitted_starts() {
    let mut numbers = Numbers(13);
    let (mut moved, mut emptied) = (0, 0);
    for _ in 0..4000 {
        let (durations, ranges) = barred_instance(&mut numbers);
        let propagator = Propagator::new(&durations).unwrap();
        let (mut after, mut plain) = (ranges.clone(), without_bars(&ranges));
        let ended = propagator.precedences(&mut after).unwrap();
        assert_eq!(ended, propagator.precedences(&mut plain).unwrap());
        for (task, range) in ranges.iter().enumerate() {
            let start = if plain[task].earliest == range.earliest { range.earliest } else { first_permitted(range, plain[task].earliest) };
            assert_eq!((after[task].earliest, after[task].latest), (start, range.latest));
            moved += usize::from(start != plain[task].earliest);
            let (mut words, mut plain_words) = ([0; 30], [0; 30]);
            assert_eq!(propagator.precedence_bound(&ranges, task), propagator.precedence_bound(&without_bars(&ranges), task));
            assert_eq!(
                propagator.precedence_reason(&ranges, task, &mut words),
                propagator.precedence_reason(&without_bars(&ranges), task, &mut plain_words)
            );
        }
        same_bars(&ranges, &after);
        let schedules = schedules(&durations, &ranges);
        none_lost(&schedules, &after);
        if let Precedences::Emptied(_) = ended {
            emptied += 1;
            assert!(schedules.is_empty());
        }
        assert_eq!(propagator.overload_test(&ranges), propagator.overload_test(&without_bars(&ranges)));
    }
    assert!(moved > 100 && emptied > 50, "{moved} {emptied}");
}

#[test]
fn bars_outside_the_range_have_no_effect() {
    let outside: [i32; 16] = [i32::MIN, -400_000_001, -3, -2, -1, 21, 22, 23, 24, 25, 26, 27, 28, 29, 400_000_001, i32::MAX];
    let mut propagator = Propagator::new(&[4, 5, 3]).unwrap();
    let mut words = propagator.words();
    let mut ranges = [Range::new(0, 6), Range::new(1, 5), Range::new(0, 20).barred(&outside)];
    let outcome = propagator.run(&mut ranges, &mut words).unwrap();
    assert_eq!(outcome.posts().map(|post| post.atom()).collect::<Vec<_>>(), [Atom::at_least(2, 9)]);
    assert_eq!(ranges, [Range::new(0, 6), Range::new(1, 5), Range::new(9, 20).barred(&outside)]);
}

#[test]
fn sixteen_bars_in_a_row() {
    let row: Vec<i32> = (9..25).collect();
    let mut propagator = Propagator::new(&[4, 5, 3]).unwrap();
    let mut words = propagator.words();
    let mut ranges = [Range::new(0, 6), Range::new(1, 5), Range::new(0, 25).barred(&row)];
    assert_eq!(propagator.run(&mut ranges, &mut words).unwrap().posts().len(), 1);
    assert_eq!(ranges[2], Range::new(25, 25).barred(&row));
}

const DURATIONS: [i32; 3] = [4, 5, 3];
const RANGES: [Range; 3] = [Range::new(0, 6), Range::new(1, 5), Range::new(0, 20)];

/// Ranges whose bars do not fit: too many, equal, falling, the earliest start, the latest.
fn unfit() -> [Range; 5] {
    let at = Range::new(0, 20);
    [at.barred(&(30..47).collect::<Vec<_>>()), at.barred(&[4, 4]), at.barred(&[3, 5, 4]), at.barred(&[0]), at.barred(&[-1, 7, 20])]
}

/// What run, mirrored pass, overload test, pass by precedences, a bound of it and its reason say to the ranges, with so many words for each;
/// nothing lent changes.
fn refusals(ranges: &[Range], posts: usize, atoms: usize, task: usize) -> [Option<Refused>; 6] {
    let mut propagator = Propagator::new(&DURATIONS).unwrap();
    let mut lent = ranges.to_vec();
    let (mut post_words, mut atom_words) = (vec![7; posts], vec![8; atoms]);
    let said = [
        propagator.run_on(&mut lent, &mut post_words, &mut atom_words).err(),
        propagator.run_mirrored_on(&mut lent, &mut post_words, &mut atom_words).err(),
        propagator.overload_test(&lent).err(),
        propagator.precedences(&mut lent).err(),
        propagator.precedence_bound(&lent, task).err(),
        propagator.precedence_reason(&lent, task, &mut atom_words).err(),
    ];
    assert_eq!(lent, ranges);
    assert!(post_words.iter().all(|word| *word == 7) && atom_words.iter().all(|word| *word == 8));
    assert_eq!(propagator, Propagator::new(&DURATIONS).unwrap());
    said
}

#[test]
fn thirteen_has_its_place() {
    for bad in unfit() {
        // 13 comes before 9, and before 17 and 16; the lowest task of several is named
        assert_eq!(refusals(&[RANGES[0], RANGES[1], bad], 12, 54, 0), [Some(Refused::Bars(2)); 6]);
        assert_eq!(refusals(&[RANGES[0], bad, bad], 0, 0, 3), [Some(Refused::Bars(1)); 6]);
        // 10, 3 and 4 come before it
        assert_eq!(refusals(&[bad, bad], 0, 0, 3), [Some(Refused::RangeCount); 6]);
        assert_eq!(refusals(&[bad; 49], 0, 0, 3), [Some(Refused::RangeCount); 6]);
        assert_eq!(refusals(&[bad, RANGES[1], Range::new(0, 400_000_001)], 0, 0, 3), [Some(Refused::Start(2)); 6]);
        assert_eq!(refusals(&[bad, RANGES[1], Range::new(1, 0)], 0, 0, 3), [Some(Refused::Crossed(2)); 6]);
    }
    assert_eq!(Refused::Bars(2).number(), 13);
    let text = "refused 13: barred starts that are more than 16, do not ascend, or have an end of their range among them (task 2)";
    assert_eq!(Refused::Bars(2).to_string(), text);
}

#[test]
fn calls_on_a_fixed_schedule_do_not_read_bars() {
    let propagator = Propagator::new(&[4, 15]).unwrap();
    let fixed = [Range::new(3, 3), Range::new(-12, -12)];
    for bars in [&[3][..], &[5, 4], &[30; 17]] {
        let barred = fixed.map(|range| range.barred(bars));
        assert_eq!(propagator.page(&barred), propagator.page(&fixed));
        assert_eq!(propagator.charges(&barred, &[6, 3]), propagator.charges(&fixed, &[6, 3]));
        assert_eq!(propagator.free_start(&barred, 0, 2), propagator.free_start(&fixed, 0, 2));
        assert_eq!(propagator.busiest_stretch(&barred, 15), propagator.busiest_stretch(&fixed, 15));
        // an end that is no fixed start is still told by its own number
        let loose = [barred[0], Range::new(-12, -11).barred(bars)];
        assert_eq!(propagator.page(&loose), Err(Refused::Schedule));
    }
}

// Of every small range with bars: an atom holds where each permitted start meets it.
#[test]
fn atoms_hold_at_permitted_starts() {
    for latest in 0..4 {
        for set in 0..1 << (latest - 1).max(0) {
            let bars: Vec<i32> = (1..latest).filter(|start| set >> (start - 1) & 1 == 1).collect();
            let range = Range::new(0, latest).barred(&bars);
            let starts: Vec<i32> = (0..=latest).filter(|start| !bars.contains(start)).collect();
            for value in -1..=4 {
                let meets = |comparison: Comparison, start: i32| match comparison {
                    Comparison::GreaterEqual => start >= value,
                    Comparison::LessEqual => start <= value,
                    Comparison::Equal => start == value,
                    Comparison::NotEqual => start != value,
                };
                for comparison in [Comparison::GreaterEqual, Comparison::LessEqual, Comparison::Equal, Comparison::NotEqual] {
                    let all = starts.iter().all(|start| meets(comparison, *start));
                    assert_eq!(Atom::new(0, comparison, value).holds(&[range]), all, "{range} {comparison} {value}");
                }
            }
        }
    }
}

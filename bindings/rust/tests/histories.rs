//! A run leaves its propagator as it was, and answers as on one newly made: whatever runs came before, the same ranges give the same
//! outcome, posts, reasons and starts.
use reedgrit::{Outcome, Propagator, Range, Refused, Words};

/// All that a run leaves, as text: its outcome with posts and reasons, and the ranges.
fn said(propagator: &mut Propagator, ranges: &[Range], words: &mut Words) -> String {
    let mut ranges = ranges.to_vec();
    let outcome = format!("{:?}", propagator.run(&mut ranges, words));
    format!("{outcome} {ranges:?}")
}

/// The variables of the first post's reason, in the order of its atoms.
fn reason_of(propagator: &mut Propagator, ranges: &[Range]) -> Vec<usize> {
    let mut words = propagator.words();
    let outcome = propagator.run(&mut ranges.to_vec(), &mut words).unwrap();
    let post = outcome.posts().next().expect("a post");
    post.reason.iter().map(|atom| atom.variable()).collect()
}

#[test]
fn equal_starts_go_by_number() {
    let made = Propagator::new(&[4, 5, 3]).unwrap();
    let equal = [Range::new(0, 6), Range::new(0, 5), Range::new(0, 20)];
    let mut propagator = made.clone();
    assert_eq!(reason_of(&mut propagator, &equal), [0, 0, 1, 1, 2]);
    // a run in which the tasks start in the other order, and one that is refused
    let falling = [Range::new(9, 20), Range::new(5, 30), Range::new(0, 40)];
    let mut words = propagator.words();
    assert!(matches!(propagator.run(&mut { falling }, &mut words), Ok(Outcome::Done { .. })));
    assert_eq!(propagator.run(&mut { falling }[..2], &mut words).map(drop), Err(Refused::RangeCount));
    assert_eq!(propagator, made);
    assert_eq!(reason_of(&mut propagator, &equal), [0, 0, 1, 1, 2]);
}

/// Series of runs on few different starts, so that many are equal.
#[test]
fn any_history() {
    let mut seed: u64 = 20_261_116;
    let mut below = |n: i32| {
        seed ^= seed << 13;
        seed ^= seed >> 7;
        seed ^= seed << 17;
        (seed % n as u64) as i32
    };
    let mut ended = [0; 4];
    for _ in 0..300 {
        let durations: Vec<i32> = (0..1 + below(8)).map(|_| 1 + below(4)).collect();
        let made = Propagator::new(&durations).unwrap();
        let mut propagator = made.clone();
        let mut words = propagator.words();
        let total: i32 = durations.iter().sum();
        for _ in 0..20 {
            let mut ranges: Vec<Range> = Vec::new();
            for _ in &durations {
                let earliest = below(4);
                ranges.push(Range::new(earliest, earliest + below(total + 2) - 1));
            }
            let after_others = said(&mut propagator, &ranges, &mut words);
            assert_eq!(after_others, said(&mut made.clone(), &ranges, &mut made.words()));
            assert_eq!(propagator, made);
            let end = ["Ok(Done", "Ok(Overload", "Ok(Emptied", "Err(Crossed"].iter().position(|end| after_others.starts_with(end));
            ended[end.expect("one of the four")] += 1;
        }
    }
    assert!(ended.iter().all(|times| *times > 50), "{ended:?}");
}

//! The pass by precedences, one bound of it, and the reason of that bound.
use crate::{Atom, Propagator, Range, Refused, raw};
use std::fmt;

impl Propagator {
    /// Raises earliest starts by the precedences that can be read off the ranges. The tasks that must come before task i are the others whose latest
    /// start is below i's earliest start plus its duration; the least time at which all of them can be over is i's bound. No latest start changes.
    /// A start that is raised to a barred one goes on to the next permitted one.
    ///
    /// ```
    /// use reedgrit::{Precedences, Propagator, Range};
    /// let propagator = Propagator::new(&[3, 5])?;
    /// let mut ranges = [Range::new(0, 6), Range::new(1, 1)];
    /// assert_eq!(propagator.precedences(&mut ranges)?, Precedences::Done);
    /// assert_eq!(ranges[0].earliest, 6);
    ///
    /// let mut ranges = [Range::new(0, 9).barred(&[1, 6, 7]), Range::new(1, 1)];
    /// assert_eq!(propagator.precedences(&mut ranges)?, Precedences::Done);
    /// assert_eq!(ranges[0].earliest, 8);
    /// # Ok::<(), reedgrit::Refused>(())
    /// ```
    ///
    /// # Errors
    /// [`Refused::RangeCount`], [`Refused::Start`], [`Refused::Crossed`], [`Refused::Bars`].
    pub fn precedences(&self, ranges: &mut [Range]) -> Result<Precedences, Refused> {
        let answer = raw::precedences(&self.record, ranges);
        match answer.kind {
            0 => Ok(Precedences::Done),
            1 => Ok(Precedences::Emptied(answer.count)),
            _ => Err(Refused::of(answer.number, &[], ranges)),
        }
    }

    /// A task's bound by precedences, where it is above the earliest start; it may pass the latest start. None where no task must come before it, or
    /// the bound raises nothing; so it is asked before the pass, which stores the bounds. There is one exactly where
    /// [`precedence_reason`](Propagator::precedence_reason) has atoms, and these imply it. Barred starts do not change it.
    ///
    /// ```
    /// use reedgrit::{Propagator, Range};
    /// let propagator = Propagator::new(&[3, 5])?;
    /// assert_eq!(propagator.precedence_bound(&[Range::new(0, 6), Range::new(1, 1)], 0)?, Some(6));
    /// assert_eq!(propagator.precedence_bound(&[Range::new(0, 5), Range::new(1, 1)], 0)?, Some(6));
    /// assert_eq!(propagator.precedence_bound(&[Range::new(6, 9), Range::new(1, 1)], 0)?, None);
    /// # Ok::<(), reedgrit::Refused>(())
    /// ```
    ///
    /// # Errors
    /// [`Refused::RangeCount`], [`Refused::Start`], [`Refused::Crossed`], [`Refused::Bars`], [`Refused::Task`].
    pub fn precedence_bound(&self, ranges: &[Range], task: usize) -> Result<Option<i32>, Refused> {
        let answer = raw::precedence_bound(&self.record, ranges, task);
        match answer.kind {
            0 => Ok(Some(answer.start)),
            1 => Ok(None),
            _ => Err(Refused::of(answer.number, &[], ranges)),
        }
    }

    /// The reason of a task's bound by precedences: the task's earliest start, then both bounds of each task that must come before it. In every
    /// schedule that meets it the task starts at the bound or later. It has no atoms where the bound raises nothing; so it is asked before the pass,
    /// which stores the bounds. It is no edge-finding reason: [`check`](crate::check) need not pass it. It is written to words of the caller's, and
    /// needs 6n of them.
    ///
    /// ```
    /// use reedgrit::{Atom, Propagator, Range};
    /// let propagator = Propagator::new(&[3, 5])?;
    /// let ranges = [Range::new(0, 6), Range::new(1, 1)];
    /// let mut words = [0; 12];
    /// let reason = propagator.precedence_reason(&ranges, 0, &mut words)?;
    /// assert_eq!(reason, [Atom::at_least(0, 0), Atom::at_least(1, 1), Atom::at_most(1, 1)]);
    /// # Ok::<(), reedgrit::Refused>(())
    /// ```
    ///
    /// # Errors
    /// [`Refused::RangeCount`], [`Refused::Start`], [`Refused::Crossed`], [`Refused::Bars`], [`Refused::Task`], [`Refused::ReasonRoom`].
    pub fn precedence_reason<'w>(&self, ranges: &[Range], task: usize, words: &'w mut [i32]) -> Result<&'w [Atom], Refused> {
        let answer = raw::precedence_reason(&self.record, ranges, task, words);
        match answer.kind {
            0 => Ok(raw::atoms(&words[..3 * answer.count])),
            _ => Err(Refused::of(answer.number, &[], ranges)),
        }
    }
}

/// How a pass by precedences ended.
#[derive(Clone, Copy, Debug, PartialEq, Eq, Hash)]
#[must_use = "where it emptied a range, there is no schedule"]
pub enum Precedences {
    /// Each earliest start is the larger of what it was and of its task's bound, where there is one, moved on to the next permitted start.
    Done,
    /// The bound of this task, the lowest such one, passes its latest start; there is no schedule, and no range has changed.
    Emptied(usize),
}

impl fmt::Display for Precedences {
    fn fmt(&self, f: &mut fmt::Formatter<'_>) -> fmt::Result {
        match self {
            Precedences::Done => f.write_str("done"),
            Precedences::Emptied(task) => write!(f, "emptied {task}"),
        }
    }
}

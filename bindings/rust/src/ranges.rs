//! Ranges: where a task may start.
use crate::BARS;
use std::fmt;
use std::hash::{Hash, Hasher};

/// A task may start from `earliest` to `latest`, both included, but not at its barred starts. Without bars it is `Range::new(0, 20)`; a struct
/// literal cannot be written, since the bars are private.
///
/// Calls on ranges take at most 16 bars, strictly ascending, with neither end of the range among them, and answer [`Refused::Bars`](crate::Refused::Bars) otherwise;
/// those on a fixed schedule do not read bars. Bars outside the range have no effect, and no call changes a bar.
#[repr(C)]
#[derive(Clone, Copy)]
pub struct Range {
    /// The earliest start.
    pub earliest: i32,
    /// The latest start.
    pub latest: i32,
    pub(crate) count: usize,
    pub(crate) barred: [i32; BARS],
}

impl Range {
    /// The range from `earliest` to `latest`, without bars.
    #[must_use]
    pub const fn new(earliest: i32, latest: i32) -> Range {
        Range { earliest, latest, count: 0, barred: [0; BARS] }
    }

    /// The same range with these barred starts in the place of those that it has. Nothing is refused here: of more than 16 the first 16 are kept,
    /// with the count of all, so that the call refuses them.
    ///
    /// ```
    /// use reedgrit::{Propagator, Range, Refused};
    /// let range = Range::new(0, 20).barred(&[9, 10]);
    /// assert_eq!(range.bars(), [9, 10]);
    /// assert!(range.permits(8) && !range.permits(9) && !range.permits(21));
    ///
    /// let propagator = Propagator::new(&[4, 3])?;
    /// let falling = Range::new(0, 20).barred(&[10, 9]);
    /// assert_eq!(propagator.overload_test(&[range, falling]), Err(Refused::Bars(1)));
    /// let at_its_end = Range::new(0, 20).barred(&[9, 20]);
    /// assert_eq!(propagator.overload_test(&[at_its_end, falling]), Err(Refused::Bars(0)));
    /// let too_many = Range::new(0, 20).barred(&[30; 17]);
    /// assert_eq!(propagator.overload_test(&[range, too_many]), Err(Refused::Bars(1)));
    /// # Ok::<(), reedgrit::Refused>(())
    /// ```
    #[must_use]
    pub const fn barred(mut self, starts: &[i32]) -> Range {
        self.count = starts.len();
        self.barred = [0; BARS];
        let mut k = 0;
        while k < starts.len() && k < BARS {
            self.barred[k] = starts[k];
            k += 1;
        }
        self
    }

    /// The barred starts, the first 16 where there were more.
    #[must_use]
    pub fn bars(&self) -> &[i32] {
        &self.barred[..self.count.min(BARS)]
    }

    /// Whether the task may start there: within the range, and at no bar.
    #[must_use]
    pub fn permits(&self, start: i32) -> bool {
        self.earliest <= start && start <= self.latest && !self.bars().contains(&start)
    }

    /// Raises the earliest start to the first permitted one at or after `from`, and says whether there is one. Where there is none, the range stays
    /// as it is. Whoever narrows a range by himself needs this: an end among the bars is refused.
    ///
    /// ```
    /// use reedgrit::Range;
    /// let mut range = Range::new(0, 20).barred(&[9, 10]);
    /// assert!(range.raise(9) && range.earliest == 11);
    /// assert!(range.raise(3) && range.earliest == 11);
    /// assert!(!range.raise(21) && range.earliest == 11);
    /// ```
    #[must_use = "there may be no permitted start left"]
    pub fn raise(&mut self, from: i32) -> bool {
        // Of 17 starts in a row one is permitted, unless the range ends before.
        let found = (self.earliest.max(from)..=self.latest).find(|start| self.permits(*start));
        self.earliest = found.unwrap_or(self.earliest);
        found.is_some()
    }

    /// Lowers the latest start to the last permitted one at or before `to`, and says whether there is one. Where there is none, the range stays as
    /// it is.
    ///
    /// ```
    /// use reedgrit::Range;
    /// let mut range = Range::new(0, 20).barred(&[9, 10]);
    /// assert!(range.lower(10) && range.latest == 8);
    /// assert!(!range.lower(-1) && range.latest == 8);
    /// ```
    #[must_use = "there may be no permitted start left"]
    pub fn lower(&mut self, to: i32) -> bool {
        let found = (self.earliest..=self.latest.min(to)).rev().find(|start| self.permits(*start));
        self.latest = found.unwrap_or(self.latest);
        found.is_some()
    }

    /// Whether a call accepts the bars.
    pub(crate) fn bars_fit(&self) -> bool {
        let bars = self.bars();
        let ascending = bars.windows(2).all(|two| two[0] < two[1]);
        self.count <= BARS && ascending && !bars.contains(&self.earliest) && !bars.contains(&self.latest)
    }
}

// Places past the count are no part of a range, so that equality, hash and text are written out.
impl PartialEq for Range {
    fn eq(&self, other: &Range) -> bool {
        let ends = |range: &Range| (range.earliest, range.latest, range.count);
        ends(self) == ends(other) && self.bars() == other.bars()
    }
}

impl Eq for Range {}

impl Hash for Range {
    fn hash<H: Hasher>(&self, state: &mut H) {
        (self.earliest, self.latest, self.count).hash(state);
        self.bars().hash(state);
    }
}

impl fmt::Debug for Range {
    fn fmt(&self, f: &mut fmt::Formatter<'_>) -> fmt::Result {
        write!(f, "Range({self})")
    }
}

impl fmt::Display for Range {
    fn fmt(&self, f: &mut fmt::Formatter<'_>) -> fmt::Result {
        write!(f, "{}..{}", self.earliest, self.latest)?;
        if self.count == 0 { Ok(()) } else { write!(f, " without {:?}", self.bars()) }
    }
}

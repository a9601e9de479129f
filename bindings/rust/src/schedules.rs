//! Questions to a fixed schedule, in which each range has one start and no two tasks overlap. Bars are not read.
use crate::{Propagator, Range, Refused, raw};
use std::fmt;

/// A line of a page has this many bytes.
const LINE: usize = 31;

impl Propagator {
    /// A fixed schedule as text: a heading, and a line for each task, by start.
    ///
    /// ```
    /// use reedgrit::{Propagator, Range, Refused};
    /// let propagator = Propagator::new(&[4, 15])?;
    /// let page = propagator.page(&[Range::new(3, 3), Range::new(-12, -12)])?;
    /// assert_eq!(
    ///     page.lines().map(str::trim_end).collect::<Vec<_>>(),
    ///     [
    ///         "NR       START         END",
    ///         " 1         -12           3",
    ///         " 0           3           7",
    ///     ]
    /// );
    /// assert_eq!(propagator.page(&[Range::new(3, 4), Range::new(-12, -12)]), Err(Refused::Schedule));
    /// # Ok::<(), reedgrit::Refused>(())
    /// ```
    ///
    /// # Errors
    /// [`Refused::RangeCount`], [`Refused::Start`], [`Refused::Crossed`], [`Refused::Schedule`].
    pub fn page(&self, ranges: &[Range]) -> Result<String, Refused> {
        let mut out = vec![0; LINE * (self.len() + 1)];
        let written = self.page_on(ranges, &mut out)?.len();
        out.truncate(written);
        Ok(String::from_utf8(out).expect("a page is ASCII"))
    }

    /// The same page in a buffer of the caller's, which needs 31 bytes for each task and 31 more. What the page does not need stays as it was.
    ///
    /// # Errors
    /// As [`Propagator::page`]'s, and [`Refused::PageRoom`].
    pub fn page_on<'b>(&self, ranges: &[Range], out: &'b mut [u8]) -> Result<&'b [u8], Refused> {
        let answer = raw::page(&self.record, ranges, out);
        match answer.kind {
            0 => Ok(&out[..answer.count]),
            _ => Err(Refused::of(answer.number, &[], ranges)),
        }
    }

    /// What each task of a fixed schedule costs that ends after its due moment, and the sum, in cents. A unit of time is a minute. Each hour begun
    /// costs 25 for the first 24 that a task is late, and 40 after these; a task costs 2,000 at most.
    ///
    /// ```
    /// use reedgrit::{Propagator, Range};
    /// let propagator = Propagator::new(&[4, 15])?;
    /// let ranges = [Range::new(3, 3), Range::new(-12, -12)];
    /// assert_eq!(propagator.charges(&ranges, &[7, 3])?.total(), 0);
    /// // A minute late is an hour begun; and 25 hours are 24 at 25 cents and one at 40.
    /// let late = propagator.charges(&ranges, &[6, 3 - 25 * 60])?;
    /// assert_eq!(late.charges(), [25, 640]);
    /// assert_eq!(late.to_string(), "665 cents (25, 640)");
    /// # Ok::<(), reedgrit::Refused>(())
    /// ```
    ///
    /// # Errors
    /// [`Refused::RangeCount`], [`Refused::Start`], [`Refused::Crossed`], [`Refused::Schedule`], [`Refused::Due`].
    pub fn charges(&self, ranges: &[Range], due: &[i32]) -> Result<Bill, Refused> {
        let answer = raw::charges(&self.record, ranges, due);
        match answer.kind {
            0 => Ok(Bill { charges: answer.charges, tasks: self.len(), total: answer.total }),
            _ => Err(Refused::of(answer.number, &[], ranges)),
        }
    }

    /// The least start from `from` on at which a further task of this duration overlaps none of a fixed schedule. It may be above [`START`](crate::START),
    /// and is 800,000,000 at most.
    ///
    /// ```
    /// use reedgrit::{Propagator, Range};
    /// let propagator = Propagator::new(&[4, 15])?;
    /// let ranges = [Range::new(4, 4), Range::new(-12, -12)];
    /// assert_eq!(propagator.free_start(&ranges, 0, 1)?, 3);
    /// assert_eq!(propagator.free_start(&ranges, 0, 2)?, 8);
    /// # Ok::<(), reedgrit::Refused>(())
    /// ```
    ///
    /// # Errors
    /// [`Refused::RangeCount`], [`Refused::Start`], [`Refused::Crossed`], [`Refused::Schedule`], [`Refused::Question`].
    pub fn free_start(&self, ranges: &[Range], from: i32, duration: i32) -> Result<i32, Refused> {
        let answer = raw::free_start(&self.record, ranges, from, duration);
        match answer.kind {
            0 => Ok(answer.start),
            _ => Err(Refused::of(answer.number, &[], ranges)),
        }
    }

    /// The stretch of this length that a fixed schedule covers most: the covered time, and the least start that reaches it. The stretches that count
    /// start at the first task's start, at the last one's, or anywhere between.
    ///
    /// ```
    /// use reedgrit::{Propagator, Range, Stretch};
    /// let propagator = Propagator::new(&[4, 15])?;
    /// let ranges = [Range::new(4, 4), Range::new(-12, -12)];
    /// assert_eq!(propagator.busiest_stretch(&ranges, 15)?, Stretch { time: 15, start: -12 });
    /// # Ok::<(), reedgrit::Refused>(())
    /// ```
    ///
    /// # Errors
    /// [`Refused::RangeCount`], [`Refused::Start`], [`Refused::Crossed`], [`Refused::Schedule`], [`Refused::Length`].
    pub fn busiest_stretch(&self, ranges: &[Range], length: i32) -> Result<Stretch, Refused> {
        let answer = raw::busiest_stretch(&self.record, ranges, length);
        match answer.kind {
            0 => Ok(Stretch { time: answer.time, start: answer.start }),
            _ => Err(Refused::of(answer.number, &[], ranges)),
        }
    }
}

/// Charges in cents.
#[derive(Clone, Copy, Debug, PartialEq, Eq, Hash)]
pub struct Bill {
    charges: [u32; raw::TASKS],
    tasks: usize,
    total: u32,
}

impl Bill {
    /// What each task costs, by its number.
    #[must_use]
    pub fn charges(&self) -> &[u32] {
        &self.charges[..self.tasks]
    }

    /// Their sum.
    #[must_use]
    pub fn total(&self) -> u32 {
        self.total
    }
}

impl fmt::Display for Bill {
    fn fmt(&self, f: &mut fmt::Formatter<'_>) -> fmt::Result {
        let each: Vec<String> = self.charges().iter().map(u32::to_string).collect();
        write!(f, "{} cents ({})", self.total, each.join(", "))
    }
}

/// A stretch of time.
#[derive(Clone, Copy, Debug, PartialEq, Eq, Hash)]
pub struct Stretch {
    /// How much of it tasks cover.
    pub time: u32,
    /// Where it starts.
    pub start: i32,
}

impl fmt::Display for Stretch {
    fn fmt(&self, f: &mut fmt::Formatter<'_>) -> fmt::Result {
        write!(f, "{} covered from {}", self.time, self.start)
    }
}

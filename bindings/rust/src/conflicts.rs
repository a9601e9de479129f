//! Why tasks cannot fit: the sets of tasks that show it, and their page.
use crate::{Propagator, Range, Refused, raw};
use std::fmt;

/// A line of a page has this many bytes, and the heading with the sentences takes no more than five lines.
const LINE: usize = 43;
const BESIDE: usize = 5;

impl Propagator {
    /// Why the tasks cannot fit into the ranges, in numbers that can be added up: those of the ranges, and not of a solver's reason. `None` exactly where
    /// a run on them is done; then a schedule need not exist. Barred starts change no answer.
    ///
    /// ```
    /// use reedgrit::{Conflict, Propagator, Range};
    /// let propagator = Propagator::new(&[4, 4])?;
    /// let conflict = propagator.conflict(&[Range::new(0, 2), Range::new(1, 2)])?.unwrap();
    /// let Conflict::Overload { set, lct, excess } = &conflict else { panic!() };
    /// assert_eq!((set.tasks(), set.est(), set.p(), *lct, *excess), (&[0, 1][..], 0, 8, 6, 2));
    /// assert_eq!(conflict.to_string(), "tasks 0, 1 have 6 units from 0 to 6, and take 8: 2 too many");
    /// assert_eq!(propagator.conflict(&[Range::new(0, 4), Range::new(0, 4)])?, None);
    ///
    /// // No set overloads, but task 0 cannot go before task 1, which is over at 6 at the earliest.
    /// let propagator = Propagator::new(&[3, 5])?;
    /// let conflict = propagator.conflict(&[Range::new(0, 5), Range::new(1, 1)])?.unwrap();
    /// let Conflict::Late { task, latest_start, bound, .. } = conflict else { panic!() };
    /// assert_eq!((task, latest_start, bound), (0, 5, 6));
    /// # Ok::<(), reedgrit::Refused>(())
    /// ```
    ///
    /// # Errors
    /// [`Refused::RangeCount`], [`Refused::Start`], [`Refused::Crossed`], [`Refused::Bars`].
    pub fn conflict(&self, ranges: &[Range]) -> Result<Option<Conflict>, Refused> {
        let answer = raw::conflict(&self.record, ranges);
        let (set, lct, excess) = (Work::of(&answer.set), answer.lct, answer.excess);
        match answer.kind {
            0 => Ok(None),
            1 => Ok(Some(Conflict::Overload { set, lct, excess })),
            2 => {
                let before = Work::of(&answer.before);
                Ok(Some(Conflict::Late {
                    task: answer.task,
                    latest_start: answer.latest_start,
                    bound: answer.bound,
                    set,
                    lct,
                    excess,
                    before,
                }))
            }
            _ => Err(Refused::of(answer.number, &[], ranges)),
        }
    }

    /// The same as text: a heading, a line for each task of the set by number, with its earliest start, its latest completion and its duration, and two
    /// sentences that add them up. Where a task is late, a mark is behind those of [`Conflict::Late`]'s `before`.
    ///
    /// ```
    /// use reedgrit::{Propagator, Range};
    /// let propagator = Propagator::new(&[3, 5])?;
    /// let page = propagator.conflict_page(&[Range::new(0, 5), Range::new(1, 1)])?.unwrap();
    /// assert_eq!(
    ///     page.lines().map(str::trim_end).collect::<Vec<_>>(),
    ///     [
    ///         "  NR        FROM       UNTIL       TAKES",
    ///         "   0           0           8           3",
    ///         "   1           1           6           5 *",
    ///         "0 comes after the others: 0 + 8 = 8 is past 6",
    ///         "0 starts after those marked *: 1 + 5 = 6 is past 5",
    ///     ]
    /// );
    /// assert_eq!(propagator.conflict_page(&[Range::new(0, 6), Range::new(1, 1)])?, None);
    /// # Ok::<(), reedgrit::Refused>(())
    /// ```
    ///
    /// # Errors
    /// As [`Propagator::conflict`]'s.
    pub fn conflict_page(&self, ranges: &[Range]) -> Result<Option<String>, Refused> {
        let mut out = vec![0; LINE * (self.len() + BESIDE)];
        let Some(written) = self.conflict_page_on(ranges, &mut out)?.map(<[u8]>::len) else { return Ok(None) };
        out.truncate(written);
        Ok(Some(String::from_utf8(out).expect("a page is ASCII")))
    }

    /// The same page in a buffer of the caller's, which needs 43 bytes for each task and 215 more. What the page does not need stays as it was.
    ///
    /// # Errors
    /// As [`Propagator::conflict`]'s, and [`Refused::PageRoom`].
    pub fn conflict_page_on<'b>(&self, ranges: &[Range], out: &'b mut [u8]) -> Result<Option<&'b [u8]>, Refused> {
        let answer = raw::conflict_page(&self.record, ranges, out);
        match answer.kind {
            0 => Ok(Some(&out[..answer.count])),
            1 => Ok(None),
            _ => Err(Refused::of(answer.number, &[], ranges)),
        }
    }
}

/// A set of tasks, with the numbers of it that a person adds up.
#[derive(Clone, Debug, PartialEq, Eq, Hash)]
pub struct Work {
    tasks: Vec<usize>,
    est: i32,
    p: u32,
}

impl Work {
    fn of(work: &raw::Work) -> Work {
        let tasks = (0..raw::TASKS).filter(|task| work.tasks[*task]).collect();
        Work { tasks, est: work.est, p: work.p }
    }

    /// The numbers of its tasks, ascending.
    #[must_use]
    pub fn tasks(&self) -> &[usize] {
        &self.tasks
    }

    /// The least of their earliest starts.
    #[must_use]
    pub fn est(&self) -> i32 {
        self.est
    }

    /// The sum of their durations.
    #[must_use]
    pub fn p(&self) -> u32 {
        self.p
    }
}

/// Why there is no schedule. In both, est + p of the set is `excess` past `lct`, by 1 or more.
#[derive(Clone, Debug, PartialEq, Eq, Hash)]
pub enum Conflict {
    /// The set overloads its span, which ends at `lct`, the greatest latest completion of its tasks.
    Overload {
        /// The set.
        set: Work,
        /// The end of its span.
        lct: i32,
        /// How much work is too much.
        excess: u32,
    },
    /// No set overloads. This task of the set cannot go before the others of it, which must be over at `lct`. So it starts after all of them: at `bound`
    /// or later, which is past its latest start.
    Late {
        /// The task.
        task: usize,
        /// Its latest start.
        latest_start: i32,
        /// Where it can start at the earliest.
        bound: i32,
        /// The set, the task in it.
        set: Work,
        /// The greatest latest completion of the others.
        lct: i32,
        /// How far est + p of the set is past it.
        excess: u32,
        /// Those of the others whose est + p is the bound.
        before: Work,
    },
}

impl fmt::Display for Conflict {
    fn fmt(&self, f: &mut fmt::Formatter<'_>) -> fmt::Result {
        let numbers = |work: &Work| work.tasks.iter().map(usize::to_string).collect::<Vec<_>>().join(", ");
        match self {
            Conflict::Overload { set, lct, excess } => {
                let (names, width) = (numbers(set), set.p - excess);
                write!(f, "tasks {names} have {width} units from {} to {lct}, and take {}: {excess} too many", set.est, set.p)
            }
            Conflict::Late { task, latest_start, bound, before, .. } => {
                write!(f, "task {task} starts after tasks {}, at {bound} or later, and not after {latest_start}", numbers(before))
            }
        }
    }
}

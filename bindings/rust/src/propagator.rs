//! The propagator: the durations of its tasks, made, and changed by a task more or less; and the words that its passes write into.
use crate::{Refused, TASKS, raw};
use std::fmt;

/// The words that runs write their posts and reasons into. One `Words` serves any number of runs, one after the other.
#[derive(Clone, Debug)]
pub struct Words {
    pub(crate) posts: Vec<i32>,
    pub(crate) atoms: Vec<i32>,
}

impl Words {
    /// Room for the runs of `tasks` tasks: 4n words for posts and 6n² for atoms.
    #[must_use]
    pub fn new(tasks: usize) -> Words {
        let tasks = tasks.min(TASKS);
        Words { posts: vec![0; 4 * tasks], atoms: vec![0; 6 * tasks * tasks] }
    }
}

/// A propagator: the durations of its tasks. It is plain data of 208 bytes.
///
/// A run leaves it as it was, so that a run answers as on a propagator newly made: whatever runs came before, the same ranges give the same
/// outcome, posts and reasons.
#[derive(Clone, PartialEq, Eq, Hash)]
pub struct Propagator {
    pub(crate) record: raw::Record,
}

impl Propagator {
    /// A propagator for tasks with these durations; task k has `durations[k]`.
    ///
    /// ```
    /// use reedgrit::{Propagator, Refused};
    /// assert_eq!(Propagator::new(&[4, 5, 3]).unwrap().len(), 3);
    /// assert_eq!(Propagator::new(&[4, 0]), Err(Refused::Duration(1)));
    /// ```
    ///
    /// # Errors
    /// [`Refused::TaskCount`], [`Refused::Duration`], [`Refused::DurationSum`].
    pub fn new(durations: &[i32]) -> Result<Propagator, Refused> {
        let made = raw::create(durations);
        if made.number != 0 {
            return Err(Refused::of(made.number, durations, &[]));
        }
        Ok(Propagator { record: made.record })
    }

    /// The number of tasks.
    #[allow(clippy::len_without_is_empty)] // it has one task at least
    #[must_use]
    pub fn len(&self) -> usize {
        self.record.count
    }

    /// The tasks' durations.
    #[must_use]
    pub fn durations(&self) -> &[i32] {
        raw::signed(&self.record.durations[..self.len()])
    }

    /// Words with room for this propagator's runs.
    #[must_use]
    pub fn words(&self) -> Words {
        Words::new(self.len())
    }

    /// A task more, which takes the highest number.
    ///
    /// ```
    /// use reedgrit::{Propagator, Refused};
    /// let mut propagator = Propagator::new(&[4, 5])?;
    /// propagator.add(3)?;
    /// assert_eq!(propagator.durations(), [4, 5, 3]);
    /// assert_eq!(propagator.add(0), Err(Refused::Duration(3)));
    /// # Ok::<(), reedgrit::Refused>(())
    /// ```
    ///
    /// # Errors
    /// [`Refused::TaskCount`], [`Refused::Duration`], [`Refused::DurationSum`].
    pub fn add(&mut self, duration: i32) -> Result<(), Refused> {
        let answer = raw::add(&mut self.record, duration);
        match (answer.kind, answer.number) {
            (0, _) => Ok(()),
            (_, 2) => Err(Refused::Duration(self.len())),
            (_, number) => Err(Refused::of(number, &[], &[])),
        }
    }

    /// A task less; the numbers above it are one lower.
    ///
    /// ```
    /// use reedgrit::{Propagator, Refused};
    /// let mut propagator = Propagator::new(&[4, 5, 3])?;
    /// propagator.remove(0)?;
    /// assert_eq!(propagator.durations(), [5, 3]);
    /// assert_eq!(propagator.remove(2), Err(Refused::Removed));
    /// # Ok::<(), reedgrit::Refused>(())
    /// ```
    ///
    /// # Errors
    /// [`Refused::Removed`], and [`Refused::TaskCount`] for the last task.
    pub fn remove(&mut self, task: usize) -> Result<(), Refused> {
        let answer = raw::remove(&mut self.record, task);
        match answer.kind {
            0 => Ok(()),
            _ => Err(Refused::of(answer.number, &[], &[])),
        }
    }
}

impl fmt::Debug for Propagator {
    fn fmt(&self, f: &mut fmt::Formatter<'_>) -> fmt::Result {
        f.debug_struct("Propagator").field("durations", &self.durations()).finish()
    }
}

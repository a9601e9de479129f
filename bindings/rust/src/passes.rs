//! The passes that post with reasons: the run, which raises earliest starts, and the mirrored pass, which lowers latest ones; and the overload test.
use crate::{LatestPosts, Pass, Posts, Propagator, Range, Reason, Refused, Words, raw};
use std::fmt;

impl Propagator {
    /// Runs edge finding on the ranges, one for each task. Each post raises the earliest start of its range, but for the last one of
    /// [`Outcome::Emptied`]. No latest start changes. Among tasks with equal earliest starts, or equal latest completions, the lower number
    /// comes first. A refused run changes nothing.
    ///
    /// Barred starts change no outcome, no post and no reason: the earliest start then goes to the first permitted one from the post's bound on.
    ///
    /// ```
    /// use reedgrit::{Atom, Propagator, Range};
    /// // The third cannot start before the other two are over, at 9, and not at 9 or 10.
    /// let mut propagator = Propagator::new(&[4, 5, 3])?;
    /// let mut words = propagator.words();
    /// let mut ranges = [Range::new(0, 6), Range::new(1, 5), Range::new(0, 20).barred(&[9, 10])];
    /// let outcome = propagator.run(&mut ranges, &mut words)?;
    /// assert_eq!(outcome.posts().next().map(|post| post.atom()), Some(Atom::at_least(2, 9)));
    /// assert_eq!(ranges[2], Range::new(11, 20).barred(&[9, 10]));
    /// # Ok::<(), reedgrit::Refused>(())
    /// ```
    ///
    /// # Errors
    /// [`Refused::RangeCount`], [`Refused::Start`], [`Refused::Crossed`], [`Refused::Bars`], and [`Refused::Room`] for the words of fewer tasks.
    pub fn run<'w>(&mut self, ranges: &mut [Range], words: &'w mut Words) -> Result<Outcome<'w>, Refused> {
        self.run_on(ranges, &mut words.posts, &mut words.atoms)
    }

    /// The same run on words of the caller's: `posts` needs 4n, `atoms` 6n². What the run does not write stays as it was.
    ///
    /// ```
    /// use reedgrit::{Outcome, Propagator, Range};
    /// let mut propagator = Propagator::new(&[4, 4])?;
    /// let (mut posts, mut atoms) = ([0; 8], [0; 24]);
    /// let mut ranges = [Range::new(0, 2), Range::new(1, 2)];
    /// let Outcome::Overload { posts, reason, changes } = propagator.run_on(&mut ranges, &mut posts, &mut atoms)? else { panic!() };
    /// assert_eq!(posts.len(), 0);
    /// assert_eq!(reason.atoms().len(), 4);
    /// assert_eq!(changes, 2);
    /// # Ok::<(), reedgrit::Refused>(())
    /// ```
    ///
    /// # Errors
    /// As [`Propagator::run`]'s.
    pub fn run_on<'w>(&mut self, ranges: &mut [Range], posts: &'w mut [i32], atoms: &'w mut [i32]) -> Result<Outcome<'w>, Refused> {
        let answer = raw::run(&mut self.record, ranges, posts, atoms);
        let (posts, changes) = (Posts::new(posts, atoms, answer.posts), answer.changes);
        match answer.kind {
            0 => Ok(Outcome::Done { posts, changes }),
            1 => {
                let reason = Reason::of_overload(Pass::Run, posts.reason(answer.first_word, answer.word_count));
                Ok(Outcome::Overload { posts, reason, changes })
            }
            2 => Ok(Outcome::Emptied { posts, changes }),
            _ => Err(Refused::of(answer.number, &[], ranges)),
        }
    }

    /// Runs the mirrored rule on the ranges. Each post lowers the latest start of its range, but for the last one of [`Mirrored::Emptied`]. No
    /// earliest start changes. A refused pass changes nothing.
    ///
    /// ```
    /// use reedgrit::{Atom, Mirrored, Propagator, Range};
    /// // The second is over before the first begins.
    /// let propagator = Propagator::new(&[4, 2])?;
    /// let mut words = propagator.words();
    /// let mut ranges = [Range::new(0, 1), Range::new(-10, 2)];
    /// let ended = propagator.run_mirrored(&mut ranges, &mut words)?;
    /// assert!(matches!(ended, Mirrored::Done { .. }));
    /// assert_eq!(ended.posts().next().unwrap().atom(), Atom::at_most(1, -1));
    /// assert_eq!(ranges[1], Range::new(-10, -1));
    ///
    /// // Where -1 and -2 are barred, the latest start goes back to the last permitted one. The post keeps its bound.
    /// let mut ranges = [Range::new(0, 1), Range::new(-10, 2).barred(&[-2, -1])];
    /// let ended = propagator.run_mirrored(&mut ranges, &mut words)?;
    /// assert_eq!(ended.posts().next().unwrap().atom(), Atom::at_most(1, -1));
    /// assert_eq!(ranges[1].latest, -3);
    /// # Ok::<(), reedgrit::Refused>(())
    /// ```
    ///
    /// # Errors
    /// As [`Propagator::run`]'s.
    pub fn run_mirrored<'w>(&self, ranges: &mut [Range], words: &'w mut Words) -> Result<Mirrored<'w>, Refused> {
        self.run_mirrored_on(ranges, &mut words.posts, &mut words.atoms)
    }

    /// The same pass on words of the caller's: `posts` needs 4n, `atoms` 6n². What the pass does not write stays as it was.
    ///
    /// # Errors
    /// As [`Propagator::run`]'s.
    pub fn run_mirrored_on<'w>(&self, ranges: &mut [Range], posts: &'w mut [i32], atoms: &'w mut [i32]) -> Result<Mirrored<'w>, Refused> {
        let answer = raw::run_mirrored(&self.record, ranges, posts, atoms);
        let posts = LatestPosts(Posts::new(posts, atoms, answer.posts));
        match answer.kind {
            0 => Ok(Mirrored::Done { posts }),
            1 => {
                let reason = Reason::of_overload(Pass::Mirrored, posts.0.reason(answer.first_word, answer.word_count));
                Ok(Mirrored::Overload { posts, reason })
            }
            2 => Ok(Mirrored::Emptied { posts }),
            _ => Err(Refused::of(answer.number, &[], ranges)),
        }
    }

    /// Whether some set of the tasks overloads its span: then the number of tasks after which that is known, by latest completion.
    ///
    /// ```
    /// use reedgrit::{Propagator, Range};
    /// let propagator = Propagator::new(&[4, 4])?;
    /// assert_eq!(propagator.overload_test(&[Range::new(0, 2), Range::new(1, 2)])?, Some(2));
    /// assert_eq!(propagator.overload_test(&[Range::new(0, 4), Range::new(0, 4)])?, None);
    /// # Ok::<(), reedgrit::Refused>(())
    /// ```
    ///
    /// # Errors
    /// [`Refused::RangeCount`], [`Refused::Start`], [`Refused::Crossed`], [`Refused::Bars`].
    pub fn overload_test(&self, ranges: &[Range]) -> Result<Option<usize>, Refused> {
        let answer = raw::overload_test(&self.record, ranges);
        match answer.kind {
            0 => Ok(Some(answer.count)),
            1 => Ok(None),
            _ => Err(Refused::of(answer.number, &[], ranges)),
        }
    }
}

/// How a run ended, with its posts and its leaf changes ([`Outcome::changes`]). There is no schedule in the ranges where it is `Overload` or `Emptied`.
#[derive(Clone, Debug, PartialEq, Eq)]
#[must_use = "an overload or an emptied range means that there is no schedule"]
pub enum Outcome<'w> {
    /// Every task was considered.
    Done {
        /// The run's posts.
        posts: Posts<'w>,
        /// The run's leaf changes.
        changes: usize,
    },
    /// A set of tasks overloads its span.
    Overload {
        /// The posts made before.
        posts: Posts<'w>,
        /// Its reason, whose atoms no schedule meets.
        reason: Reason<'w>,
        /// The run's leaf changes.
        changes: usize,
    },
    /// The last post is above its task's latest start. It is in the list and not in the range.
    Emptied {
        /// The run's posts.
        posts: Posts<'w>,
        /// The run's leaf changes.
        changes: usize,
    },
}

impl<'w> Outcome<'w> {
    /// The run's posts, from the first on.
    #[must_use]
    pub fn posts(&self) -> Posts<'w> {
        match self {
            Outcome::Done { posts, .. } | Outcome::Overload { posts, .. } | Outcome::Emptied { posts, .. } => posts.clone(),
        }
    }

    /// All reasons that the run gives: those of its posts, and behind them an overload's.
    pub fn reasons(&self) -> impl Iterator<Item = Reason<'w>> + use<'w> {
        let overload = if let Outcome::Overload { reason, .. } = self { Some(reason.clone()) } else { None };
        self.posts().map(Reason::from).chain(overload)
    }

    /// How many leaf changes the solver's propagator makes on its tree in this run, at most 4n − 3 for n tasks: one for each task that is
    /// put into Theta, two for one that goes from Theta to Lambda, and one for one that leaves Lambda.
    #[must_use]
    pub fn changes(&self) -> usize {
        match self {
            Outcome::Done { changes, .. } | Outcome::Overload { changes, .. } | Outcome::Emptied { changes, .. } => *changes,
        }
    }
}

impl fmt::Display for Outcome<'_> {
    fn fmt(&self, f: &mut fmt::Formatter<'_>) -> fmt::Result {
        f.write_str(match self {
            Outcome::Done { .. } => "done",
            Outcome::Overload { .. } => "overload",
            Outcome::Emptied { .. } => "emptied",
        })
    }
}

/// How a mirrored pass ended, with its posts. There is no schedule in the ranges where it is `Overload` or `Emptied`.
#[derive(Clone, Debug, PartialEq, Eq)]
#[must_use = "an overload or an emptied range means that there is no schedule"]
pub enum Mirrored<'w> {
    /// Every task was considered.
    Done {
        /// The pass's posts.
        posts: LatestPosts<'w>,
    },
    /// A set of tasks overloads its span.
    Overload {
        /// The posts made before.
        posts: LatestPosts<'w>,
        /// Its reason, whose atoms no schedule meets.
        reason: Reason<'w>,
    },
    /// The last post is below its task's earliest start. It is in the list and not in the range.
    Emptied {
        /// The pass's posts.
        posts: LatestPosts<'w>,
    },
}

impl<'w> Mirrored<'w> {
    /// The pass's posts, from the first on.
    #[must_use]
    pub fn posts(&self) -> LatestPosts<'w> {
        match self {
            Mirrored::Done { posts } | Mirrored::Overload { posts, .. } | Mirrored::Emptied { posts } => posts.clone(),
        }
    }

    /// All reasons that the pass gives: those of its posts, and behind them an overload's.
    pub fn reasons(&self) -> impl Iterator<Item = Reason<'w>> + use<'w> {
        let overload = if let Mirrored::Overload { reason, .. } = self { Some(reason.clone()) } else { None };
        self.posts().map(Reason::from).chain(overload)
    }
}

impl fmt::Display for Mirrored<'_> {
    fn fmt(&self, f: &mut fmt::Formatter<'_>) -> fmt::Result {
        f.write_str(match self {
            Mirrored::Done { .. } => "done",
            Mirrored::Overload { .. } => "overload",
            Mirrored::Emptied { .. } => "emptied",
        })
    }
}

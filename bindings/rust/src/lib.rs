//! Edge finding on one machine, with a reason for each post, and the check of reasons.
//!
//! The work is done by a static library whose functions are proved to meet their contracts for all inputs (the repository's
//! `docs/TRUST.md`). This crate gives them Rust's types. It has no dependency, and nothing in it is unsafe for its user: every input is
//! answered, a wrong one by [`Refused`].
//!
//! A call reads and writes what it is lent, for as long as it lasts. It allocates nothing and keeps nothing between calls, so that all types
//! are `Send` and `Sync`; only [`Words::new`], [`Propagator::page`] and an owned [`Reason`] allocate, on the Rust side.
//!
//! # How to use it
//!
//! `bindings/library` of the repository proves the library and keeps it in `target/staticlib`, for x86-64. A crate of yours names this
//! one by its folder; where the archive stands elsewhere, the environment variable `REEDGRIT_LIB` names that folder.
//!
//! ```toml
//! [dependencies]
//! reedgrit = { path = "REPOSITORY/bindings/rust" }
//! ```
//!
//! ```
//! use reedgrit::{Outcome, Propagator, Range, Verdict};
//!
//! // Three tasks, by their durations. The third cannot start before the other two are over.
//! let durations = [4, 5, 3];
//! let mut propagator = Propagator::new(&durations)?;
//! let mut ranges = [Range::new(0, 6), Range::new(1, 5), Range::new(0, 20)];
//!
//! // The words are lent to each run, which writes its posts and their reasons there.
//! let mut words = propagator.words();
//! let outcome = propagator.run(&mut ranges, &mut words)?;
//! assert!(matches!(outcome, Outcome::Done { .. }));
//!
//! for post in outcome.posts() {
//!     assert_eq!((post.task, post.bound), (2, 9));
//!     let why: Vec<String> = post.reason.iter().map(|atom| atom.to_string()).collect();
//!     assert_eq!(why, ["0 >= 0", "0 <= 7", "1 >= 0", "1 <= 6", "2 >= 0"]);
//!     // A post's reason passes the check.
//!     assert_eq!(post.check(&durations)?, Verdict::Passed);
//! }
//! assert_eq!(ranges[2].earliest, 9);
//! # Ok::<(), reedgrit::Refused>(())
//! ```
//!
//! # What a run does not promise
//!
//! `Done` does not mean that a schedule exists: here task 0 takes 1 to 2, and neither of the others can go before it or both behind it. Nor is
//! one run a fixpoint: the next one, on the ranges that this one left, sees the overload.
//!
//! ```
//! use reedgrit::{Outcome, Propagator, Range};
//! let mut propagator = Propagator::new(&[1, 1, 2])?;
//! let mut words = propagator.words();
//! let mut ranges = [Range::new(1, 1), Range::new(1, 3), Range::new(0, 2)];
//! assert!(matches!(propagator.run(&mut ranges, &mut words)?, Outcome::Done { .. }));
//! assert_eq!(ranges.map(|range| range.earliest), [1, 2, 2]);
//! assert!(matches!(propagator.run(&mut ranges, &mut words)?, Outcome::Overload { .. }));
//!
//! // A latest start more for task 2, and there are schedules; the next run raises it once more.
//! let mut ranges = [Range::new(1, 1), Range::new(1, 3), Range::new(0, 3)];
//! assert_eq!(propagator.run(&mut ranges, &mut words)?.posts().len(), 2);
//! assert_eq!(ranges.map(|range| range.earliest), [1, 2, 2]);
//! assert_eq!(propagator.run(&mut ranges, &mut words)?.posts().len(), 1);
//! assert_eq!(ranges.map(|range| range.earliest), [1, 2, 3]);
//! # Ok::<(), reedgrit::Refused>(())
//! ```
//!
//! The conflict of [`Outcome::Emptied`] is its last post's reason together with the task's latest start. It is checked as that post, with the
//! post as consequent; as premises alone the two need not pass.
//!
//! ```
//! use reedgrit::{Atom, Outcome, Propagator, Range, Verdict, check};
//! let durations = [3, 5];
//! let mut propagator = Propagator::new(&durations)?;
//! let mut words = propagator.words();
//! let mut ranges = [Range::new(0, 5), Range::new(1, 1)];
//! let outcome = propagator.run(&mut ranges, &mut words)?;
//! assert!(matches!(outcome, Outcome::Emptied { .. }));
//! let last = outcome.posts().last().expect("a post emptied the range");
//! assert_eq!(last.atom(), Atom::at_least(0, 6));
//! assert_eq!(last.check(&durations)?, Verdict::Passed);
//! let conflict = [last.reason, &[Atom::at_most(0, 5)]].concat();
//! assert_eq!(check(&durations, &conflict, None)?, Verdict::NotPassed);
//! # Ok::<(), reedgrit::Refused>(())
//! ```
#![deny(unsafe_code)]
#![warn(missing_docs)]

#[cfg(not(all(target_arch = "x86_64", target_pointer_width = "64")))]
compile_error!("reedgrit links a static library that is written for x86-64 with 64-bit pointers; there is none for this target");

mod atoms;
mod checks;
mod conflicts;
mod passes;
mod posts;
mod precedences;
mod propagator;
mod ranges;
mod raw;
mod reasons;
mod refusals;
mod schedules;
pub mod state;

pub use atoms::{Atom, Comparison};
pub use checks::{Verdict, check, check_mirrored};
pub use conflicts::{Conflict, Work};
pub use passes::{Mirrored, Outcome};
pub use posts::{LatestPost, LatestPosts, Post, Posts};
pub use precedences::Precedences;
pub use propagator::{Propagator, Words};
pub use ranges::Range;
pub use reasons::{Pass, Reason};
pub use refusals::Refused;
pub use schedules::{Bill, Stretch};

/// A record has this many tasks at most.
pub const TASKS: usize = raw::TASKS;

/// Starts lie from −400,000,000 to this.
pub const START: i32 = 400_000_000;

/// A range has this many barred starts at most.
pub const BARS: usize = raw::BARS;

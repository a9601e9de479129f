//! Refusals: each number of the library with its name and its text, in one table.
use crate::{Range, START};
use std::fmt;

macro_rules! refusals {
    ($($number:literal $name:ident $(($task:ty))? $text:literal)*) => {
        /// Why an input was refused. A refusal changes nothing that was lent. A task that it names is the lowest one that it is true of.
        #[derive(Clone, Copy, Debug, PartialEq, Eq, Hash)]
        #[non_exhaustive]
        pub enum Refused {
            $(#[doc = concat!($number, ": ", $text, ".")] $name $(($task))?,)*
        }

        impl Refused {
            /// The refusal's number.
            #[must_use]
            pub const fn number(self) -> u32 {
                match self {
                    $(Refused::$name { .. } => $number,)*
                }
            }

            /// The task that it names, where it is about one.
            ///
            /// ```
            /// use reedgrit::{Propagator, Refused};
            /// assert_eq!(Propagator::new(&[4, 0]).unwrap_err().task(), Some(1));
            /// assert_eq!(Refused::RangeCount.task(), None);
            /// ```
            #[must_use]
            pub const fn task(self) -> Option<usize> {
                match self {
                    $($(Refused::$name(task) => { let task: $task = task; Some(task) })?)*
                    _ => None,
                }
            }

            /// The refusal of a number. The library answers the number alone; the task that it names is looked up in what was lent.
            pub(crate) fn of(number: u32, durations: &[i32], ranges: &[Range]) -> Refused {
                match number {
                    $($number => Refused::$name $((lowest(number, durations, ranges) as $task))?,)*
                    _ => unreachable!("the library has no refusal {number}"),
                }
            }

            const fn text(self) -> &'static str {
                match self {
                    $(Refused::$name { .. } => $text,)*
                }
            }
        }
    };
}

refusals! {
    1 TaskCount "no tasks, or more than 48"
    2 Duration(usize) "a duration below 1"
    3 Start(usize) "a start outside -400000000 to 400000000"
    4 Crossed(usize) "an earliest start above its latest"
    5 DurationSum "durations that sum to more than 400000000"
    6 Atoms "an unknown variable, or a value beyond 900000000"
    7 Premises "more than 512 premises"
    8 Consequent "a consequent whose variable is no task's, or lacks a finite bound"
    9 Room "too few words for posts or atoms"
    10 RangeCount "another number of ranges than of tasks"
    11 Post "a post that is not there"
    12 Removed "a task to take off that is not there"
    13 Bars(usize) "barred starts that are more than 16, do not ascend, or have an end of their range among them"
    14 Schedule "ranges that are no fixed schedule"
    15 PageRoom "too few bytes for a page"
    16 ReasonRoom "too few words for a reason"
    17 Task "a task that is not there"
    18 Question "a moment or a duration out of the limits"
    19 Due "a due moment out of the limits, or another number of them than of tasks"
    20 Record "a record that no creation makes"
    21 Holes "an atom that needs a seventeenth hole"
    22 State "a variable state that no call leaves"
    23 Length "a length out of the limits"
}

/// The lowest task that the number is true of.
fn lowest(number: u32, durations: &[i32], ranges: &[Range]) -> usize {
    let far = |start: i32| !(-START..=START).contains(&start);
    let found = match number {
        2 => durations.iter().position(|duration| *duration < 1),
        3 => ranges.iter().position(|range| far(range.earliest) || far(range.latest)),
        4 => ranges.iter().position(|range| range.earliest > range.latest),
        13 => ranges.iter().position(|range| !range.bars_fit()),
        _ => None,
    };
    found.unwrap_or_default()
}

impl fmt::Display for Refused {
    fn fmt(&self, f: &mut fmt::Formatter<'_>) -> fmt::Result {
        write!(f, "refused {}: {}", self.number(), self.text())?;
        match self.task() {
            Some(task) => write!(f, " (task {task})"),
            None => Ok(()),
        }
    }
}

impl std::error::Error for Refused {}

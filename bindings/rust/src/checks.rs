//! The check of a reason, and that of a mirrored pass's.
use crate::{Atom, Refused, raw};
use std::fmt;

/// What a check answers.
#[derive(Clone, Copy, Debug, PartialEq, Eq, Hash)]
#[must_use = "a reason that did not pass is an answer too"]
pub enum Verdict {
    /// No starts without overlap meet the premises and not the consequent.
    Passed,
    /// The checker's formula does not show that.
    NotPassed,
    /// The premises and the negated consequent leave this variable no value; the first atom to do so decides. So the implication holds by the
    /// atoms alone, whatever the tasks are. No reason of a pass is answered so: one that is was mixed up on its way.
    Contradiction(usize),
}

impl fmt::Display for Verdict {
    fn fmt(&self, f: &mut fmt::Formatter<'_>) -> fmt::Result {
        match self {
            Verdict::Passed => f.write_str("passed"),
            Verdict::NotPassed => f.write_str("not passed"),
            Verdict::Contradiction(variable) => write!(f, "contradiction {variable}"),
        }
    }
}

/// Checks that the premises imply the consequent for tasks with these durations; without a consequent, that no schedule meets the premises.
/// It is the check for the reasons of a run; those of a mirrored pass are checked by [`check_mirrored`]. [`Reason::check`](crate::Reason::check)
/// takes the right one.
///
/// # Errors
/// [`Refused::TaskCount`], [`Refused::Duration`], [`Refused::DurationSum`], [`Refused::Premises`], [`Refused::Atoms`],
/// [`Refused::Holes`], [`Refused::Consequent`].
pub fn check(durations: &[i32], premises: &[Atom], consequent: Option<Atom>) -> Result<Verdict, Refused> {
    verdict(raw::check(durations, raw::words(premises), raw::words(consequent.as_slice())), durations)
}

/// The check for a reason of a latest start. Premises and consequent are in the caller's time; the formula is judged in mirrored time.
///
/// ```
/// use reedgrit::{Propagator, Range, Verdict, check, check_mirrored};
/// let durations = [1, 2, 1];
/// let propagator = Propagator::new(&durations)?;
/// let mut words = propagator.words();
/// let mut ranges = [Range::new(-4, -3), Range::new(-8, -6), Range::new(-5, -5)];
/// let post = propagator.run_mirrored(&mut ranges, &mut words)?.posts().next().expect("task 1 starts at -7 or earlier");
/// assert_eq!(check_mirrored(&durations, post.reason, Some(post.atom()))?, Verdict::Passed);
/// assert_eq!(check(&durations, post.reason, Some(post.atom()))?, Verdict::NotPassed);
/// # Ok::<(), reedgrit::Refused>(())
/// ```
///
/// # Errors
/// As [`check`]'s.
pub fn check_mirrored(durations: &[i32], premises: &[Atom], consequent: Option<Atom>) -> Result<Verdict, Refused> {
    verdict(raw::check_mirrored(durations, raw::words(premises), raw::words(consequent.as_slice())), durations)
}

fn verdict(answer: raw::CheckAnswer, durations: &[i32]) -> Result<Verdict, Refused> {
    match answer.kind {
        0 => Ok(Verdict::Passed),
        1 => Ok(Verdict::NotPassed),
        2 => Ok(Verdict::Contradiction(answer.variable)),
        _ => Err(Refused::of(answer.number, durations, &[])),
    }
}

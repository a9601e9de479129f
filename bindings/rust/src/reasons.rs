//! Reasons that a pass gave, each with what follows from it and with the check that it passes.
use crate::{Atom, LatestPost, Post, Range, Refused, Verdict, check, check_mirrored};
use std::borrow::Cow;
use std::fmt;

/// The pass that gave a reason, which decides by which check it is judged.
#[derive(Clone, Copy, Debug, PartialEq, Eq, Hash)]
pub enum Pass {
    /// [`Propagator::run`](crate::Propagator::run), which raises earliest starts.
    Run,
    /// [`Propagator::run_mirrored`](crate::Propagator::run_mirrored), which lowers latest starts.
    Mirrored,
}

/// A reason that a pass gave, with what follows from it: a post of either pass, or, of an overload, that there is no schedule. The words of the
/// pass lend it until [`Reason::into_owned`] gives it atoms of its own. It is shown as `2 >= 9, by 0 >= 0, 0 <= 7`.
///
/// ```
/// use reedgrit::{Atom, Propagator, Range, Reason, Verdict};
/// let durations = [4, 5, 3];
/// let mut propagator = Propagator::new(&durations)?;
/// let mut words = propagator.words();
/// let mut ranges = [Range::new(0, 6), Range::new(1, 5), Range::new(0, 20)];
/// // Kept, they stay when the words are lent to the next pass.
/// let mut kept: Vec<Reason<'static>> = propagator.run(&mut ranges, &mut words)?.reasons().map(Reason::into_owned).collect();
/// kept.extend(propagator.run_mirrored(&mut ranges, &mut words)?.reasons().map(Reason::into_owned));
///
/// assert_eq!(kept[0].post(), Some(Atom::at_least(2, 9)));
/// assert!(kept.iter().all(|reason| reason.check(&durations) == Ok(Verdict::Passed)));
/// // It holds for whatever ranges meet its atoms.
/// assert!(kept[0].holds(&[Range::new(2, 5), Range::new(3, 4), Range::new(1, 9)]));
/// assert!(!kept[0].holds(&[Range::new(2, 8), Range::new(3, 4), Range::new(1, 9)]));
/// // The atoms go on by value, to wherever they are needed.
/// let atoms: Vec<Atom> = kept.remove(0).into_atoms();
/// assert_eq!(atoms[0], Atom::at_least(0, 0));
/// # Ok::<(), reedgrit::Refused>(())
/// ```
#[derive(Clone, Debug, PartialEq, Eq, Hash)]
pub struct Reason<'w> {
    pass: Pass,
    post: Option<Atom>,
    atoms: Cow<'w, [Atom]>,
}

impl<'w> Reason<'w> {
    pub(crate) const fn of_overload(pass: Pass, atoms: &'w [Atom]) -> Reason<'w> {
        Reason { pass, post: None, atoms: Cow::Borrowed(atoms) }
    }

    /// The pass that gave it.
    #[must_use]
    pub const fn pass(&self) -> Pass {
        self.pass
    }

    /// The post that follows from the atoms; none of an overload, whose atoms no schedule meets.
    #[must_use]
    pub const fn post(&self) -> Option<Atom> {
        self.post
    }

    /// The atoms.
    #[must_use]
    pub fn atoms(&self) -> &[Atom] {
        &self.atoms
    }

    /// Whether every permitted start of the ranges meets the atoms, so that what follows holds there.
    #[must_use]
    pub fn holds(&self, ranges: &[Range]) -> bool {
        self.atoms.iter().all(|atom| atom.holds(ranges))
    }

    /// Checks it for tasks with these durations, by the check of the pass that gave it: each reason of a pass passes.
    ///
    /// # Errors
    /// As [`check`]'s.
    pub fn check(&self, durations: &[i32]) -> Result<Verdict, Refused> {
        match self.pass {
            Pass::Run => check(durations, &self.atoms, self.post),
            Pass::Mirrored => check_mirrored(durations, &self.atoms, self.post),
        }
    }

    /// The same with atoms of its own.
    #[must_use]
    pub fn into_owned(self) -> Reason<'static> {
        Reason { pass: self.pass, post: self.post, atoms: Cow::Owned(self.atoms.into_owned()) }
    }

    /// The atoms by value.
    #[must_use]
    pub fn into_atoms(self) -> Vec<Atom> {
        self.atoms.into_owned()
    }
}

impl<'w> From<Post<'w>> for Reason<'w> {
    fn from(post: Post<'w>) -> Reason<'w> {
        Reason { pass: Pass::Run, post: Some(post.atom()), atoms: Cow::Borrowed(post.reason) }
    }
}

impl<'w> From<LatestPost<'w>> for Reason<'w> {
    fn from(post: LatestPost<'w>) -> Reason<'w> {
        Reason { pass: Pass::Mirrored, post: Some(post.atom()), atoms: Cow::Borrowed(post.reason) }
    }
}

impl fmt::Display for Reason<'_> {
    fn fmt(&self, f: &mut fmt::Formatter<'_>) -> fmt::Result {
        match self.post {
            Some(post) => write!(f, "{post}")?,
            None => f.write_str("overload")?,
        }
        for (k, atom) in self.atoms.iter().enumerate() {
            write!(f, "{} {atom}", if k == 0 { ", by" } else { "," })?;
        }
        Ok(())
    }
}

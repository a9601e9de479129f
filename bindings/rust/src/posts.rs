//! The posts of both passes, read from the words that were lent.
use crate::{Atom, Reason, Refused, Verdict, raw};
use std::fmt;
use std::iter::FusedIterator;

/// A post: the task starts at the bound or later, by the reason.
#[derive(Clone, Copy, Debug, PartialEq, Eq, Hash)]
pub struct Post<'w> {
    /// The task's number.
    pub task: usize,
    /// Its start's new lower bound.
    pub bound: i32,
    /// The atoms that the post follows from.
    pub reason: &'w [Atom],
}

impl Post<'_> {
    /// The post as an atom, which is what a check takes as consequent.
    #[must_use]
    pub const fn atom(&self) -> Atom {
        Atom::at_least(self.task, self.bound)
    }

    /// Checks its reason for tasks with these durations; that of a run's post passes.
    ///
    /// # Errors
    /// As [`check`](crate::check)'s.
    pub fn check(&self, durations: &[i32]) -> Result<Verdict, Refused> {
        Reason::from(*self).check(durations)
    }
}

impl fmt::Display for Post<'_> {
    fn fmt(&self, f: &mut fmt::Formatter<'_>) -> fmt::Result {
        self.atom().fmt(f)
    }
}

/// A post of the mirrored pass: the task starts at the bound or earlier, by the reason.
#[derive(Clone, Copy, Debug, PartialEq, Eq, Hash)]
pub struct LatestPost<'w> {
    /// The task's number.
    pub task: usize,
    /// Its start's new upper bound.
    pub bound: i32,
    /// The atoms that the post follows from.
    pub reason: &'w [Atom],
}

impl LatestPost<'_> {
    /// The post as an atom, which is what [`check_mirrored`](crate::check_mirrored) takes as consequent.
    #[must_use]
    pub const fn atom(&self) -> Atom {
        Atom::at_most(self.task, self.bound)
    }

    /// Checks its reason for tasks with these durations, by the mirrored check; that of a mirrored pass's post passes.
    ///
    /// # Errors
    /// As [`check`](crate::check)'s.
    pub fn check(&self, durations: &[i32]) -> Result<Verdict, Refused> {
        Reason::from(*self).check(durations)
    }
}

impl fmt::Display for LatestPost<'_> {
    fn fmt(&self, f: &mut fmt::Formatter<'_>) -> fmt::Result {
        self.atom().fmt(f)
    }
}

/// The posts of a run, in the order in which they were made.
#[derive(Clone)]
pub struct Posts<'w> {
    posts: &'w [i32],
    atoms: &'w [i32],
    count: usize,
    next: usize,
}

impl<'w> Posts<'w> {
    pub(crate) const fn new(posts: &'w [i32], atoms: &'w [i32], count: usize) -> Posts<'w> {
        Posts { posts, atoms, count, next: 0 }
    }

    /// The atoms that stand in so many words from the first one on.
    pub(crate) fn reason(&self, first_word: usize, word_count: usize) -> &'w [Atom] {
        raw::atoms(&self.atoms[first_word..first_word + word_count])
    }
}

impl<'w> Iterator for Posts<'w> {
    type Item = Post<'w>;

    fn next(&mut self) -> Option<Post<'w>> {
        let read = raw::post(self.posts, self.atoms, self.count, self.next);
        if read.number != 0 {
            return None;
        }
        self.next += 1;
        Some(Post { task: read.task as usize, bound: read.bound, reason: self.reason(read.first_word, read.word_count) })
    }

    fn size_hint(&self) -> (usize, Option<usize>) {
        let left = self.count - self.next;
        (left, Some(left))
    }
}

impl ExactSizeIterator for Posts<'_> {}
impl FusedIterator for Posts<'_> {}

impl PartialEq for Posts<'_> {
    fn eq(&self, other: &Self) -> bool {
        self.clone().eq(other.clone())
    }
}

impl Eq for Posts<'_> {}

impl fmt::Debug for Posts<'_> {
    fn fmt(&self, f: &mut fmt::Formatter<'_>) -> fmt::Result {
        f.debug_list().entries(self.clone()).finish()
    }
}

/// The posts of a mirrored pass, in the order in which they were made.
#[derive(Clone, PartialEq, Eq)]
pub struct LatestPosts<'w>(pub(crate) Posts<'w>);

impl<'w> Iterator for LatestPosts<'w> {
    type Item = LatestPost<'w>;

    fn next(&mut self) -> Option<LatestPost<'w>> {
        self.0.next().map(|post| LatestPost { task: post.task, bound: post.bound, reason: post.reason })
    }

    fn size_hint(&self) -> (usize, Option<usize>) {
        self.0.size_hint()
    }
}

impl ExactSizeIterator for LatestPosts<'_> {}
impl FusedIterator for LatestPosts<'_> {}

impl fmt::Debug for LatestPosts<'_> {
    fn fmt(&self, f: &mut fmt::Formatter<'_>) -> fmt::Result {
        f.debug_list().entries(self.clone()).finish()
    }
}

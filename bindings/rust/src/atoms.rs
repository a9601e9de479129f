//! Atoms: a variable compared with a value.
use crate::Range;
use std::fmt;
use std::ops::Not;

/// How an atom compares its variable with its value.
#[derive(Clone, Copy, Debug, PartialEq, Eq, Hash)]
pub enum Comparison {
    /// The variable is the value or above it.
    GreaterEqual,
    /// The variable is the value or below it.
    LessEqual,
    /// The variable is the value.
    Equal,
    /// The variable is another value.
    NotEqual,
}

impl Comparison {
    const fn kind(self) -> i32 {
        match self {
            Comparison::GreaterEqual => 0,
            Comparison::LessEqual => 1,
            Comparison::Equal => 2,
            Comparison::NotEqual => 3,
        }
    }
}

impl fmt::Display for Comparison {
    fn fmt(&self, f: &mut fmt::Formatter<'_>) -> fmt::Result {
        f.write_str(match self {
            Comparison::GreaterEqual => ">=",
            Comparison::LessEqual => "<=",
            Comparison::Equal => "=",
            Comparison::NotEqual => "!=",
        })
    }
}

/// An atom: a variable compared with a value. Variable k below the task count is the start of task k. It is shown as `2 >= 9`.
#[repr(C)]
#[derive(Clone, Copy, PartialEq, Eq, Hash)]
pub struct Atom {
    pub(crate) variable: i32,
    pub(crate) kind: i32,
    pub(crate) value: i32,
}

impl Atom {
    /// The atom of a variable, a comparison and a value. A variable above 63 or a value beyond ±900,000,000 is refused where the atom is
    /// used ([`Refused::Atoms`](crate::Refused::Atoms)).
    #[must_use]
    pub const fn new(variable: usize, comparison: Comparison, value: i32) -> Atom {
        Atom { variable: number(variable), kind: comparison.kind(), value }
    }

    /// The variable is the value or above it.
    #[must_use]
    pub const fn at_least(variable: usize, value: i32) -> Atom {
        Atom::new(variable, Comparison::GreaterEqual, value)
    }

    /// The variable is the value or below it.
    #[must_use]
    pub const fn at_most(variable: usize, value: i32) -> Atom {
        Atom::new(variable, Comparison::LessEqual, value)
    }

    /// The variable's number.
    #[must_use]
    pub const fn variable(&self) -> usize {
        self.variable as usize
    }

    /// The comparison.
    #[must_use]
    pub const fn comparison(&self) -> Comparison {
        match self.kind {
            0 => Comparison::GreaterEqual,
            1 => Comparison::LessEqual,
            2 => Comparison::Equal,
            // `new` makes no other kind, and a run writes 0 and 1 only.
            _ => Comparison::NotEqual,
        }
    }

    /// The value that the variable is compared with.
    #[must_use]
    pub const fn value(&self) -> i32 {
        self.value
    }

    /// Whether every permitted start of its task meets the atom. The start of a task that has no range here may be any. A barred start is another
    /// than all permitted ones; bounds do not change by bars, since both ends of a range are permitted.
    ///
    /// ```
    /// use reedgrit::{Atom, Comparison, Range};
    /// let ranges = [Range::new(3, 5)];
    /// assert!(Atom::at_least(0, 3).holds(&ranges) && !Atom::at_least(0, 4).holds(&ranges));
    /// assert!(Atom::at_most(0, 5).holds(&ranges) && !Atom::at_most(0, 4).holds(&ranges));
    /// assert!(Atom::new(0, Comparison::NotEqual, 6).holds(&ranges) && !Atom::new(0, Comparison::NotEqual, 4).holds(&ranges));
    /// assert!(!Atom::new(0, Comparison::Equal, 4).holds(&ranges) && !Atom::at_least(1, 0).holds(&ranges));
    ///
    /// let barred = [Range::new(3, 5).barred(&[4])];
    /// assert!(Atom::new(0, Comparison::NotEqual, 4).holds(&barred) && !Atom::new(0, Comparison::NotEqual, 5).holds(&barred));
    /// assert!(Atom::at_least(0, 3).holds(&barred) && !Atom::at_least(0, 4).holds(&barred));
    /// ```
    #[must_use]
    pub fn holds(&self, ranges: &[Range]) -> bool {
        let Some(range) = ranges.get(self.variable()) else { return false };
        match self.comparison() {
            Comparison::GreaterEqual => range.earliest >= self.value,
            Comparison::LessEqual => range.latest <= self.value,
            Comparison::Equal => range.earliest == self.value && range.latest == self.value,
            Comparison::NotEqual => !range.permits(self.value),
        }
    }
}

/// The atom that holds exactly where this one does not, for every value that a call accepts.
///
/// ```
/// use reedgrit::Atom;
/// assert_eq!(!Atom::at_least(2, 9), Atom::at_most(2, 8));
/// assert_eq!(!!Atom::at_most(2, 9), Atom::at_most(2, 9));
/// ```
impl Not for Atom {
    type Output = Atom;

    fn not(self) -> Atom {
        match self.comparison() {
            Comparison::GreaterEqual => Atom::at_most(self.variable(), self.value.saturating_sub(1)),
            Comparison::LessEqual => Atom::at_least(self.variable(), self.value.saturating_add(1)),
            Comparison::Equal => Atom::new(self.variable(), Comparison::NotEqual, self.value),
            Comparison::NotEqual => Atom::new(self.variable(), Comparison::Equal, self.value),
        }
    }
}

/// A variable's number as a word; one that no word has stays one that no call accepts.
pub(crate) const fn number(variable: usize) -> i32 {
    if variable > i32::MAX as usize { i32::MAX } else { variable as i32 }
}

impl fmt::Display for Atom {
    fn fmt(&self, f: &mut fmt::Formatter<'_>) -> fmt::Result {
        write!(f, "{} {} {}", self.variable(), self.comparison(), self.value)
    }
}

impl fmt::Debug for Atom {
    fn fmt(&self, f: &mut fmt::Formatter<'_>) -> fmt::Result {
        write!(f, "Atom({self})")
    }
}

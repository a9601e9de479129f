//! Questions to the state that atoms leave, from all integers for each variable. The premises and the question's own words are looked at
//! first, and then the premises are applied.
//!
//! ```
//! use reedgrit::{Atom, Comparison, Refused, state};
//! // Once 5 is excluded, at least 5 is at least 6.
//! let premises = [Atom::new(0, Comparison::NotEqual, 5), Atom::new(0, Comparison::GreaterEqual, 5)];
//! assert_eq!(state::lower_bound(&premises, 0), Ok(state::Bound::At(6)));
//! assert_eq!(state::upper_bound(&premises, 0), Ok(state::Bound::PositiveInfinity));
//! assert_eq!(state::upper_bound(&premises, 64), Err(state::NoState::Refused(Refused::Atoms)));
//! ```
use crate::atoms::number;
use crate::{Atom, Refused, raw};
use std::fmt;

/// The least or the greatest value of a variable.
#[derive(Clone, Copy, Debug, PartialEq, Eq, PartialOrd, Ord, Hash)]
pub enum Bound {
    /// There is a value below each.
    NegativeInfinity,
    /// The value.
    At(i32),
    /// There is a value above each.
    PositiveInfinity,
}

impl fmt::Display for Bound {
    fn fmt(&self, f: &mut fmt::Formatter<'_>) -> fmt::Result {
        match self {
            Bound::NegativeInfinity => f.write_str("-infinity"),
            Bound::At(value) => value.fmt(f),
            Bound::PositiveInfinity => f.write_str("infinity"),
        }
    }
}

/// Why the atoms leave no state.
#[derive(Clone, Copy, Debug, PartialEq, Eq, Hash)]
pub enum NoState {
    /// This variable is left no value: no starts meet the atoms.
    Contradiction(usize),
    /// The atoms, or the question, were refused.
    Refused(Refused),
}

impl fmt::Display for NoState {
    fn fmt(&self, f: &mut fmt::Formatter<'_>) -> fmt::Result {
        match self {
            NoState::Contradiction(variable) => write!(f, "contradiction {variable}"),
            NoState::Refused(refused) => refused.fmt(f),
        }
    }
}

impl std::error::Error for NoState {}

/// Whether the premises and the opposite of the consequent, where there is one, leave every variable a value.
///
/// ```
/// use reedgrit::{Atom, state};
/// assert_eq!(state::prepare(&[Atom::at_least(0, 5)], Some(Atom::at_least(0, 6))), Ok(()));
/// assert_eq!(state::prepare(&[Atom::at_least(0, 5)], Some(Atom::at_least(0, 5))), Err(state::NoState::Contradiction(0)));
/// ```
///
/// # Errors
/// [`Refused::Premises`]; [`Refused::Atoms`]; then [`Refused::Holes`] or a contradiction, by the first atom that leads to one of them.
pub fn prepare(premises: &[Atom], consequent: Option<Atom>) -> Result<(), NoState> {
    let answer = raw::prepare(raw::words(premises), raw::words(consequent.as_slice()));
    match answer.kind {
        0 => Ok(()),
        _ => Err(no_state(answer)),
    }
}

/// The least value that the premises leave to the variable.
///
/// # Errors
/// [`Refused::Premises`]; [`Refused::Atoms`], also for the variable asked about; then [`Refused::Holes`] or a contradiction, by the first
/// premise that leads to one of them.
pub fn lower_bound(premises: &[Atom], variable: usize) -> Result<Bound, NoState> {
    bound(raw::lower_bound(raw::words(premises), number(variable)))
}

/// The greatest value that the premises leave to the variable.
///
/// # Errors
/// As [`lower_bound`]'s.
pub fn upper_bound(premises: &[Atom], variable: usize) -> Result<Bound, NoState> {
    bound(raw::upper_bound(raw::words(premises), number(variable)))
}

/// Whether every value that the premises leave meets the atom.
///
/// # Errors
/// As [`lower_bound`]'s.
pub fn is_true(premises: &[Atom], atom: Atom) -> Result<bool, NoState> {
    let answer = raw::is_true(raw::words(premises), atom.variable, atom.kind, atom.value);
    match answer.kind {
        0 => Ok(true),
        1 => Ok(false),
        _ => Err(no_state(answer)),
    }
}

fn bound(answer: raw::StateAnswer) -> Result<Bound, NoState> {
    match (answer.kind, answer.infinity) {
        (0, 0) => Ok(Bound::At(answer.value)),
        (0, 1) => Ok(Bound::PositiveInfinity),
        (0, _) => Ok(Bound::NegativeInfinity),
        _ => Err(no_state(answer)),
    }
}

fn no_state(answer: raw::StateAnswer) -> NoState {
    if answer.kind == 2 {
        return NoState::Contradiction(answer.variable);
    }
    NoState::Refused(Refused::of(answer.number, &[], &[]))
}

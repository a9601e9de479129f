//! The published Rust, called with plain numbers.
use pumpkin_checking::{Comparison, InferenceChecker, VariableState};
use pumpkin_core::predicates::Predicate;
use pumpkin_core::proof::ConstraintTag;
use pumpkin_core::propagation::{PropagationContext, Propagator as _, PropagatorConstructor, PropagatorConstructorContext, Range, Store};
use pumpkin_core::state::Conflict;
use pumpkin_core::variables::Plain;
use pumpkin_propagators::propagators::disjunctive::ArgDisjunctiveTask;
use pumpkin_propagators::propagators::disjunctive::checker::DisjunctiveEdgeFindingChecker;
use pumpkin_propagators::propagators::disjunctive::disjunctive_propagator::{DisjunctiveConstructor, DisjunctivePropagator};

pub use pumpkin_core::predicates::Predicate as Atom;
pub use pumpkin_core::propagation::Store as Domains;
pub use pumpkin_core::state::Conflict as Conflicted;

fn tasks(durations: &[i32]) -> impl Iterator<Item = ArgDisjunctiveTask<Plain>> + '_ {
    durations.iter().enumerate().map(|(k, p)| ArgDisjunctiveTask { start_time: Plain(k as u32), processing_time: *p })
}

/// The published propagator. It keeps its orders for the run after; one newly made runs as ours does.
pub struct Published(DisjunctivePropagator<Plain>);

impl Published {
    pub fn new(durations: &[i32]) -> Published {
        let constructor = DisjunctiveConstructor::new(tasks(durations).collect::<Vec<_>>(), ConstraintTag);
        Published(constructor.create(PropagatorConstructorContext).propagator)
    }

    pub fn run(&mut self, domains: &mut Store) -> Result<(), Conflict> {
        self.0.propagate(PropagationContext(domains))
    }
}

/// Domains with these ranges, their barred starts as holes, and no post.
pub fn domains(ranges: &[reedgrit::Range]) -> Store {
    Store {
        ranges: ranges.iter().map(|r| Range { lower: r.earliest, upper: r.latest, holes: r.bars().to_vec() }).collect(),
        posts: Vec::new(),
    }
}

pub fn atom(atom: &reedgrit::Atom) -> Predicate {
    Predicate {
        variable: atom.variable() as u32,
        comparison: match atom.comparison() {
            reedgrit::Comparison::GreaterEqual => Comparison::GreaterEqual,
            reedgrit::Comparison::LessEqual => Comparison::LessEqual,
            reedgrit::Comparison::Equal => Comparison::Equal,
            reedgrit::Comparison::NotEqual => Comparison::NotEqual,
        },
        value: atom.value(),
    }
}

/// The published checker of a propagator's tasks, made once, as the solver makes it.
pub struct Checker(DisjunctiveEdgeFindingChecker<Plain>);

/// What it answers.
#[derive(Clone, Copy, Debug, PartialEq, Eq)]
pub enum Checked {
    Passed,
    NotPassed,
    Contradiction(usize),
}

impl Checker {
    pub fn new(durations: &[i32]) -> Checker {
        Checker(DisjunctiveEdgeFindingChecker { tasks: tasks(durations).collect() })
    }

    pub fn check(&self, premises: &[Predicate], consequent: Option<Predicate>) -> Checked {
        match VariableState::prepare_for_conflict_check(premises.iter().copied(), consequent) {
            Err(variable) => Checked::Contradiction(variable as usize),
            Ok(state) => {
                if self.0.check(state, premises, consequent.as_ref()) {
                    Checked::Passed
                } else {
                    Checked::NotPassed
                }
            }
        }
    }
}

//! Whether atoms leave every variable a value, against sets of values written out.
use reedgrit::{Atom, Comparison, Refused, state};
use small::Numbers;

#[allow(dead_code)]
mod small;

/// Values beyond these are admitted exactly where the nearest of these is: no atom below has one above 4 or below −4.
const VALUES: std::ops::RangeInclusive<i32> = -6..=6;

fn meets(value: i32, atom: &Atom) -> bool {
    match atom.comparison() {
        Comparison::GreaterEqual => value >= atom.value(),
        Comparison::LessEqual => value <= atom.value(),
        Comparison::Equal => value == atom.value(),
        Comparison::NotEqual => value != atom.value(),
    }
}

/// The variable of the first atom that leaves its variable no value.
fn contradicted(atoms: &[Atom]) -> Option<usize> {
    (1..=atoms.len()).map(|n| &atoms[..n]).find_map(|some| {
        let variable = some.last()?.variable();
        let left = VALUES.filter(|value| some.iter().filter(|atom| atom.variable() == variable).all(|atom| meets(*value, atom)));
        (left.count() == 0).then_some(variable)
    })
}

fn atom(numbers: &mut Numbers) -> Atom {
    let kinds = [Comparison::GreaterEqual, Comparison::LessEqual, Comparison::Equal, Comparison::NotEqual];
    let variable = numbers.below(3) as usize;
    Atom::new(variable, kinds[numbers.below(4) as usize], numbers.below(9) - 4)
}

#[test]
fn prepare_is_the_written_out_sets() {
    let mut numbers = Numbers(20);
    let (mut states, mut contradictions) = (0, 0);
    for _ in 0..20_000 {
        let premises: Vec<Atom> = (0..numbers.below(7)).map(|_| atom(&mut numbers)).collect();
        let consequent = (numbers.below(2) == 0).then(|| atom(&mut numbers));
        let all: Vec<Atom> = premises.iter().copied().chain(consequent.map(|atom| !atom)).collect();
        let want = contradicted(&all).map_or(Ok(()), |variable| Err(state::NoState::Contradiction(variable)));
        if want.is_ok() {
            states += 1
        } else {
            contradictions += 1
        }
        assert_eq!(state::prepare(&premises, consequent), want, "{premises:?} {consequent:?}");
    }
    assert!(states > 1_000 && contradictions > 1_000, "{states} {contradictions}");
}

#[test]
fn prepare_refuses_in_order() {
    let many = vec![Atom::at_least(64, 0); 513];
    assert_eq!(state::prepare(&many, None), Err(state::NoState::Refused(Refused::Premises)));
    assert_eq!(state::prepare(&many[..1], None), Err(state::NoState::Refused(Refused::Atoms)));
    let holes: Vec<Atom> = (0..17).map(|value| Atom::new(0, Comparison::NotEqual, 2 * value)).collect();
    assert_eq!(state::prepare(&holes, None), Err(state::NoState::Refused(Refused::Holes)));
    assert_eq!(state::prepare(&holes[..16], None), Ok(()));
}

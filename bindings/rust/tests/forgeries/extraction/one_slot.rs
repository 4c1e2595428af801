//! Forks of the forger of one slot, for a total that is false: which premise fails. Where Q has no slot, as over the prime, none does,
//! and no transcript is accepted.

use labrador::{Element, Parameters};

use super::ending::{ending, extracted_vector, Ending};
use super::equation::aggregated;
use super::fork::{before, Fork};
use super::values::Pick::{C, X, Y};
use super::values::{Challenge, Values, PAIRS};
use crate::forger::Forger;
use crate::linear::inverse_modulo;
use crate::modular::primes;
use crate::ring::{dot, scale, sub, to_elements};
use crate::slot::Slot;
use crate::statement::{Statement, SMALLEST};
use crate::total;
use crate::words::Words;

const SIZES: Parameters = Parameters { n: 2, kappa: 2, kappa_1: 2, kappa_2: 2, l: 2, ..SMALLEST };

/// c_i, x_i and y_i with these values in the slot; nothing stands for any. Each difference that is not 0 in the slot is a unit.
fn in_slot(slot: &Slot, wanted: [Option<u32>; 3], desk: &mut Words) -> Values {
    let mut one = |wanted: Option<u32>| loop {
        let challenge = Challenge::drawn(desk);
        if wanted.is_none_or(|value| slot.value(&challenge.element) == value) {
            return challenge;
        }
    };
    let is_unit_elsewhere = |values: &Values| {
        let zero = |(a, b)| slot.value(&values.difference(a, b)) == 0;
        PAIRS.iter().zip(&values.inverses).all(|(&pair, inverse)| inverse.is_some() || zero(pair))
    };
    Values::drawn(|| wanted.map(&mut one), is_unit_elsewhere)
}

/// The forger's fork with challenges of these values in the slot, each verdict held, and D, which is not zero.
fn forged(slot: &Slot, wanted: [[Option<u32>; 3]; 2], seed: u64) -> (Statement, Fork, Element) {
    let mut words = Words::seeded(seed);
    let statement = total::statement(slot, &SIZES, &mut words);
    let values = wanted.map(|wanted| in_slot(slot, wanted, &mut words));
    let mut forger = Forger::new(&statement, slot, None);
    let fork = Fork::new(&SIZES, &mut forger, &before(&SIZES, &mut words), &values);
    for (challenges, verdict) in fork.challenges().iter().zip(fork.verdicts(&statement.job)) {
        forger.hold_verdict(challenges, &verdict);
    }
    let error = forger.error;
    assert_ne!(error, Element::ZERO);
    (statement, fork, error)
}

fn has_units(fork: &Fork) -> bool {
    fork.values.iter().all(|values| values.inverses.iter().all(Option::is_some))
}

fn numbers(statement: &Statement, fork: &Fork) -> Vec<u32> {
    fork.verdicts(&statement.job).iter().map(|verdict| verdict.number()).collect()
}

/// A value in the slot that is not 0.
const V: Option<u32> = Some(100);
const ZERO: Option<u32> = Some(0);

/// All transcripts are accepted, and the extraction ends where a difference is 0 in the slot: it has an inverse modulo every other
/// prime of Q, and none modulo the slot's. There always is one: c_1·(c_1 - c_2) has at most two zeros for each c_2 in the slot, so of
/// three values of c_1 that are accepted two are equal there. Without a slot the same challenges differ by units, and each fails 26.
#[test]
fn accepted_forks_have_no_units() {
    let slot = Slot::of(257);
    let forks = [
        ([[ZERO; 3], [None; 3]], 0, (X, C)),
        ([[V; 3], [V; 3]], 0, (X, C)),
        ([[ZERO, V, ZERO], [V, V, None]], 0, (Y, C)),
        ([[ZERO, V, V], [V, V, None]], 0, (X, Y)),
        ([[V, ZERO, ZERO], [V; 3]], 0, (X, Y)),
    ];
    for (seed, (wanted, challenge, difference)) in (0..).zip(forks) {
        let (statement, fork, _) = forged(&slot, wanted, seed);
        if !slot.is_of_q() {
            assert!(has_units(&fork));
            assert_eq!(numbers(&statement, &fork), [26; 6]);
            continue;
        }
        assert_eq!(ending(&statement, &fork), Ending::NoUnit { challenge, difference });
        let off = fork.values[challenge].difference(difference.0, difference.1);
        assert_eq!(slot.value(&off), 0);
        for prime in primes() {
            assert_eq!(inverse_modulo(&off, prime).is_none(), prime == u64::from(slot.prime));
        }
    }
}

/// Where all differences are units, some transcripts fail 26. Of challenges chosen for the forger these are the ones of c_1 → y_1 and of
/// both changes, and all without a slot.
#[test]
fn forks_with_units_are_not_accepted() {
    let slot = Slot::of(257);
    let with_units = |wanted, seed| {
        let (statement, fork, _) = forged(&slot, wanted, seed);
        assert!(has_units(&fork));
        numbers(&statement, &fork)
    };
    let chosen = [[ZERO, V, Some(7)], [V, Some(8), Some(9)]];
    let expected = if slot.is_of_q() { [0, 0, 26, 0, 0, 26] } else { [26; 6] };
    assert_eq!(with_units(chosen, 0), expected);
    for seed in 1..8 {
        assert!(with_units([[None; 3]; 2], seed).contains(&26), "seed {seed}");
    }
}

/// Though x_1 - c_1 is a unit and s_1 is the witness's, what was accepted is not of it: h_11 is off by 2·D, and the aggregated
/// equation by D. So is what is not accepted without a slot.
#[test]
fn one_unit_is_not_enough() {
    let slot = Slot::of(257);
    let wanted = [[ZERO, V, ZERO], [V, V, None]];
    let (statement, fork, error) = forged(&slot, wanted, 2);
    assert_eq!(numbers(&statement, &fork), [if slot.is_of_q() { 0 } else { 26 }; 6]);
    let [b, h] = ["b''", "h"].map(|name| to_elements(&fork.sent(name)));
    let equation = aggregated(&statement, &fork.drawn, &fork.sent("p"), &b);
    let n = SIZES.n as usize;
    let s_1 = &extracted_vector(&fork, 0)[..];
    assert_eq!(s_1, &statement.witness[..n]);
    assert_eq!(sub(&h[0], &scale(&dot(&equation.phi[..n], s_1), 2)), scale(&error, 2));
    assert_eq!(equation.error(&statement.witness), sub(&Element::ZERO, &error));
}

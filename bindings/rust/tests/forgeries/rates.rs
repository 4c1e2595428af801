//! The figures: the chance of each route, and how far a count may be from it.

use std::env;

use labrador::worth::DEFAULT;
use labrador::Q;

use crate::words::Words;

fn gcd(a: u32, b: u32) -> u32 {
    if b == 0 {
        a
    } else {
        gcd(b, a % b)
    }
}

/// The chance of a route over this modulus, and over the default.
#[derive(Clone, Copy)]
pub struct Chance {
    own: f64,
    default: f64,
}

impl Chance {
    fn of(over: impl Fn(u32) -> f64) -> Chance {
        Chance { own: over(Q), default: over(DEFAULT.q) }
    }
}

/// A total off by a third of Q passes check 22 with the prover unchanged: each of L rows weighs it to 0 with gcd(Q, error) in Q.
pub fn a_third(rows: u32) -> Chance {
    Chance::of(|q| (f64::from(gcd(q / 3, q)) / f64::from(q)).powi(rows as i32))
}

/// An error in one slot of a prime passes 27 by the weights or 26 by the challenges, whose form has two zeros in a slot, or one where r
/// is 1. Nothing where the prime does not divide Q.
pub fn one_slot(prime: u32, r: u32) -> Chance {
    let equations = if r == 1 { 2 } else { 3 };
    Chance::of(|q| match q % prime {
        0 => 1.0 - (1.0 - 1.0 / f64::from(prime)).powi(equations),
        _ => 0.0,
    })
}

/// Whether a chance is so small that no session is accepted.
fn is_none(chance: f64) -> bool {
    chance < 1e-30
}

/// One in so many over the default; over a prime none.
#[test]
fn the_figures() {
    let chances = [a_third(4), a_third(5), one_slot(257, 2), one_slot(257, 1), one_slot(65537, 2)];
    let one_in = chances.map(|chance| (1.0 / chance.default).round());
    assert_eq!(one_in, [81.0, 243.0, 86.0, 129.0, 21846.0]);
    assert!((chances[2].default - 197377.0 / 16974593.0).abs() < 1e-15);
    let expected = |chance: &Chance| if Q == DEFAULT.q { chance.own == chance.default } else { is_none(chance.own) };
    assert!(chances.iter().all(expected));
}

/// How many sessions: the variable's number, else so many that fifty are predicted. Where none is, so many that the default accepts two
/// hundred.
fn sessions(chance: Chance) -> u32 {
    match env::var("LABRADOR_SESSIONS") {
        Ok(said) => said.parse().expect("LABRADOR_SESSIONS is a number"),
        Err(_) if is_none(chance.own) => (200.0 / chance.default).ceil() as u32,
        Err(_) => (50.0 / chance.own).ceil() as u32,
    }
}

/// Sessions for each statement that is made.
const OF_ONE_STATEMENT: u32 = 64;

/// Runs sessions of false statements. Fails where the number of accepted ones is more than four standard deviations from the predicted
/// one, or the sessions are too few to tell.
pub fn hold<S>(
    route: &str,
    chance: Chance,
    make: impl Fn(&mut Words) -> S,
    is_accepted: impl Fn(&S, &mut Words) -> bool,
) {
    let (sessions, chance) = (sessions(chance), chance.own);
    let mut words = Words::seeded(34);
    let mut accepted = 0;
    for first in (0..sessions).step_by(OF_ONE_STATEMENT as usize) {
        let statement = make(&mut words);
        let end = sessions.min(first + OF_ONE_STATEMENT);
        accepted += (first..end).filter(|_| is_accepted(&statement, &mut words)).count();
    }
    let predicted = f64::from(sessions) * chance;
    let deviation = (predicted * (1.0 - chance)).sqrt();
    println!("{route}: {sessions} sessions, {accepted} accepted, {predicted:.1} predicted, deviation {deviation:.1}");
    assert!(is_none(chance) || predicted >= 40.0, "{route}: too few sessions");
    assert!((accepted as f64 - predicted).abs() <= 4.0 * deviation, "{route}");
}

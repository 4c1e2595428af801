//! Route "a norm": a witness longer than beta_sq, whose p is sent modulo Q/257.

use labrador::norms::norm_of;
use labrador::{prove, verify, Parameters, Q};

use crate::common::set_bound;
use crate::forger::hold;
use crate::ring::to_words;
use crate::sessions::drawn;
use crate::slot::Slot;
use crate::statement::{Statement, SMALLEST};
use crate::words::Words;

/// What p is sent modulo.
fn modulus(slot: &Slot) -> u32 {
    Q / slot.prime
}

/// The entries of p modulo M have a norm of 128·M²/6 on the average: 6·beta_sq is M² and half as much again. The limits are those of a
/// witness within beta_sq, the one who proves has another, and every constraint is met by that one.
fn statement(slot: &Slot, p: &Parameters, words: &mut Words) -> Statement {
    let witness = |words: &mut Words, size| (0..p.r * p.n).map(|_| words.within(size)).collect();
    let within = witness(words, 1 << 20);
    let mut statement = Statement::met(p, within, words);
    let beta_sq = u128::from(modulus(slot)).pow(2) / 4;
    set_bound(&mut statement.job, "beta_sq", beta_sq);
    assert!(norm(&statement) <= beta_sq);
    statement.witness = witness(words, 1 << 25);
    statement.meet();
    assert!(norm(&statement) > 500 * beta_sq);
    statement
}

fn norm(statement: &Statement) -> u128 {
    norm_of(&to_words(&statement.witness)).expect("canonical words")
}

#[test]
fn the_rate() {
    let slot = Slot::of(257);
    hold("a witness longer than beta_sq", &slot, &SMALLEST, Some(modulus(&slot)), statement);
}

#[test]
fn the_library_s_prover_fails_21() {
    let mut words = Words::seeded(1);
    let statement = statement(&Slot::of(257), &SMALLEST, &mut words);
    let randomness = drawn(&SMALLEST, &mut words);
    let transcript = prove(&statement.unlimited(), &randomness, &statement.witness_slice()).expect("no limit");
    assert_eq!(verify(&statement.job, &randomness, &transcript).number(), 21);
}

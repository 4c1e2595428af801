//! Route "a ring constraint": its right side is off in one slot of 257.

use labrador::{prove, verify, Parameters};

use crate::forger::hold;
use crate::ring::{add, scale, to_words};
use crate::sessions::drawn;
use crate::slot::Slot;
use crate::statement::{Statement, SMALLEST};
use crate::words::Words;

/// Ring constraints only.
const SIZES: Parameters = Parameters { K: 1, l: 0, ..SMALLEST };

fn statement(slot: &Slot, p: &Parameters, words: &mut Words) -> Statement {
    let witness = (0..p.r * p.n).map(|_| words.within(1)).collect();
    let mut statement = Statement::met(p, witness, words);
    let error = scale(&slot.element(), 1 + words.below(slot.prime - 1));
    statement.write("b", &to_words(&[add(&statement.elements("b")[0], &error)]));
    statement
}

#[test]
fn the_rate() {
    hold("a ring constraint", &Slot::of(257), &SIZES, None, statement);
}

#[test]
fn the_library_s_prover_fails_27() {
    let mut words = Words::seeded(1);
    let statement = statement(&Slot::of(257), &SIZES, &mut words);
    let randomness = drawn(&SIZES, &mut words);
    let transcript = prove(&statement.job, &randomness, &statement.witness_slice()).expect("a short witness");
    assert_eq!(verify(&statement.job, &randomness, &transcript).number(), 27);
}

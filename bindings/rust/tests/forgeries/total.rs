//! Route "any total": a total off by a multiple of Q/257, and b'' and h changed in one slot.

use labrador::{prove, verify, Element, Parameters, Q};

use crate::forger::{hold, judged};
use crate::slot::Slot;
use crate::statement::{Statement, SMALLEST};
use crate::words::Words;

pub fn statement(slot: &Slot, p: &Parameters, words: &mut Words) -> Statement {
    let witness = (0..p.r * p.n).map(|_| words.within(1)).collect();
    let mut statement = Statement::met(p, witness, words);
    statement.claim(Q / slot.prime * (1 + words.below(slot.prime - 1)));
    statement
}

/// How a session passes.
#[derive(Debug, PartialEq)]
enum Way {
    /// beta weighs the errors to 0.
    Weights,
    /// c_1 is 0 in the slot.
    Zero,
    /// c_1 and c_2 are equal in the slot.
    Equal,
}

/// A fixed seed for each way: accepted, though the total is false and the library's prover fails check 22 with the same job and
/// randomness.
#[test]
fn fixed_seeds() {
    let slot = Slot::of(257);
    for (seed, way) in [(529, Way::Weights), (385, Way::Zero), (216, Way::Equal)] {
        let mut words = Words::seeded(seed);
        let statement = statement(&slot, &SMALLEST, &mut words);
        let forged = judged(&statement, &slot, None, &mut words);
        let (had, claimed) = statement.total();
        assert_ne!(had, claimed);
        assert_eq!(forged.verdict.is_accepted(), slot.is_of_q(), "seed {seed}: {}", forged.verdict);

        let randomness = &forged.session.randomness;
        let honest = prove(&statement.job, randomness, &statement.witness_slice()).expect("a short witness");
        assert_eq!(verify(&statement.job, randomness, &honest).number(), 22, "seed {seed}");

        if forged.verdict.is_accepted() {
            let values: Vec<u32> = forged.challenges.iter().map(|c| slot.value(c)).collect();
            let found = match values[..] {
                _ if forged.error == Element::ZERO => Some(Way::Weights),
                [0, _] => Some(Way::Zero),
                [c_1, c_2] if c_1 == c_2 => Some(Way::Equal),
                _ => None,
            };
            assert_eq!(found, Some(way), "seed {seed}");
        }
    }
}

#[test]
fn two_vectors() {
    hold("any total, r 2, L 4", &Slot::of(257), &Parameters { l: 2, ..SMALLEST }, None, statement);
}

#[test]
fn one_vector() {
    hold("any total, r 1, L 5", &Slot::of(257), &Parameters { r: 1, L: 5, ..SMALLEST }, None, statement);
}

#[test]
#[ignore = "a million sessions"]
fn a_slot_of_65537() {
    hold("any total, a slot of 65537", &Slot::of(65537), &SMALLEST, None, statement);
}

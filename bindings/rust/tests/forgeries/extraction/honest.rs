//! Forks of the library's prover: the witness is found again.

use labrador::Parameters;

use super::ending::{ending, Ending};
use super::fork::{before, Fork, Honest};
use super::values::Values;
use crate::statement::{Statement, SMALLEST};
use crate::words::Words;

/// A statement that its witness meets, and values of each challenge whose differences are units.
pub fn met(p: &Parameters, words: &mut Words) -> (Statement, Vec<Values>) {
    let witness = (0..p.r * p.n).map(|_| words.within(1)).collect();
    let statement = Statement::met(p, witness, words);
    (statement, (0..p.r).map(|_| Values::with_units(words)).collect())
}

fn hold(p: &Parameters) {
    for seed in 0..3 {
        let mut words = Words::seeded(seed);
        let (statement, values) = met(p, &mut words);
        let fork = Fork::new(p, &mut Honest(&statement), &before(p, &mut words), &values);
        let found = ending(&statement, &fork);
        assert!(found == Ending::Extracted(statement.witness), "seed {seed}");
    }
}

/// A has as many columns as rows.
#[test]
fn three_vectors() {
    hold(&Parameters { n: 2, r: 3, kappa: 2, kappa_1: 2, kappa_2: 2, K: 1, l: 2, b: 256, t_1: 4, t_2: 4, ..SMALLEST });
}

/// A has more columns than rows; ring constraints alone.
#[test]
fn two_vectors_of_four_elements() {
    hold(&Parameters { n: 4, K: 2, l: 0, ..SMALLEST });
}

/// Totals alone.
#[test]
fn one_vector() {
    hold(&Parameters { n: 3, r: 1, l: 3, b: 256, t_1: 4, t_2: 4, L: 5, ..SMALLEST });
}

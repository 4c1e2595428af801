//! Route "the prover unchanged": a total off by a third of Q.

use labrador::{prove, verify, FailedCheck, Parameters, Verdict, Zq, Q};

use crate::rates;
use crate::ring::split;
use crate::sessions::drawn;
use crate::statement::{Statement, SMALLEST};
use crate::words::Words;

const ERROR: u32 = Q / 3;

/// The seed of a session that is accepted.
const SEED: u64 = 98;

fn statement(p: &Parameters, words: &mut Words) -> Statement {
    let witness = (0..p.r * p.n).map(|_| words.within(1)).collect();
    let mut statement = Statement::met(p, witness, words);
    statement.claim(ERROR);
    statement
}

/// The verdict on the library's prover. It is accepted exactly where each row of psi weighs the error to 0, and else 22 fails at the
/// first row that does not.
fn verdict(statement: &Statement, desk: &mut Words) -> Verdict {
    let p = &statement.parameters;
    let randomness = drawn(p, desk);
    let transcript = prove(&statement.job, &randomness, &statement.witness_slice()).expect("a short witness");
    let verdict = verify(&statement.job, &randomness, &transcript);
    let mut rows = split(&randomness)[1].chunks_exact(p.l as usize);
    match rows.position(|psi| Zq(psi[0]).mul(Zq(ERROR)) != Ok(Zq(0))) {
        None => assert!(verdict.is_accepted(), "{verdict}"),
        Some(first) => {
            let at_row = |row| row as usize == first;
            let failed = matches!(verdict, Verdict::Failed(FailedCheck::ConstantTerm { row, .. }) if at_row(row));
            assert!(failed, "{verdict}");
        }
    }
    verdict
}

/// A fixed seed: accepted by the verifier, though no witness within the limits has the total.
#[test]
fn a_fixed_seed() {
    let mut words = Words::seeded(SEED);
    let false_one = statement(&Parameters { r: 1, ..SMALLEST }, &mut words);
    let (had, claimed) = false_one.total();
    assert_eq!(Zq(claimed).sub(Zq(had)), Ok(Zq(ERROR)));
    // over a prime no row weighs the error to 0
    let verdict = verdict(&false_one, &mut words);
    assert_eq!(verdict.is_accepted(), Q.is_multiple_of(3), "{verdict}");
}

fn hold(route: &str, p: &Parameters) {
    rates::hold(
        route,
        rates::a_third(p.L),
        |words| statement(p, words),
        |false_one, desk| verdict(false_one, desk).is_accepted(),
    );
}

#[test]
fn one_total() {
    hold("a total off by Q/3, L 4", &Parameters { r: 1, ..SMALLEST });
}

#[test]
fn one_of_three_totals() {
    hold("one of three totals off by Q/3, L 5", &Parameters { r: 1, l: 3, K: 1, L: 5, ..SMALLEST });
}

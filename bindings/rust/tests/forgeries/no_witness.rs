//! Route "no witness at all": where check 23 leaves z free and n is at least 2·κ + 2, any statement is accepted.

use labrador::review::{review, Severity};
use labrador::{prove, verify, Parameters, Verdict, Q};

use crate::common::set_bound;
use crate::sessions::{drawn, session};
use crate::statement::{Statement, SMALLEST};
use crate::without::{zeros, NoWitness};
use crate::words::Words;

/// The verdict on a session without a witness; the library's prover fails check 22.
fn judged(statement: &Statement, words: &mut Words) -> Verdict {
    let p = &statement.parameters;
    let randomness = drawn(p, words);
    let honest = prove(&statement.unlimited(), &randomness, &statement.witness_slice()).expect("no limit");
    assert_eq!(verify(&statement.job, &randomness, &honest).number(), 22);

    let session = session(p, words, &mut NoWitness::new(statement));
    verify(&statement.job, &session.randomness, &session.transcript)
}

/// Each seed's session is accepted, and the review has said so.
fn hold_accepted(p: &Parameters, seeds: std::ops::Range<u64>, make: fn(&Parameters, &mut Words) -> Statement) {
    for seed in seeds {
        let mut words = Words::seeded(seed);
        let statement = make(p, &mut words);
        assert_eq!(review(&statement.job).expect("a fit job")[0].severity(), Severity::Anything);
        let verdict = judged(&statement, &mut words);
        assert!(verdict.is_accepted(), "seed {seed}: {verdict}");
    }
}

/// A statement of drawn words, met by nobody: its limits leave the witness of zeros alone, whose left sides are zero. Those
/// of check 23 and of h are out of reach.
fn met_by_nobody(p: &Parameters, words: &mut Words) -> Statement {
    let mut statement = Statement::drawn(p, zeros(u64::from(p.r * p.n)), words);
    for name in ["beta_sq", "bound_A", "bound_B", "bound_C"] {
        set_bound(&mut statement.job, name, 0);
    }
    assert!(statement.words("b0").iter().chain(statement.words("b")).any(|&word| word != 0));
    statement
}

#[test]
fn one_row_of_a() {
    let p = Parameters { n: 4, K: 2, l: 2, ..SMALLEST };
    hold_accepted(&p, 0..8, met_by_nobody);
}

#[test]
fn two_rows_of_a() {
    let p = Parameters { n: 6, r: 3, kappa: 2, kappa_1: 2, kappa_2: 2, K: 1, ..SMALLEST };
    hold_accepted(&p, 0..3, met_by_nobody);
}

/// The norm, on the average, of the digits of a cell of h that has any size: two digits of the base 65536, 64 coefficients.
const CELL: u128 = 64 * (65536 * 65536 / 12 + 65535 * 65535 / 12);

/// Check 23 can never fail, and bound_D is so much.
fn with_bound_of_h(p: &Parameters, words: &mut Words, bound_d: u128) -> Statement {
    let mut statement = met_by_nobody(p, words);
    set_bound(&mut statement.job, "bound_D", bound_d);
    statement
}

/// h_11 is twice the aggregated b, which has any size: where bound_D has room for it, all is as if it were out of reach. Three standard
/// deviations are a quarter of the average, so that no seed is beyond.
#[test]
fn a_bound_of_h_with_room_for_one_cell() {
    let p = Parameters { n: 4, K: 2, l: 2, ..SMALLEST };
    hold_accepted(&p, 0..8, |p, words| with_bound_of_h(p, words, CELL * 5 / 4));
}

/// Without that room the same session is refused, with 16, and the review claims nothing.
#[test]
fn a_bound_of_h_without_room() {
    let p = Parameters { n: 4, K: 2, l: 2, ..SMALLEST };
    for (seed, bound_d) in [(0, 1000), (1, CELL / 2)] {
        let mut words = Words::seeded(seed);
        let statement = with_bound_of_h(&p, &mut words, bound_d);
        assert_ne!(review(&statement.job).expect("a fit job")[0].severity(), Severity::Anything);
        assert_eq!(judged(&statement, &mut words).number(), 16, "seed {seed}");
    }
}

/// A statement with a total that no witness within its limits has, whose limit of check 23 is a tenth above an honest transcript's.
pub fn limited(p: &Parameters, words: &mut Words) -> Statement {
    let witness = (0..p.r * p.n).map(|_| words.within(1)).collect();
    let mut statement = Statement::met(p, witness, words);
    let honest = statement.bound("beta_prime_sq") / 2;
    set_bound(&mut statement.job, "beta_prime_sq", honest * 11 / 10);
    statement.claim(Q / 2);
    statement
}

/// The honest sum in check 23 has r·κ + r(r+1)/2 cells of any size, those of t and h; this one has 2·κ + 2 elements of z, the others
/// being zero, and one cell of h. With two digits of the base 65536 an element and a cell weigh alike.
#[test]
fn check_23_with_an_honest_limit_and_a_wide_base() {
    hold_accepted(&Parameters { n: 4, r: 3, ..SMALLEST }, 0..8, limited);
}

#[test]
#[ignore = "half a minute"]
fn check_23_with_an_honest_limit_at_n_64() {
    let p = Parameters { n: 64, r: 16, kappa: 4, kappa_1: 4, kappa_2: 4, ..SMALLEST };
    hold_accepted(&p, 0..1, limited);
}

/// With four digits of the base 256 the second part of z weighs more than all digits.
#[test]
fn check_23_with_an_honest_limit_and_a_narrow_base() {
    let p = Parameters { n: 4, r: 3, b: 256, t_1: 4, t_2: 4, ..SMALLEST };
    for seed in 0..4 {
        let mut words = Words::seeded(seed);
        let statement = limited(&p, &mut words);
        assert_ne!(review(&statement.job).expect("a fit job")[0].severity(), Severity::Anything);
        assert_eq!(judged(&statement, &mut words).number(), 23, "seed {seed}");
    }
}

//! The extraction from a fork: which of its three endings it has, each with what it asserts.

use labrador::norms::norm_of;
use labrador::{Element, Verdict};

use super::equation::aggregated;
use super::fork::Fork;
use super::values::Pick::{self, C, X, Y};
use super::values::PAIRS;
use crate::ring::{add, cell, dot, matrix_times, mul_each, sub_each, to_elements, to_words};
use crate::statement::Statement;

#[derive(Debug, PartialEq)]
pub enum Ending {
    /// A premise fails: this difference of a challenge's values has no inverse.
    NoUnit { challenge: usize, difference: (Pick, Pick) },
    /// A vector other than zero, within its bound, that A sends to zero.
    ShortVector(Vec<Element>),
    /// The vectors s_i, one after the other, that t, g, h and the aggregated equation are of.
    Extracted(Vec<Element>),
}

/// The ending of a fork whose transcripts are all accepted, with nothing left, and equal but for z.
pub fn ending(statement: &Statement, fork: &Fork) -> Ending {
    for verdict in fork.verdicts(&statement.job) {
        assert_eq!(verdict, Verdict::Accepted { cells_left: 0 }, "{verdict}");
    }
    for name in ["u1", "p", "b''", "u2", "t", "g", "h"] {
        fork.sent(name);
    }
    for (challenge, values) in fork.values.iter().enumerate() {
        if let Some(at) = values.inverses.iter().position(Option::is_none) {
            return Ending::NoUnit { challenge, difference: PAIRS[at] };
        }
    }
    match short_vector(statement, fork) {
        Some(vector) => Ending::ShortVector(vector),
        None => Ending::Extracted(extracted(statement, fork)),
    }
}

/// z^(i) - z, where c_i has become another value.
fn step(fork: &Fork, i: usize, pick: Pick) -> Vec<Element> {
    sub_each(&fork.z(&[(i, pick)]), &fork.z(&[]))
}

/// w_ij = z^(ij) - z^(i) - z^(j) + z.
fn of_two(fork: &Fork, i: usize, j: usize) -> Vec<Element> {
    let together = sub_each(&fork.z(&[(i, X), (j, X)]), &fork.z(&[(i, X)]));
    sub_each(&together, &step(fork, j, X))
}

/// w_i = (y_i - c_i)·(z^(i) - z) - (x_i - c_i)·(z^(i') - z).
fn of_one(fork: &Fork, i: usize) -> Vec<Element> {
    let times = |pick, of| mul_each(&fork.values[i].difference(pick, C), &step(fork, i, of));
    sub_each(&times(Y, X), &times(X, Y))
}

/// (1 + b²)·beta_prime_sq, which z's squared norm is at most.
pub fn z_limit(statement: &Statement) -> u128 {
    (1 + u128::from(statement.parameters.b).pow(2)) * statement.bound("beta_prime_sq")
}

/// The first w_ij or w_i that is not zero. A sends each to zero, and it is within its bound: a product with a difference of challenges
/// is at most 102 times as long.
fn short_vector(statement: &Statement, fork: &Fork) -> Option<Vec<Element>> {
    let r = fork.values.len();
    let twos = (0..r).flat_map(|j| (0..j).map(move |i| (of_two(fork, i, j), 16)));
    let ones = (0..r).map(|i| (of_one(fork, i), 408 * 408));
    let limit = z_limit(statement);
    let norm = |vector: &[Element]| norm_of(&to_words(vector)).expect("canonical words");
    assert!(fork.each_z().all(|z| norm(&z) <= limit));
    let mut found = None;
    for (vector, factor) in twos.chain(ones) {
        assert!(matrix_times(&statement.elements("A"), &vector).iter().all(|e| *e == Element::ZERO));
        assert!(norm(&vector) <= factor * limit);
        if found.is_none() && vector.iter().any(|e| *e != Element::ZERO) {
            found = Some(vector);
        }
    }
    found
}

/// s_i = (x_i - c_i)^(-1)·(z^(i) - z).
pub fn extracted_vector(fork: &Fork, i: usize) -> Vec<Element> {
    mul_each(&fork.values[i].inverses[0].expect("a unit"), &step(fork, i, X))
}

/// The vectors s_i: A·s_i = t_i, g_ij = ⟨s_i,s_j⟩, h_ij = ⟨φ_i,s_j⟩ + ⟨φ_j,s_i⟩, and they meet the aggregated equation.
fn extracted(statement: &Statement, fork: &Fork) -> Vec<Element> {
    let vectors: Vec<Element> = (0..fork.values.len()).flat_map(|i| extracted_vector(fork, i)).collect();
    let [b, t, g, h] = ["b''", "t", "g", "h"].map(|name| to_elements(&fork.sent(name)));
    let equation = aggregated(statement, &fork.drawn, &fork.sent("p"), &b);
    let n = statement.parameters.n as usize;
    let [s, phi] = [&vectors, &equation.phi].map(|all| all.chunks_exact(n).collect::<Vec<_>>());
    let a = statement.elements("A");
    assert_eq!(s.iter().flat_map(|s| matrix_times(&a, s)).collect::<Vec<_>>(), t);
    for (i, j) in (0..s.len()).flat_map(|i| (0..=i).map(move |j| (i, j))) {
        assert_eq!(g[cell(i, j)], dot(s[i], s[j]));
        assert_eq!(h[cell(i, j)], add(&dot(phi[i], s[j]), &dot(phi[j], s[i])));
    }
    assert_eq!(equation.error(&vectors), Element::ZERO);
    vectors
}

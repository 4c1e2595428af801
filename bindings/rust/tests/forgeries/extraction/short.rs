//! Forks whose transcripts are all accepted and whose differences are all units, of provers that deviate: a short vector of A.

use labrador::{Element, Parameters, Round, Slice, Q};

use super::ending::{ending, z_limit, Ending};
use super::fork::{before, Fork, Honest};
use super::values::Pick::{C, X, Y};
use super::values::Values;
use crate::common::begin;
use crate::no_witness::limited;
use crate::ring::{add, challenges, mul, mul_each, section, split, to_elements, to_words, ONE};
use crate::sessions::Prover;
use crate::statement::{Statement, SMALLEST};
use crate::without::NoWitness;
use crate::words::Words;

fn units(p: &Parameters, words: &mut Words) -> Vec<Values> {
    (0..p.r).map(|_| Values::with_units(words)).collect()
}

/// The prover without a witness, for a total that no witness within the limits has. With this base check 23 leaves z any size, so that
/// the vector's bound says nothing.
#[test]
fn no_witness() {
    let p = Parameters { n: 4, r: 3, ..SMALLEST };
    for seed in 0..2 {
        let mut words = Words::seeded(seed);
        let statement = limited(&p, &mut words);
        let values = units(&p, &mut words);
        let fork = Fork::new(&p, &mut NoWitness::new(&statement), &before(&p, &mut words), &values);
        assert!(matches!(ending(&statement, &fork), Ending::ShortVector(_)), "seed {seed}");
    }
}

const SIZES: Parameters = Parameters { n: 4, b: 256, t_1: 4, t_2: 4, ..SMALLEST };

/// (1, X^32, 0, 0), whose inner product with itself is 0.
fn kernel() -> Vec<Element> {
    vec![ONE, Element::monomial(1, 32), Element::ZERO, Element::ZERO]
}

/// Its inner product with `kernel` is 0, and its last two elements are drawn.
fn orthogonal(first: Element, words: &mut Words) -> Vec<Element> {
    let second = mul(&Element::monomial(1, 32), &first);
    [vec![first, second], to_elements(&words.numbers(128))].concat()
}

/// A statement whose A, φ'_i and s_i have inner products of 0 with `kernel`.
fn with_kernel(words: &mut Words) -> Statement {
    let witness = |words: &mut Words| {
        let first = words.within(1);
        [orthogonal(first, words)[..2].to_vec(), vec![words.within(1), words.within(1)]].concat()
    };
    let witness = (0..SIZES.r).flat_map(|_| witness(words)).collect();
    let mut statement = Statement::drawn(&SIZES, witness, words);
    let [a, phi_1, phi_2] = [(); 3].map(|_| {
        let first = to_elements(&words.numbers(64))[0];
        orthogonal(first, words)
    });
    statement.write("A", &to_words(&a));
    statement.write("phi'", &to_words(&[phi_1, phi_2].concat()));
    statement.meet();
    statement.limit(words);
    statement
}

/// The library's prover, but that `kernel` is added to z where the first challenges are these.
struct TwoOpenings<'a> {
    honest: Honest<'a>,
    at: &'a [Element],
}

impl Prover for TwoOpenings<'_> {
    fn send(&mut self, round: Round, drawn: &[u32]) -> Vec<u32> {
        let sent = self.honest.send(round, drawn);
        let sections = [split(drawn), split(&sent)].concat();
        let [_, _, _, _, _, signs, shuffle, z, t, g, h] = sections[..] else { return sent };
        if !challenges(signs, shuffle).starts_with(self.at) {
            return sent;
        }
        let z: Vec<Element> = to_elements(z).iter().zip(kernel()).map(|(z, k)| add(z, &k)).collect();
        [&to_words(&z), t, g, h].map(section).concat()
    }
}

/// Weights omega of 0, so that φ_i has an inner product of 0 with `kernel`: every z + `kernel` is accepted.
fn without_projection(words: &mut Words) -> Vec<u32> {
    let mut drawn = before(&SIZES, words);
    let omega = begin(Slice::Randomness, &SIZES, "omega");
    drawn[omega..omega + 256 * SIZES.L as usize].fill(0);
    drawn
}

/// w_12 is `kernel` where it was added at x_1 and x_2 alone, and w_1 is (y_1 - c_1) times it where it was added at x_1.
#[test]
fn two_openings() {
    let mut words = Words::seeded(1);
    let statement = with_kernel(&mut words);
    let (values, drawn) = (units(&SIZES, &mut words), without_projection(&mut words));
    assert!(408 * 408 * z_limit(&statement) < u128::from(Q / 2).pow(2), "a bound that any vector is within");

    let x = [0, 1].map(|i: usize| values[i].at(X).element);
    let of_one = mul_each(&values[0].difference(Y, C), &kernel());
    for (at, expected) in [(&x[..], kernel()), (&x[..1], of_one)] {
        let mut prover = TwoOpenings { honest: Honest(&statement), at };
        let fork = Fork::new(&SIZES, &mut prover, &drawn, &values);
        assert!(ending(&statement, &fork) == Ending::ShortVector(expected));
    }
}

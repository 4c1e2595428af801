//! The prover without a witness: linear algebra once the challenges are there.

use labrador::{Element, Parameters, Round, Q};

use crate::linear::{joined, solve};
use crate::modular::primes;
use crate::ring::{
    add, cell, challenges, digits, dot, half, matrix_times, mul, number_dot, scale, section, split, to_elements,
    to_words,
};
use crate::sessions::{before_the_challenges, Prover};
use crate::statement::Statement;

/// Sends what a witness of zeros gives, b'' and h as 22 and 27 ask for, and a z with ⟨z,z⟩ = 0.
pub struct NoWitness<'a> {
    statement: &'a Statement,
    /// b''
    aggregated: Vec<Element>,
    /// The b that alpha and beta make.
    b: Element,
}

impl<'a> NoWitness<'a> {
    pub fn new(statement: &'a Statement) -> NoWitness<'a> {
        NoWitness { statement, aggregated: Vec::new(), b: Element::ZERO }
    }

    fn parameters(&self) -> &Parameters {
        &self.statement.parameters
    }

    /// b''_k is the number Σ psi[k][x]·b0[x]: p is zero.
    fn aggregated(&mut self, psi: &[u32]) -> Vec<u32> {
        let totals = self.statement.words("b0");
        let row = |psi| Element::monomial(number_dot(psi, totals), 0);
        self.aggregated = psi.chunks_exact(totals.len()).map(row).collect();
        section(&to_words(&self.aggregated))
    }

    /// h_11 = 2·b, the rest zero.
    fn h(&self) -> Vec<Element> {
        let mut h = zeros(self.parameters().triangle());
        h[0] = scale(&self.b, 2);
        h
    }

    fn commitment(&mut self, alpha: &[u32], beta: &[u32]) -> Vec<u32> {
        let rings = dot(&to_elements(alpha), &self.statement.elements("b"));
        self.b = add(&rings, &dot(&to_elements(beta), &self.aggregated));
        let p = self.parameters();
        let u2 = matrix_times(&self.statement.elements("D"), &digits(&self.h(), p.b, p.t_1));
        section(&to_words(&u2))
    }

    /// Element m of Σ c_i·φ_i: h_ii of the library's prover is 2·φ_i,m where its s_i is 1 at element m.
    fn weighed_phi(&self, drawn: &[u32], challenges: &[Element], m: usize) -> Element {
        let (n, r) = (self.parameters().n as usize, challenges.len());
        let ones: Vec<Element> = (0..r * n).map(|k| Element::monomial(u32::from(k % n == m), 0)).collect();
        let witness = section(&to_words(&ones));
        let probe = before_the_challenges(self.parameters(), &self.statement.unlimited(), drawn, &witness);
        let h = to_elements(split(&probe)[3]);
        let phi: Vec<Element> = (0..r).map(|i| half(&h[cell(i, i)])).collect();
        dot(challenges, &phi)
    }

    /// A·z = 0 (24) and Σ c_i·⟨φ_i,z⟩ = b·c_1·c_1 (26), where z is (u_1, ±X^32·u_1, u_2, ±X^32·u_2, …), so that ⟨z,z⟩ = 0 (25).
    fn z(&self, drawn: &[u32], challenges: &[Element]) -> Vec<Element> {
        let n = self.parameters().n as usize;
        let mut rows: Vec<Vec<Element>> =
            self.statement.elements("A").chunks_exact(n).map(<[Element]>::to_vec).collect();
        rows.push((0..n).map(|m| self.weighed_phi(drawn, challenges, m)).collect());
        let mut right = zeros(rows.len() as u64 - 1);
        right.push(mul(&self.b, &mul(&challenges[0], &challenges[0])));
        let modulo = |prime| (prime, isotropic(&rows, &right, prime).expect("a choice of signs gives a solution"));
        joined(&primes().into_iter().map(modulo).collect::<Vec<_>>())
    }

    fn opening(&self, drawn: &[u32]) -> Vec<u32> {
        let p = self.parameters();
        let known = split(drawn);
        let before = Round::Four.randomness(drawn);
        let z = self.z(before, &challenges(known[5], known[6]));
        let (t, g) = (zeros(u64::from(p.r * p.kappa)), zeros(p.triangle()));
        [z, t, g, self.h()].map(|elements| section(&to_words(&elements))).concat()
    }
}

impl Prover for NoWitness<'_> {
    fn send(&mut self, round: Round, drawn: &[u32]) -> Vec<u32> {
        let known = split(drawn);
        match round {
            Round::One => section(&to_words(&zeros(self.parameters().kappa_1.into()))),
            Round::Two => section(&[0; 256]),
            Round::Three => self.aggregated(known[1]),
            Round::Four => self.commitment(known[3], known[4]),
            Round::Five => self.opening(drawn),
        }
    }
}

pub fn zeros(count: u64) -> Vec<Element> {
    vec![Element::ZERO; count as usize]
}

/// A z of that form which the rows send to the right sides, modulo a prime: of the first choice of signs that gives one.
fn isotropic(rows: &[Vec<Element>], right: &[Element], prime: u64) -> Option<Vec<Element>> {
    let choices = 1 << (rows[0].len() / 2).min(8);
    let of_signs = |signs: u32| {
        let i = |m: usize| Element::monomial(if signs >> m & 1 == 0 { 1 } else { Q - 1 }, 32);
        let paired = |row: &Vec<Element>| {
            let pair = |(m, pair): (usize, &[Element])| add(&pair[0], &mul(&i(m), &pair[1]));
            row.chunks_exact(2).enumerate().map(pair).collect()
        };
        let u = solve(&rows.iter().map(paired).collect::<Vec<_>>(), right, prime)?;
        Some(u.iter().enumerate().flat_map(|(m, u)| [*u, mul(&i(m), u)]).collect::<Vec<_>>())
    };
    (0..choices).find_map(of_signs)
}

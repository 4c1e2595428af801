//! Equations Σ a_ij·⟨s_i,s_j⟩ + Σ⟨φ_i,s_i⟩ = b, and their weighted sums.

use labrador::{projection_entry, Element};

use crate::ring::{add, left_side, mul, scale, split, sub, to_elements};
use crate::statement::Statement;

#[derive(Clone)]
pub struct Equation {
    r: usize,
    a: Vec<Element>,
    pub phi: Vec<Element>,
    pub b: Element,
}

impl Equation {
    fn zero(statement: &Statement) -> Equation {
        let p = &statement.parameters;
        let zeros = |count: u64| vec![Element::ZERO; count as usize];
        Equation { r: p.r as usize, a: zeros(p.triangle()), phi: zeros(u64::from(p.r * p.n)), b: Element::ZERO }
    }

    /// The left side of these vectors less the right side.
    pub fn error(&self, vectors: &[Element]) -> Element {
        sub(&left_side(&self.a, &self.phi, self.r, vectors), &self.b)
    }

    pub fn with_right_side(self, b: Element) -> Equation {
        Equation { b, ..self }
    }

    /// More by an equation whose elements have been multiplied.
    fn plus(mut self, other: &Equation, multiplied: impl Fn(&Element) -> Element) -> Equation {
        let own = self.a.iter_mut().chain(&mut self.phi).chain([&mut self.b]);
        let others = other.a.iter().chain(&other.phi).chain([&other.b]);
        own.zip(others).for_each(|(own, other)| *own = add(own, &multiplied(other)));
        self
    }
}

/// The constraints of a kind, with these right sides.
fn constraints(statement: &Statement, a: &str, phi: &str, right: Vec<Element>) -> Vec<Equation> {
    let (a, phi) = (statement.elements(a), statement.elements(phi));
    let zero = Equation::zero(statement);
    let each = a.chunks_exact(zero.a.len()).zip(phi.chunks_exact(zero.phi.len())).zip(right);
    each.map(|((a, phi), b)| Equation { r: zero.r, a: a.to_vec(), phi: phi.to_vec(), b }).collect()
}

pub fn ring_constraints(statement: &Statement) -> Vec<Equation> {
    constraints(statement, "a", "phi", statement.elements("b"))
}

fn number(word: u32) -> Element {
    Element::monomial(word, 0)
}

/// What holds of constant coefficients: the constant-term constraints, then p = Π·s, where φ_i is the conjugate of row j of Π_i.
pub fn of_constant_coefficients(statement: &Statement, projection: &[u32], p: &[u32]) -> Vec<Equation> {
    let totals = statement.words("b0").iter().map(|&b| number(b)).collect();
    let mut equations = constraints(statement, "a'", "phi'", totals);
    let n = statement.parameters.n as usize;
    let of_vectors: Vec<&[u32]> = projection.chunks_exact(256 * n * 64).collect();
    for (j, &right) in p.iter().enumerate() {
        let row: Vec<u32> = of_vectors.iter().flat_map(|words| &words[j * n * 64..(j + 1) * n * 64]).copied().collect();
        let entries: Vec<u32> = row.iter().map(|&word| projection_entry(word).expect("a canonical word").0).collect();
        let phi = to_elements(&entries).iter().map(|pi| pi.conj().expect("canonical words")).collect();
        equations.push(Equation { phi, b: number(right), ..Equation::zero(statement) });
    }
    equations
}

/// Row k: those of constant coefficients, weighed by psi and omega.
pub fn row(statement: &Statement, drawn: &[u32], constants: &[Equation], k: usize) -> Equation {
    let l = statement.parameters.l as usize;
    let [_, psi, omega, ..] = split(drawn)[..] else { unreachable!("five sections are drawn") };
    let weights = psi[k * l..(k + 1) * l].iter().chain(&omega[256 * k..256 * (k + 1)]);
    let plus = |sum: Equation, (&weight, equation): (&u32, &Equation)| sum.plus(equation, |e| scale(e, weight));
    weights.zip(constants).fold(Equation::zero(statement), plus)
}

/// The aggregated equation: the ring constraints weighed by alpha, and the rows, with b'' as their right sides, by beta.
pub fn aggregated(statement: &Statement, drawn: &[u32], p: &[u32], b: &[Element]) -> Equation {
    let [projection, _, _, alpha, beta] = split(drawn)[..] else { unreachable!("five sections are drawn") };
    let constants = of_constant_coefficients(statement, projection, p);
    let rows = b.iter().enumerate().map(|(k, &b)| row(statement, drawn, &constants, k).with_right_side(b));
    let weights = to_elements(alpha).into_iter().chain(to_elements(beta));
    let plus = |sum: Equation, (weight, equation): (Element, Equation)| sum.plus(&equation, |e| mul(e, &weight));
    weights.zip(ring_constraints(statement).into_iter().chain(rows)).fold(Equation::zero(statement), plus)
}

//! Whether a witness meets a job, worked out without randomness: of a total what its lines add up to, of each other constraint the left side by
//! the proved leaf calls, and each vector's norm.

use super::job::totals;
use super::total::{centred, factors_of, Total};
use super::Stock;
use crate::constraints::Constraints;
use crate::element::Element;
use crate::norms::{elements, norm_of};
use crate::number::Q;
use crate::refusal::Refusal;
use crate::review::Kind;
use crate::rounds::{round_into, Round};
use crate::section_one::{Parameters, SectionOne};
use crate::sections::{words_of, Slice};

/// Both sides of a constraint at one coefficient. Of a ring constraint it is the first that differs, or coefficient 0.
#[derive(Clone, Debug, PartialEq, Eq)]
pub struct Side {
    pub kind: Kind,
    pub index: u64,
    pub coefficient: usize,
    /// Of a total what its lines add up to, in grams, which is not taken modulo Q; of other constraints the left side, centred.
    pub left: i128,
    /// Centred.
    pub right: i64,
    pub total: Option<Total>,
}

/// What a witness gives under a job.
#[derive(Clone, Debug, PartialEq, Eq)]
pub struct Checked {
    pub sides: Vec<Side>,
    /// The norm of each vector.
    pub norms: Vec<u128>,
    /// A's bound.
    pub bound: u128,
}

impl Side {
    /// The left side less the right one.
    pub fn difference(&self) -> i128 {
        self.left - i128::from(self.right)
    }

    /// Whether the sides are equal, and not modulo Q alone.
    pub fn is_met(&self) -> bool {
        self.difference() == 0
    }

    /// Whether they are equal modulo Q: no proof shows more.
    pub fn is_met_modulo_q(&self) -> bool {
        self.difference() % i128::from(Q) == 0
    }
}

impl Checked {
    /// The constraints that are missed.
    pub fn missed(&self) -> usize {
        self.sides.iter().filter(|side| !side.is_met_modulo_q()).count()
    }

    /// The totals that are met modulo Q only.
    pub fn modulo_q(&self) -> usize {
        self.sides.iter().filter(|side| side.is_met_modulo_q() && !side.is_met()).count()
    }

    /// The vectors whose norm is above A's bound.
    pub fn above(&self) -> usize {
        self.norms.iter().filter(|norm| **norm > self.bound).count()
    }
}

/// That job and witness are fit: 3 to 6, 11 and 12.
fn admitted(job: &[u32], witness: &[u32]) -> Result<SectionOne, Refusal> {
    // no scratch is lent, so round 1 ends with its refusal 1 where the slices are fit
    match round_into(Round::One, job, &[], witness, &mut [], &mut []) {
        Err(Refusal::Scratch { .. }) => Ok(SectionOne::read(job).expect("the job is fit")),
        Err(refusal) => Err(refusal),
        Ok(()) => unreachable!("a round needs scratch"),
    }
}

/// A witness by its elements, with the inner products of its vectors.
struct Vectors {
    n: usize,
    elements: Vec<Element>,
    /// A triangle, rows rising; empty where no constraint has quadratic coefficients.
    products: Vec<Element>,
}

impl Vectors {
    fn of(p: &Parameters, witness: &[u32], quadratic: bool) -> Result<Vectors, Refusal> {
        let all: Vec<Element> = elements(words_of(Slice::Witness, p, "witness", witness)).collect();
        let mut vectors = Vectors { n: p.n as usize, elements: all, products: Vec::new() };
        let r = if quadratic { p.r as usize } else { 0 };
        for (i, j) in (0..r).flat_map(|i| (0..=i).map(move |j| (i, j))) {
            let product = vectors.product(i, j)?;
            vectors.products.push(product);
        }
        Ok(vectors)
    }

    fn vector(&self, i: usize) -> &[Element] {
        &self.elements[i * self.n..(i + 1) * self.n]
    }

    fn product(&self, i: usize, j: usize) -> Result<Element, Refusal> {
        let mut sum = Element::ZERO;
        for (a, b) in self.vector(i).iter().zip(self.vector(j)) {
            sum = sum.add(&a.mul_fast(b)?)?;
        }
        Ok(sum)
    }

    /// A constraint's left side: the sum of a_ij·<s_i,s_j> over all pairs and of <phi_i,s_i>.
    fn left(&self, a: &[u32], phi: &[u32]) -> Result<Element, Refusal> {
        let half = weighted(a, &self.products)?;
        let on_diagonal = (0..).map(|i| i * (i + 3) / 2).take_while(|cell| 64 * cell < a.len());
        let mut sum = half.add(&half)?.add(&weighted(phi, &self.elements)?)?;
        // a cell off the diagonal stands for two pairs, one on it for one
        for cell in on_diagonal {
            sum = sum.sub(&weighted(&a[64 * cell..64 * (cell + 1)], self.products.get(cell..).unwrap_or_default())?)?;
        }
        Ok(sum)
    }
}

/// The sum of weights times elements; weights that are zero are passed over.
fn weighted(weights: &[u32], of: &[Element]) -> Result<Element, Refusal> {
    let mut sum = Element::ZERO;
    for (weight, element) in elements(weights).zip(of).filter(|(weight, _)| *weight != Element::ZERO) {
        sum = sum.add(&weight.mul_fast(element)?)?;
    }
    Ok(sum)
}

/// What the lines of a total add up to, its factors centred. Modulo Q it is the left side's constant coefficient.
fn added(phi: &[u32], stock: &Stock) -> i128 {
    let factors = factors_of(phi).map(|word| i128::from(centred(word)));
    factors.zip(stock.numbers()).map(|(factor, &line)| factor * i128::from(line)).sum()
}

/// Which constraints a witness meets, and each vector's norm. Refused where job or witness are unfit.
pub fn check(job: &[u32], witness: &[u32]) -> Result<Checked, Refusal> {
    let one = admitted(job, witness)?;
    let p = &one.parameters;
    let [constant_terms, rings] = Constraints::both(p, job);
    let said = totals(job)?;
    let quadratic = said.iter().any(|total| total.is_err());
    let vectors = Vectors::of(p, witness, quadratic)?;
    let stock = Stock::of_witness(p, witness);
    let mut sides = Vec::new();
    for (k, total) in said.into_iter().take(constant_terms.count).enumerate() {
        let [a, phi, b_0] = constant_terms.parts(k);
        let total = total.ok();
        let left = match total {
            Some(_) => added(phi, &stock),
            None => centred(vectors.left(a, phi)?.coeffs[0]).into(),
        };
        let right = centred(b_0[0]);
        sides.push(Side { kind: Kind::ConstantTerm, index: k as u64, coefficient: 0, left, right, total });
    }
    for k in 0..rings.count {
        let [a, phi, b] = rings.parts(k);
        let left = vectors.left(a, phi)?.coeffs;
        let coefficient = (0..64).find(|&c| left[c] != b[c]).unwrap_or(0);
        let (left, right) = (centred(left[coefficient]).into(), centred(b[coefficient]));
        sides.push(Side { kind: Kind::Ring, index: k as u64, coefficient, left, right, total: None });
    }
    let lines = 64 * p.n as usize;
    let norms = words_of(Slice::Witness, p, "witness", witness).chunks_exact(lines).map(norm_of);
    Ok(Checked { sides, norms: norms.collect::<Result<_, Refusal>>()?, bound: one.bound("bound_A") })
}

//! What each constraint of a job states: its right side, the witness vectors that it touches, and the total that it is.

use super::job::{totals, NoTotal};
use super::total::{centred, Total};
use crate::constraints::{zero, Constraints};
use crate::refusal::Refusal;
use crate::review::Kind;
use crate::section_one::{Parameters, SectionOne};

/// A witness vector that a constraint touches.
#[derive(Clone, Copy, Debug, PartialEq, Eq)]
pub struct Touched {
    pub vector: u32,
    /// Its linear coefficients that are not 0: in a total, the lines that are in it.
    pub terms: u64,
    /// The vectors whose inner product with it has a coefficient that is not 0.
    pub products: u64,
}

/// A constraint of a job.
#[derive(Clone, Debug, PartialEq, Eq)]
pub struct Stated {
    pub kind: Kind,
    pub index: u64,
    /// The word of b0, or the 64 words of b.
    pub right: Vec<u32>,
    /// By rising index.
    pub touched: Vec<Touched>,
    /// What it says in the words of a statement file.
    pub total: Result<Total, NoTotal>,
}

impl Stated {
    /// The right side's words as centred numbers.
    pub fn centred(&self) -> Vec<i64> {
        self.right.iter().map(|&word| centred(word)).collect()
    }
}

/// The vectors that constraint k touches.
fn touched(constraints: &Constraints, p: &Parameters, k: usize) -> Vec<Touched> {
    let of_vector = |vector: u32| {
        let i = vector as usize;
        let terms = constraints.linear(p, k, i).iter().filter(|word| **word != 0).count() as u64;
        let products = constraints.quadratic(p, k, i).filter(|cell| !zero(cell)).count() as u64;
        Touched { vector, terms, products }
    };
    (0..p.r).map(of_vector).filter(|touched| touched.terms + touched.products > 0).collect()
}

/// What each constraint of a job states, those on constant terms first, or the job's refusal.
pub fn stated(job: &[u32]) -> Result<Vec<Stated>, Refusal> {
    let totals = totals(job)?;
    let p = SectionOne::read(job).expect("the job is fit").parameters;
    let kinds = Constraints::both(&p, job);
    let all = kinds.iter().flat_map(|constraints| (0..constraints.count).map(move |k| (constraints, k)));
    let stated = |((constraints, k), total): ((&Constraints, usize), Result<Total, NoTotal>)| Stated {
        kind: constraints.kind,
        index: k as u64,
        right: constraints.parts(k)[2].to_vec(),
        touched: touched(constraints, &p, k),
        total,
    };
    Ok(all.zip(totals).map(stated).collect())
}

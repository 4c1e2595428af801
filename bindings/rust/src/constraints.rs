//! The constraints of a job by their parts.

use crate::review::Kind;
use crate::section_one::Parameters;
use crate::sections::{placed, Placed, Slice};

/// The constraints of one kind: their quadratic and linear coefficients and their right sides.
pub(crate) struct Constraints<'a> {
    pub kind: Kind,
    pub count: usize,
    a: (u64, &'a [u32]),
    phi: &'a [u32],
    right: &'a [u32],
}

impl<'a> Constraints<'a> {
    /// Those of a fit job on constant terms, and those on the ring.
    pub fn both(p: &Parameters, job: &'a [u32]) -> [Constraints<'a>; 2] {
        let sections = placed(Slice::Job, p);
        [(Kind::ConstantTerm, p.l), (Kind::Ring, p.K)].map(|(kind, count)| Constraints::of(kind, count, &sections, job))
    }

    fn of(kind: Kind, count: u32, sections: &[Placed], job: &'a [u32]) -> Constraints<'a> {
        let names = match kind {
            Kind::ConstantTerm => ["a'", "phi'", "b0"],
            Kind::Ring => ["a", "phi", "b"],
        };
        let [a, phi, right] =
            names.map(|name| sections.iter().find(|s| s.section.name == name).expect("a section of the job"));
        Constraints {
            kind,
            count: count as usize,
            a: (a.begin(), a.words(job)),
            phi: phi.words(job),
            right: right.words(job),
        }
    }

    /// Constraint k's part of words that are laid out constraint after constraint.
    fn part(&self, words: &'a [u32], k: usize) -> &'a [u32] {
        let length = words.len() / self.count;
        &words[k * length..(k + 1) * length]
    }

    /// Constraint k's quadratic coefficients, its linear ones, and its right side.
    pub fn parts(&self, k: usize) -> [&'a [u32]; 3] {
        [self.part(self.a.1, k), self.part(self.phi, k), self.part(self.right, k)]
    }

    /// Where constraint k's quadratic coefficients begin in the job.
    pub fn begin(&self, k: usize) -> u64 {
        self.a.0 + (k * (self.a.1.len() / self.count)) as u64
    }

    /// Constraint k's linear coefficients of vector i.
    pub fn linear(&self, p: &Parameters, k: usize, i: usize) -> &'a [u32] {
        let length = 64 * p.n as usize;
        &self.parts(k)[1][i * length..(i + 1) * length]
    }

    /// Constraint k's quadratic coefficients of vector i with each vector.
    pub fn quadratic(&self, p: &Parameters, k: usize, i: usize) -> impl Iterator<Item = &'a [u32]> {
        let a = self.parts(k)[0];
        cells_of(i, p.r as usize).map(move |cell| &a[64 * cell..64 * (cell + 1)])
    }
}

/// The cells of a triangle of r rows in row or column i.
fn cells_of(i: usize, r: usize) -> impl Iterator<Item = usize> {
    let cell = |row: usize, column: usize| row * (row + 1) / 2 + column;
    (0..r).map(move |j| cell(i.max(j), i.min(j)))
}

pub(crate) fn zero(words: &[u32]) -> bool {
    words.iter().all(|&word| word == 0)
}

//! Document 01, "What a call is handed": the parameters, the sections and the values that a slice holds.

use crate::leaves::{Element, DEGREE};

/// The rows of the projection.
pub const ROWS: usize = 256;
pub const SIGNS: usize = 41;
pub const SHUFFLES: usize = 63;
/// The words of section one of the job.
pub const PARAMETERS: usize = 30;

#[derive(Clone, Copy, Debug, PartialEq, Eq)]
pub struct Parameters {
    pub n: usize,
    pub r: usize,
    pub kappa: usize,
    pub kappa1: usize,
    pub kappa2: usize,
    /// The number of ring constraints, K.
    pub ring: usize,
    /// The number of constant-term constraints, l.
    pub constant: usize,
    pub log_q: usize,
    pub b: u32,
    pub t1: usize,
    pub t2: usize,
    /// The number of aggregated equations, L (document 02, Item 6).
    pub aggregations: usize,
    pub beta_sq: u128,
    pub beta_prime_sq: u128,
    /// The norm bounds of A, B, C and D.
    pub bounds: [u128; 4],
}

fn bound(words: &[u32]) -> u128 {
    u128::from(words[0]) + (u128::from(words[1]) << 32) + (u128::from(words[2]) << 64)
}

impl Parameters {
    /// Reads the 30 words of section one: "L stands after t2".
    pub fn read(w: &[u32]) -> Self {
        let size = |k: usize| w[k] as usize;
        Parameters {
            n: size(0),
            r: size(1),
            kappa: size(2),
            kappa1: size(3),
            kappa2: size(4),
            ring: size(5),
            constant: size(6),
            log_q: size(7),
            b: w[8],
            t1: size(9),
            t2: size(10),
            aggregations: size(11),
            beta_sq: bound(&w[12..]),
            beta_prime_sq: bound(&w[15..]),
            bounds: std::array::from_fn(|k| bound(&w[18 + 3 * k..])),
        }
    }

    pub fn words(&self) -> Vec<u32> {
        let sizes = [self.n, self.r, self.kappa, self.kappa1, self.kappa2, self.ring, self.constant, self.log_q];
        let mut w: Vec<u32> = sizes.iter().map(|&x| x as u32).collect();
        w.extend([self.b, self.t1 as u32, self.t2 as u32, self.aggregations as u32]);
        let [a, b, c, d] = self.bounds;
        for x in [self.beta_sq, self.beta_prime_sq, a, b, c, d] {
            assert!(x < 1 << 96, "a bound has three words");
            w.extend([x as u32, (x >> 32) as u32, (x >> 64) as u32]);
        }
        w
    }

    /// "128 divided by log_q, rounded up": the least L.
    pub fn least_aggregations(&self) -> usize {
        128_usize.div_ceil(self.log_q)
    }

    /// Whether the published Rust is the oracle: "where κ equals L and L is that quotient" (document 02, Item 6).
    pub fn is_of_the_rust(&self) -> bool {
        self.kappa == self.aggregations && self.aggregations == self.least_aggregations()
    }

    /// Whether there are constraints of both kinds (document 02, Item 4). The Rust panics where there are not.
    pub fn has_both_kinds(&self) -> bool {
        self.ring > 0 && self.constant > 0
    }

    /// T.
    pub fn cells(&self) -> usize {
        self.r * (self.r + 1) / 2
    }

    pub fn job_counts(&self) -> Vec<usize> {
        let (n, r, t) = (self.n, self.r, self.cells());
        let elements = |count: usize| count * DEGREE;
        vec![
            PARAMETERS,
            elements(self.constant * t),
            elements(self.constant * r * n),
            self.constant,
            elements(self.ring * t),
            elements(self.ring * r * n),
            elements(self.ring),
            elements(self.kappa * n),
            elements(self.kappa1 * r * self.kappa * self.t1),
            elements(self.kappa1 * t * self.t2),
            elements(self.kappa2 * t * self.t1),
        ]
    }

    pub fn randomness_counts(&self) -> Vec<usize> {
        let l = self.aggregations;
        vec![
            ROWS * DEGREE * self.n * self.r,
            l * self.constant,
            l * ROWS,
            self.ring * DEGREE,
            l * DEGREE,
            SIGNS * self.r,
            SHUFFLES * self.r,
        ]
    }

    pub fn witness_counts(&self) -> Vec<usize> {
        vec![self.r * self.n * DEGREE]
    }

    pub fn transcript_counts(&self) -> Vec<usize> {
        let t = self.cells();
        vec![
            self.kappa1 * DEGREE,
            ROWS,
            self.aggregations * DEGREE,
            self.kappa2 * DEGREE,
            self.n * DEGREE,
            self.r * self.kappa * DEGREE,
            t * DEGREE,
            t * DEGREE,
        ]
    }

    /// The scratch that a call needs.
    pub fn scratch_need(&self) -> usize {
        let (n, r, t) = (self.n, self.r, self.cells());
        64 * ((self.aggregations + 2) * (r * n + t) + r * self.kappa + n + 64)
    }
}

/// The words of a slice whose sections are given.
pub fn join(sections: &[Vec<u32>]) -> Vec<u32> {
    let mut words = Vec::new();
    for section in sections {
        words.push(section.len() as u32);
        words.extend(section);
    }
    words
}

/// The sections of a slice whose layout is right.
pub fn split(words: &[u32]) -> Vec<Vec<u32>> {
    let mut sections = Vec::new();
    let mut at = 0;
    while at < words.len() {
        let end = at + 1 + words[at] as usize;
        sections.push(words[at + 1..end].to_vec());
        at = end;
    }
    sections
}

pub fn elements(words: &[u32]) -> Vec<Element> {
    words.chunks_exact(DEGREE).map(|chunk| chunk.try_into().unwrap()).collect()
}

pub fn flat(elements: &[Element]) -> Vec<u32> {
    elements.concat()
}

/// The cell (i, j) of a triangle stands at this index.
pub fn cell(i: usize, j: usize) -> usize {
    let (row, column) = (i.max(j), i.min(j));
    row * (row + 1) / 2 + column
}

/// The parts of a slice, each of the same length.
fn parts<T: Clone>(values: &[T], length: usize) -> Vec<Vec<T>> {
    values.chunks_exact(length).map(|c| c.to_vec()).collect()
}

/// A constraint: a triangle a and the vectors φ_1 to φ_r.
#[derive(Clone)]
pub struct Constraint {
    pub a: Vec<Element>,
    pub phi: Vec<Vec<Element>>,
}

/// What a job says.
pub struct Job {
    pub parameters: Parameters,
    pub constant: Vec<Constraint>,
    pub b0: Vec<u32>,
    pub ring: Vec<Constraint>,
    pub b: Vec<Element>,
    /// The rows of A, B, C and D.
    pub matrices: [Vec<Vec<Element>>; 4],
}

fn constraints(p: &Parameters, a: &[u32], phi: &[u32]) -> Vec<Constraint> {
    parts(&elements(a), p.cells())
        .into_iter()
        .zip(parts(&elements(phi), p.r * p.n))
        .map(|(a, phi)| Constraint { a, phi: parts(&phi, p.n) })
        .collect()
}

impl Job {
    /// Reads a job whose layout is right.
    pub fn read(words: &[u32]) -> Self {
        let s = split(words);
        let p = Parameters::read(&s[0]);
        let widths = [p.n, p.r * p.kappa * p.t1, p.cells() * p.t2, p.cells() * p.t1];
        Job {
            parameters: p,
            constant: constraints(&p, &s[1], &s[2]),
            b0: s[3].clone(),
            ring: constraints(&p, &s[4], &s[5]),
            b: elements(&s[6]),
            matrices: std::array::from_fn(|k| parts(&elements(&s[7 + k]), widths[k])),
        }
    }
}

/// For each vector the rows of Π_i, each of n elements with coefficients −1, 0 and 1.
pub type Projection = Vec<Vec<Vec<i64>>>;

/// Reads projection words, "for each vector 256 rows of 64·n".
pub fn read_projection(p: &Parameters, words: &[u32]) -> Projection {
    let entries: Vec<i64> = words.iter().map(|&w| crate::leaves::entry(w)).collect();
    parts(&entries, ROWS * DEGREE * p.n).iter().map(|rows| parts(rows, DEGREE * p.n)).collect()
}

/// What the randomness says.
pub struct Randomness {
    pub projection: Projection,
    pub psi: Vec<Vec<u32>>,
    pub omega: Vec<Vec<u32>>,
    pub alpha: Vec<Element>,
    pub beta: Vec<Element>,
    pub challenges: Vec<Element>,
}

impl Randomness {
    /// Reads randomness whose layout is right and has all seven sections.
    pub fn read(p: &Parameters, words: &[u32]) -> Self {
        let s = split(words);
        Randomness {
            projection: read_projection(p, &s[0]),
            psi: (0..p.aggregations).map(|k| s[1][k * p.constant..(k + 1) * p.constant].to_vec()).collect(),
            omega: parts(&s[2], ROWS),
            alpha: elements(&s[3]),
            beta: elements(&s[4]),
            challenges: s[5]
                .chunks_exact(SIGNS)
                .zip(s[6].chunks_exact(SHUFFLES))
                .map(|(signs, shuffles)| crate::leaves::challenge(signs, shuffles))
                .collect(),
        }
    }
}

/// Reads a witness whose layout is right: s_1 to s_r.
pub fn read_witness(p: &Parameters, words: &[u32]) -> Vec<Vec<Element>> {
    parts(&elements(&words[1..]), p.n)
}

/// What a transcript says; t has r rows of κ elements.
#[derive(Clone, PartialEq, Eq)]
pub struct Transcript {
    pub u1: Vec<Element>,
    pub p: Vec<u32>,
    pub b2: Vec<Element>,
    pub u2: Vec<Element>,
    pub z: Vec<Element>,
    pub t: Vec<Vec<Element>>,
    pub g: Vec<Element>,
    pub h: Vec<Element>,
}

impl Transcript {
    /// Reads a transcript whose layout is right.
    pub fn read(p: &Parameters, words: &[u32]) -> Self {
        let s = split(words);
        Transcript {
            u1: elements(&s[0]),
            p: s[1].clone(),
            b2: elements(&s[2]),
            u2: elements(&s[3]),
            z: elements(&s[4]),
            t: parts(&elements(&s[5]), p.kappa),
            g: elements(&s[6]),
            h: elements(&s[7]),
        }
    }

    pub fn sections(&self) -> Vec<Vec<u32>> {
        vec![
            flat(&self.u1),
            self.p.clone(),
            flat(&self.b2),
            flat(&self.u2),
            flat(&self.z),
            flat(&self.t.concat()),
            flat(&self.g),
            flat(&self.h),
        ]
    }
}

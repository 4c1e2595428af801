//! Statements: a job of drawn words, made so that a witness meets it, and then made false.

use labrador::norms::{norm_of, norms};
use labrador::section_one::{SectionOne, BOUNDS, COUNT};
use labrador::sections::words_of;
use labrador::{prove, Element, Parameters, Slice, Zq};

use crate::common::{begin, set_bound};
use crate::ring::{left_side, section, to_elements, to_words};
use crate::sessions;
use crate::words::Words;

/// The least sizes, of one total.
pub const SMALLEST: Parameters =
    Parameters { n: 1, r: 2, kappa: 1, kappa_1: 1, kappa_2: 1, K: 0, l: 1, log_q: 32, b: 65536, t_1: 2, t_2: 2, L: 4 };

/// The greatest bound of three words: it limits nothing.
const OUT_OF_REACH: u128 = (1 << 96) - 1;

/// A job, and the witness that the one who proves has.
pub struct Statement {
    pub parameters: Parameters,
    pub job: Vec<u32>,
    pub witness: Vec<Element>,
}

impl Statement {
    /// A job of drawn words whose bounds limit nothing, with this witness.
    pub fn drawn(p: &Parameters, witness: Vec<Element>, words: &mut Words) -> Statement {
        let section_one = [&p.words()[..], &[u32::MAX; COUNT][p.words().len()..]].concat();
        let mut job = section(&section_one);
        for drawn in &Slice::Job.sections(p)[1..] {
            job.extend(section(&words.numbers(drawn.count())));
        }
        Statement { parameters: *p, job, witness }
    }

    /// A statement that is true: total 0 is the sum of all coefficients of the witness, all other constraints have drawn
    /// weights, every right side is the witness's, and no limit is far from what an honest transcript needs.
    pub fn met(p: &Parameters, witness: Vec<Element>, words: &mut Words) -> Statement {
        let mut statement = Statement::drawn(p, witness, words);
        if p.l > 0 {
            let ones = Element { coeffs: [1; 64] }.conj().expect("canonical words");
            statement.write("a'", &vec![0; 64 * p.triangle() as usize]);
            statement.write("phi'", &to_words(&vec![ones; (p.r * p.n) as usize]));
        }
        statement.meet();
        statement.limit(words);
        statement
    }

    /// Makes every right side the witness's.
    pub fn meet(&mut self) {
        let totals: Vec<u32> = self.left_sides("a'", "phi'").iter().map(|left| left.coeffs[0]).collect();
        self.write("b0", &totals);
        self.write("b", &to_words(&self.left_sides("a", "phi")));
    }

    /// Sets the limits: bound_A is the longest vector's norm, beta_sq twice the witness's, the others twice what one honest transcript has.
    pub fn limit(&mut self, words: &mut Words) {
        let randomness = sessions::drawn(&self.parameters, words);
        let transcript = prove(&self.job, &randomness, &self.witness_slice()).expect("no bound is in the way");
        let one = SectionOne::read(&self.job).expect("a fit job");
        for norm in norms(&one, &transcript).expect("a fit transcript").iter().skip(1) {
            set_bound(&mut self.job, norm.limit_name, 2 * norm.norm);
        }
        let of_vectors: Vec<u128> = self.vectors().map(|s| norm_of(&to_words(s)).expect("canonical words")).collect();
        set_bound(&mut self.job, "beta_sq", 2 * of_vectors.iter().sum::<u128>());
        set_bound(&mut self.job, "bound_A", of_vectors.into_iter().max().expect("a vector"));
    }

    /// The same job with bounds that limit nothing.
    pub fn unlimited(&self) -> Vec<u32> {
        let mut job = self.job.clone();
        for bound in BOUNDS {
            set_bound(&mut job, bound.name, OUT_OF_REACH);
        }
        job
    }

    pub fn bound(&self, name: &str) -> u128 {
        SectionOne::read(&self.job).expect("a fit job").bound(name)
    }

    pub fn words(&self, name: &str) -> &[u32] {
        words_of(Slice::Job, &self.parameters, name, &self.job)
    }

    pub fn elements(&self, name: &str) -> Vec<Element> {
        to_elements(self.words(name))
    }

    /// Writes the first words of a section.
    pub fn write(&mut self, name: &str, words: &[u32]) {
        let at = begin(Slice::Job, &self.parameters, name);
        self.job[at..at + words.len()].copy_from_slice(words);
    }

    /// The witness as its slice.
    pub fn witness_slice(&self) -> Vec<u32> {
        section(&to_words(&self.witness))
    }

    fn vectors(&self) -> std::slice::ChunksExact<'_, Element> {
        self.witness.chunks_exact(self.parameters.n as usize)
    }

    /// The left side of each constraint of a kind: Σ a_ij·⟨s_i,s_j⟩ + Σ⟨φ_i,s_i⟩.
    pub fn left_sides(&self, a: &str, phi: &str) -> Vec<Element> {
        let (a, phi) = (self.elements(a), self.elements(phi));
        let each = a.chunks_exact(self.parameters.triangle() as usize).zip(phi.chunks_exact(self.witness.len()));
        let left = |(a, phi)| left_side(a, phi, self.parameters.r as usize, &self.witness);
        each.map(left).collect()
    }

    /// Total 0 as the witness has it and as the job claims it.
    pub fn total(&self) -> (u32, u32) {
        (self.left_sides("a'", "phi'")[0].coeffs[0], self.words("b0")[0])
    }

    /// Claims a total 0 that is off by this error.
    pub fn claim(&mut self, error: u32) {
        let claimed = Zq(self.total().1).add(Zq(error)).expect("canonical words");
        self.write("b0", &[claimed.0]);
        assert!(self.is_beyond_any_witness(), "{claimed:?}");
    }

    /// Whether no witness within beta_sq has the claimed total 0, by Cauchy and Schwarz: its square is at most 64·r·n·beta_sq.
    fn is_beyond_any_witness(&self) -> bool {
        let claimed = Zq(self.total().1).centre().expect("a canonical word").unsigned_abs();
        u128::from(claimed).pow(2) > 64 * self.witness.len() as u128 * self.bound("beta_sq")
    }
}

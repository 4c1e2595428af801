//! The published Rust on word slices: its values are made of words that document 01 accepts, and its answers are
//! given document 01's numbers and figures.

use labrador::commitments::ajtai_commitment::AjtaiScheme;
use labrador::commitments::common_instances::AjtaiInstances;
use labrador::commitments::outer_commitments::{compute_u1, DecompositionParameters};
use labrador::core::garbage_polynomials::compute_g;
use labrador::prover::{LabradorProver, ProverError};
use labrador::relation::env_params::EnvironmentParameters;
use labrador::relation::statement::{calculate_b_constraint, Statement};
use labrador::relation::witness::Witness;
use labrador::ring::rq::Rq;
use labrador::ring::rq_matrix::RqMatrix;
use labrador::ring::rq_vector::RqVector;
use labrador::ring::zq::Zq;
use labrador::ring::Norms;
use labrador::transcript::sponges::shake::{Playback, Tape};
use labrador::transcript::LabradorTranscript;
use labrador::verifier::{LabradorVerifier, VerifierError};
use model::words::{split, Parameters};
use model::Answer;
use std::panic::{catch_unwind, AssertUnwindSafe};

pub fn element(words: &[u32]) -> Rq {
    let coeffs: Vec<Zq> = words.iter().map(|&w| Zq::new(w)).collect();
    Rq::new(coeffs.try_into().expect("64 words"))
}

pub fn words(element: &Rq) -> Vec<u32> {
    element.coeffs().iter().map(Zq::get_value).collect()
}

pub fn elements(words: &[u32]) -> Vec<Rq> {
    words.chunks_exact(Rq::DEGREE).map(element).collect()
}

pub fn vectors(words: &[u32], length: usize) -> Vec<RqVector> {
    words.chunks_exact(length * Rq::DEGREE).map(|chunk| RqVector::new(elements(chunk))).collect()
}

pub fn triangle(words: &[u32], r: usize) -> RqMatrix {
    let cells = elements(words);
    let rows = (0..r).map(|i| {
        let at = i * (i + 1) / 2;
        RqVector::new(cells[at..at + i + 1].to_vec())
    });
    RqMatrix::new(rows.collect(), true)
}

pub fn triangles(words: &[u32], r: usize) -> Vec<RqMatrix> {
    words.chunks_exact(r * (r + 1) / 2 * Rq::DEGREE).map(|chunk| triangle(chunk, r)).collect()
}

pub fn vector_words(vector: &RqVector) -> Vec<u32> {
    vector.elements().iter().flat_map(words).collect()
}

fn matrix_words(matrix: &RqMatrix) -> Vec<u32> {
    matrix.elements().iter().flat_map(vector_words).collect()
}

/// The parameters as the Rust has them.
pub fn environment(p: &Parameters) -> EnvironmentParameters {
    EnvironmentParameters {
        rank: p.n,
        multiplicity: p.r,
        b: Zq::new(p.b),
        b_1: 0,
        t_1: p.t1,
        b_2: 0,
        t_2: p.t2,
        beta_sq: p.beta_sq,
        gamma_sq: 0,
        gamma_1_sq: 0,
        gamma_2_sq: 0,
        beta_prime_sq: p.beta_prime_sq,
        kappa: p.kappa,
        kappa_1: p.kappa1,
        kappa_2: p.kappa2,
        constraint_k: p.ring,
        constraint_l: p.constant,
        const_agg_length: p.aggregations,
        log_q: p.log_q,
    }
}

/// A job as the Rust has it.
pub struct Job {
    parameters: EnvironmentParameters,
    crs: AjtaiInstances,
    statement: Statement,
}

impl Job {
    pub fn new(job: &[u32]) -> Self {
        let s = split(job);
        let p = Parameters::read(&s[0]);
        let constraints = |words: &[u32]| -> Vec<Vec<RqVector>> {
            words.chunks_exact(p.r * p.n * Rq::DEGREE).map(|chunk| vectors(chunk, p.n)).collect()
        };
        let scheme = |k: usize, width: usize| {
            let matrix = RqMatrix::new(vectors(&s[7 + k], width), false);
            match AjtaiScheme::new(p.bounds[k], matrix) {
                Ok(scheme) => scheme,
                Err(_) => {
                    let matrix = RqMatrix::new(vectors(&s[7 + k], width), false);
                    AjtaiScheme::with_any_bound(p.bounds[k], matrix)
                }
            }
        };
        Job {
            parameters: environment(&p),
            crs: AjtaiInstances {
                commitment_scheme_a: scheme(0, p.n),
                commitment_scheme_b: scheme(1, p.r * p.kappa * p.t1),
                commitment_scheme_c: scheme(2, p.cells() * p.t2),
                commitment_scheme_d: scheme(3, p.cells() * p.t1),
            },
            statement: Statement {
                a_ct: triangles(&s[1], p.r),
                phi_ct: constraints(&s[2]),
                b_0_ct: s[3].iter().map(|&w| Zq::new(w)).collect(),
                a_constraint: triangles(&s[4], p.r),
                phi_constraint: constraints(&s[5]),
                b_constraint: RqVector::new(elements(&s[6])),
            },
        }
    }

    /// The same job with another bound of D.
    pub fn with_bound_d(job: &[u32], bound: u128) -> Self {
        let mut made = Job::new(job);
        let d = &mut made.crs.commitment_scheme_d;
        *d = AjtaiScheme::with_any_bound(bound, d.matrix().clone());
        made
    }

    /// B·digits(t) + C·digits(g) of a transcript.
    fn u1(&self, proof: &LabradorTranscript<Playback>) -> RqVector {
        let p = &self.parameters;
        let parts = |parts: usize| DecompositionParameters::new(p.b, parts).expect("within limits");
        compute_u1(&self.crs, &proof.t, parts(p.t_1), &proof.g, parts(p.t_2))
    }

    /// Whether the digits of a matrix pass a scheme's bound.
    fn commits(&self, scheme: &AjtaiScheme, matrix: &RqMatrix, parts: usize) -> bool {
        let digits = matrix.decompose_each_cell(self.parameters.b, parts);
        scheme.commit(&digits).is_ok()
    }

    /// Which of 14 to 16 a panic stands for: the first of t, g and h whose digits do not commit.
    fn refusal(&self, t: &RqMatrix, g: &RqMatrix) -> Answer {
        let p = &self.parameters;
        if !self.commits(&self.crs.commitment_scheme_b, t, p.t_1) {
            Answer::refused(14, 0)
        } else if !self.commits(&self.crs.commitment_scheme_c, g, p.t_2) {
            Answer::refused(15, 0)
        } else {
            Answer::refused(16, 0)
        }
    }
}

/// Loads the randomness, all seven sections, for the sponge.
pub fn load(randomness: &[u32]) {
    let s = split(randomness);
    Tape::new(s[..5].concat(), s[5].clone(), s[6].clone()).load();
}

/// Runs a call of the Rust; `Err` where it panics because digits do not commit.
fn caught<T>(call: impl FnOnce() -> T) -> Result<T, ()> {
    catch_unwind(AssertUnwindSafe(call)).map_err(|panic| {
        let text = panic.downcast_ref::<String>().cloned().unwrap_or_default();
        assert!(
            text.starts_with("Commitment error in committing to decomposed input"),
            "the Rust panics otherwise: {text}"
        );
    })
}

/// Panics that `caught` catches say nothing on standard error.
pub fn silence_panics() {
    let usual = std::panic::take_hook();
    std::panic::set_hook(Box::new(move |info| {
        let text = info.payload().downcast_ref::<String>();
        if !text.is_some_and(|t| t.starts_with("Commitment error in committing")) {
            usual(info);
        }
    }));
}

/// A witness as the Rust has it.
pub fn witness(job: &Job, witness: &[u32]) -> Witness {
    Witness { s: vectors(&witness[1..], job.parameters.rank) }
}

/// b0 and b of a job's constraints by `calculate_b_constraint`: the constant coefficient of each constant-term constraint's left side, and the words of each
/// ring constraint's.
pub fn right_sides(job: &Job, witness: &Witness) -> [Vec<u32>; 2] {
    let s = &job.statement;
    let sides = |a: &[RqMatrix], phi: &[Vec<RqVector>]| -> Vec<Rq> {
        let each = a.iter().zip(phi);
        each.map(|(a, phi)| calculate_b_constraint(&witness.s, a, phi)).collect()
    };
    let constants = sides(&s.a_ct, &s.phi_ct);
    let rings = sides(&s.a_constraint, &s.phi_constraint);
    [constants.iter().map(|side| side.coeffs()[0].get_value()).collect(), rings.iter().flat_map(words).collect()]
}

/// `LabradorProver::prove`, over the randomness that is loaded.
pub fn run_prover(job: &Job, witness: &Witness) -> Result<LabradorTranscript<Playback>, ProverError> {
    LabradorProver::new(&job.parameters, &job.crs, witness, &job.statement).prove()
}

/// The prover's answer, and the transcript's eight sections where it is made.
pub fn prove(job: &Job, randomness: &[u32], witness_words: &[u32]) -> (Answer, Vec<Vec<u32>>) {
    load(randomness);
    let witness = witness(job, witness_words);
    match caught(|| run_prover(job, &witness)) {
        Ok(Ok(made)) => {
            assert_eq!(Tape::left(), (0, 0, 0), "the prover reads all randomness");
            let p_words = made.vector_p.iter().map(Zq::get_value).collect();
            let sections = vec![
                vector_words(&made.u1),
                p_words,
                vector_words(&made.b_ct_aggr),
                vector_words(&made.u2),
                vector_words(&made.z),
                matrix_words(&made.t),
                matrix_words(&made.g),
                matrix_words(&made.h),
            ];
            (Answer::FINE, sections)
        }
        // the Rust does not say which vector it was
        Ok(Err(ProverError::CommitError(_))) => {
            let scheme = &job.crs.commitment_scheme_a;
            let first = witness.s.iter().position(|s| scheme.commit(s).is_err());
            (Answer::refused(13, first.expect("a vector that does not commit")), vec![])
        }
        Ok(Err(other)) => panic!("the Rust's prover answers otherwise: {other}"),
        Err(()) => {
            let scheme = &job.crs.commitment_scheme_a;
            let t = witness.s.iter().map(|s| scheme.commit(s).expect("committed before"));
            let t = RqMatrix::new(t.collect(), false);
            (job.refusal(&t, &compute_g(&witness.s)), vec![])
        }
    }
}

/// A transcript as the Rust has it.
pub fn proof(job: &Job, transcript: &[u32]) -> LabradorTranscript<Playback> {
    let p = &job.parameters;
    let s = split(transcript);
    let mut proof = LabradorTranscript::new(Playback);
    proof.u1 = RqVector::new(elements(&s[0]));
    proof.vector_p = s[1].iter().map(|&w| Zq::new(w)).collect();
    proof.b_ct_aggr = RqVector::new(elements(&s[2]));
    proof.u2 = RqVector::new(elements(&s[3]));
    proof.z = RqVector::new(elements(&s[4]));
    proof.t = RqMatrix::new(vectors(&s[5], p.kappa), false);
    proof.g = triangle(&s[6], p.multiplicity);
    proof.h = triangle(&s[7], p.multiplicity);
    proof
}

/// `LabradorVerifier::verify`, over the randomness that is loaded.
#[allow(clippy::result_large_err)] // the error is the published Rust's
pub fn run_verifier(job: &Job, proof: &LabradorTranscript<Playback>) -> Result<bool, VerifierError> {
    LabradorVerifier::new(&job.parameters, &job.crs, &job.statement).verify(proof)
}

/// The verifier's answer.
#[allow(clippy::result_large_err)] // the error is the published Rust's
pub fn verify(job: &Job, randomness: &[u32], transcript: &[u32]) -> Answer {
    load(randomness);
    let proof = proof(job, transcript);
    match caught(|| run_verifier(job, &proof)) {
        Ok(Ok(accepted)) => {
            assert!(accepted, "the Rust's verifier has no other verdict");
            assert_eq!(Tape::left(), (0, 0, 0), "the verifier reads all randomness");
            Answer::FINE
        }
        Ok(Err(error)) => failed(job, error, &proof),
        Err(()) => job.refusal(&proof.t, &proof.g),
    }
}

/// The number and the figures of a failed check.
fn failed(job: &Job, error: VerifierError, proof: &LabradorTranscript<Playback>) -> Answer {
    match error {
        VerifierError::NormSumExceeded { norm, allowed, step } => match step.as_str() {
            "vector p norm check" => Answer::over(21, norm, allowed),
            "Step 14 in verification" => Answer::over(23, norm, allowed),
            other => panic!("the Rust's verifier answers otherwise: {other}"),
        },
        VerifierError::B0Mismatch { index, expected, computed } => Answer {
            number: 22,
            index: index as u32,
            // `expected` is the value that was sent
            first: expected.to_u128(),
            second: computed.to_u128(),
            ..Answer::FINE
        },
        VerifierError::AzError { .. } => Answer::failed(24),
        VerifierError::ZInnerError { .. } => Answer::failed(25),
        VerifierError::PhiError { .. } => Answer::failed(26),
        VerifierError::RelationCheckFailed => Answer::failed(27),
        // one error for both commitments: u1 is looked at first
        VerifierError::OuterCommitError { .. } => {
            if job.u1(proof) == proof.u1 {
                Answer::failed(29)
            } else {
                Answer::failed(28)
            }
        }
        other => panic!("the Rust's verifier answers otherwise: {other}"),
    }
}

/// The leaf calls of the Rust on canonical words.
pub mod leaf {
    use super::*;
    use labrador::leaves;

    pub fn zq_add(a: u32, b: u32) -> u32 {
        (Zq::new(a) + Zq::new(b)).get_value()
    }

    pub fn zq_sub(a: u32, b: u32) -> u32 {
        (Zq::new(a) - Zq::new(b)).get_value()
    }

    pub fn zq_mul(a: u32, b: u32) -> u32 {
        (Zq::new(a) * Zq::new(b)).get_value()
    }

    pub fn zq_neg(a: u32) -> u32 {
        (-Zq::new(a)).get_value()
    }

    pub fn zq_centre(a: u32) -> i64 {
        leaves::centre(Zq::new(a)) as i64
    }

    pub fn zq_digits(base: u32, parts: usize, a: u32) -> Vec<u32> {
        let digits = leaves::digits(Zq::new(a), Zq::new(base), parts);
        digits.iter().map(Zq::get_value).collect()
    }

    pub fn rq_add(a: &[u32], b: &[u32]) -> Vec<u32> {
        words(&(&element(a) + &element(b)))
    }

    pub fn rq_sub(a: &[u32], b: &[u32]) -> Vec<u32> {
        words(&(&element(a) - &element(b)))
    }

    pub fn rq_mul(a: &[u32], b: &[u32]) -> Vec<u32> {
        words(&(&element(a) * &element(b)))
    }

    pub fn rq_scale(a: &[u32], c: u32) -> Vec<u32> {
        words(&(&element(a) * &Zq::new(c)))
    }

    pub fn rq_conj(a: &[u32]) -> Vec<u32> {
        words(&element(a).conjugate_automorphism())
    }

    pub fn rq_norm(a: &[u32]) -> u128 {
        element(a).l2_norm_squared()
    }

    /// Row after row.
    pub fn rq_digits(base: u32, parts: usize, a: &[u32]) -> Vec<u32> {
        let rows = element(a).decompose(Zq::new(base), parts);
        rows.iter().flat_map(words).collect()
    }

    /// The challenge, drawn as the prover draws it.
    pub fn challenge(signs: &[u32], shuffles: &[u32]) -> Vec<u32> {
        Tape::new(vec![], signs.to_vec(), shuffles.to_vec()).load();
        let drawn = LabradorTranscript::new(Playback).generate_challenges(71.0, 1);
        assert_eq!(Tape::left(), (0, 0, 0), "no challenge is drawn again");
        words(&drawn.elements()[0])
    }

    /// The entry of a projection word, drawn as the first of a projection of one element.
    pub fn projection_entry(word: u32) -> u32 {
        let mut projection = vec![0; 256 * 64];
        projection[0] = word;
        Tape::new(projection, vec![], vec![]).load();
        let drawn = LabradorTranscript::new(Playback).generate_projections(128, 1, 1);
        drawn.get_projection_matrices()[0].get_cell(0, 0).coeffs()[0].get_value()
    }
}

//! What is timed: for each kernel a series of calls of the proved library and the same series of the published Rust.

use crate::fast;
use crate::loads;
use crate::many;
#[cfg(prime)]
use crate::prime::{self, Against};
use crate::steps;
use harness::instances::{Instance, LOOSE};
use harness::random::Random;
use harness::rust;
use harness::slices::{inputs, lengths, u1_sizes, Operands};
use labrador::ring::rq::Rq;
use labrador::ring::zq::Zq;
use labrador::transcript::sponges::shake::{Playback, Tape};
use labrador::transcript::LabradorTranscript;
use library::ffi::{self, ChallengeWords, Element};
use library::slices::{slice_call, SliceCall};
use model::leaves::Q;
use model::refusals::output_need;
use model::words::{join, Parameters};
use model::Call;
use std::hint::black_box;

pub struct Kernel {
    /// Calls in a series, and rounds of timing.
    pub calls: usize,
    pub rounds: usize,
    pub ours: Box<dyn FnMut()>,
    /// What the Rust's series takes that is not timed.
    pub prepare: Box<dyn FnMut()>,
    pub theirs: Box<dyn FnMut()>,
}

/// Inputs of a series.
const SERIES: usize = 64;

fn elements(random: &mut Random) -> Vec<Element> {
    (0..SERIES).map(|_| Element { coeffs: random.numbers(64).try_into().expect("64 words") }).collect()
}

fn of(element: &Element) -> Rq {
    rust::element(&element.coeffs)
}

fn all(elements: &[Element]) -> Vec<Rq> {
    elements.iter().map(of).collect()
}

fn leaf(ours: impl FnMut() + 'static, theirs: impl FnMut() + 'static) -> Kernel {
    Kernel { calls: SERIES, rounds: 2000, ours: Box::new(ours), prepare: Box::new(|| {}), theirs: Box::new(theirs) }
}

pub fn product(random: &mut Random) -> Kernel {
    let (a, b) = (elements(random), elements(random));
    let (x, y) = (all(&a), all(&b));
    leaf(
        move || {
            for (a, b) in a.iter().zip(&b) {
                black_box(ffi::rq_mul(*black_box(a), *b));
            }
        },
        move || {
            for (a, b) in x.iter().zip(&y) {
                black_box(black_box(a) * b);
            }
        },
    )
}

pub fn multiply_add(random: &mut Random) -> Kernel {
    let a = elements(random);
    let numbers = random.numbers(SERIES);
    let x = all(&a);
    let y: Vec<Zq> = numbers.iter().map(|&c| Zq::new(c)).collect();
    leaf(
        move || {
            let mut sum = Element { coeffs: [0; 64] };
            for (a, c) in a.iter().zip(&numbers) {
                let scaled = ffi::rq_scale(*black_box(a), *c);
                let coeffs = scaled.coeffs;
                sum.coeffs = ffi::rq_add(sum, Element { coeffs }).coeffs;
            }
            black_box(sum);
        },
        move || {
            let mut sum = Rq::zero();
            for (a, c) in x.iter().zip(&y) {
                sum = &sum + &(black_box(a) * c);
            }
            black_box(sum);
        },
    )
}

fn digits(random: &mut Random, base: u32, parts: u32) -> Kernel {
    let a = elements(random);
    let x = all(&a);
    let mut rows = vec![0; 32 * 64];
    leaf(
        move || {
            for a in &a {
                let answer = ffi::rq_digits(base, parts, *black_box(a), &mut rows);
                black_box((answer.number, &rows));
            }
        },
        move || {
            for a in &x {
                black_box(black_box(a).decompose(Zq::new(base), parts as usize));
            }
        },
    )
}

fn challenge(random: &mut Random) -> Kernel {
    let signs: Vec<u32> = (0..41 * SERIES).map(|_| random.word() & 1).collect();
    let shuffles: Vec<u32> = (0..63 * SERIES).map(|_| random.word()).collect();
    let words: Vec<ChallengeWords> = signs
        .chunks(41)
        .zip(shuffles.chunks(63))
        .map(|(signs, shuffles)| ChallengeWords { words: [signs, shuffles].concat().try_into().expect("104 words") })
        .collect();
    let tape = Tape::new(vec![], signs, shuffles);
    let kernel = leaf(
        move || {
            for words in &words {
                black_box(ffi::challenge(*black_box(words)));
            }
        },
        move || {
            let mut transcript = LabradorTranscript::new(Playback);
            for _ in 0..SERIES {
                black_box(transcript.challenge());
            }
        },
    );
    Kernel { prepare: Box::new(move || tape.clone().load()), ..kernel }
}

/// A call of the slice layer, with base 256 where there are digits.
fn slice(random: &mut Random, call: SliceCall, sizes: Vec<usize>) -> Kernel {
    let [first, second] = inputs(random, call, &sizes);
    let operands = Operands::new(call, [&first, &second], &sizes, 256);
    let mut out = vec![0; lengths(call, &sizes).1];
    Kernel {
        calls: 1,
        rounds: 200,
        ours: Box::new(move || {
            let fits = slice_call(call, [black_box(&first), &second], &sizes, 256, &mut out);
            assert!(fits);
            black_box(&out);
        }),
        prepare: Box::new(|| {}),
        theirs: Box::new(move || {
            black_box(black_box(&operands).run());
        }),
    }
}

/// The parameters of the calls on whole slices.
pub fn parameters(n: usize, r: usize) -> Parameters {
    Parameters {
        n,
        r,
        kappa: 4,
        kappa1: 4,
        kappa2: 4,
        ring: 5,
        constant: 5,
        log_q: 32,
        b: 256,
        t1: 4,
        t2: 4,
        aggregations: 4,
        beta_sq: LOOSE,
        beta_prime_sq: LOOSE,
        bounds: [LOOSE; 4],
    }
}

/// Rounds of timing of a whole call: fewer where it takes longer.
pub fn rounds(n: usize, r: usize) -> usize {
    (2000 / (n * r)).clamp(2, 30)
}

/// A call on whole slices, whose answer has a number, against a run of the Rust that is loaded with the randomness.
fn on_slices(
    p: Parameters,
    call: Call,
    instance: &Instance,
    third: Vec<u32>,
    number: u32,
    theirs: Box<dyn FnMut()>,
) -> Kernel {
    let job = instance.job_words();
    let randomness = join(&instance.randomness[..call.randomness_sections()]);
    let loaded = instance.randomness_words();
    let mut scratch = vec![0; p.scratch_need()];
    let mut output = vec![0; output_need(&p, call)];
    Kernel {
        calls: 1,
        rounds: rounds(p.n, p.r),
        ours: Box::new(move || {
            let handed = library::Handed {
                job: &job,
                randomness: &randomness,
                third: black_box(&third),
                scratch: &mut scratch,
                output: &mut output,
            };
            assert_eq!(library::whole(call, handed).number, number);
        }),
        prepare: Box::new(move || rust::load(&loaded)),
        theirs,
    }
}

/// The verifier on a transcript with a word one higher, or under a limit of 0, so that a check fails: the work up to that check.
fn failing(random: &mut Random, number: u32) -> Kernel {
    let (n, r) = (16, 4);
    let mut p = parameters(n, r);
    match number {
        21 => p.beta_sq = 0,
        23 => p.beta_prime_sq = 0,
        _ => {}
    }
    let instance = loads::instance(p, random.word());
    let (job, randomness) = (instance.job_words(), instance.randomness_words());
    let rust_job = rust::Job::new(&job);
    let mut sections = rust::prove(&rust_job, &randomness, &instance.witness_words()).1;
    let place = match number {
        22 => Some((2, 0)),
        24 => Some((4, 0)),
        25 => Some((6, 0)),
        26 => Some((7, 0)),
        27 => Some((2, 1)),
        28 => Some((0, 0)),
        29 => Some((3, 0)),
        _ => None,
    };
    if let Some((section, word)) = place {
        let changed = &mut sections[section][word];
        *changed = (*changed + 1) % Q;
    }
    let transcript = join(&sections);
    let proof = rust::proof(&rust_job, &transcript);
    let theirs = Box::new(move || assert!(rust::run_verifier(&rust_job, black_box(&proof)).is_err()));
    on_slices(p, Call::Verify, &instance, transcript, number, theirs)
}

/// A whole call on a statement that is met. A round is timed against the Rust's whole prover.
pub fn whole(random: &mut Random, call: Call, n: usize, r: usize) -> Kernel {
    with(random, call, parameters(n, r))
}

/// The sizes at which our time is nearest to the Rust's: one element a vector, one row of B, C and D, as many parts as there may be.
fn worst(b: u32) -> Parameters {
    Parameters { b, t1: 32, t2: 32, kappa1: 1, kappa2: 1, ..parameters(1, 16) }
}

/// The same with parameters of any kind.
pub fn with(random: &mut Random, call: Call, p: Parameters) -> Kernel {
    let instance = loads::instance(p, random.word());
    let (job, randomness) = (instance.job_words(), instance.randomness_words());
    let rust_job = rust::Job::new(&job);
    let witness = instance.witness_words();
    let third = match call {
        Call::Verify => join(&rust::prove(&rust_job, &randomness, &witness).1),
        _ => witness,
    };
    let theirs: Box<dyn FnMut()> = match call {
        Call::Verify => {
            let proof = rust::proof(&rust_job, &third);
            Box::new(move || assert!(rust::run_verifier(&rust_job, black_box(&proof)).is_ok()))
        }
        _ => {
            let witness = rust::witness(&rust_job, &third);
            Box::new(move || assert!(rust::run_prover(&rust_job, black_box(&witness)).is_ok()))
        }
    };
    on_slices(p, call, &instance, third, 0, theirs)
}

/// The tests before the work: a call on fit slices that is lent no scratch, so that it is refused once every word of the
/// slices has been judged. Beside it a plain scan of the same words.
fn judged(random: &mut Random) -> Kernel {
    let p = Parameters { ring: 64, constant: 64, ..parameters(16, 4) };
    let instance = loads::instance(p, random.word());
    let slices = [instance.job_words(), instance.randomness_words(), instance.witness_words()];
    let scanned = slices.clone();
    let need = p.scratch_need() as u64;
    Kernel {
        calls: 1,
        rounds: 100,
        ours: Box::new(move || {
            let answer = library::slices::judged([&slices[0], &slices[1], black_box(&slices[2])], 0, 0);
            assert_eq!((answer.number, answer.place), (1, need));
        }),
        prepare: Box::new(|| {}),
        theirs: Box::new(move || {
            let below = black_box(&scanned).iter().map(|words| words.iter().filter(|&&word| word < Q).count());
            black_box(below.sum::<usize>());
        }),
    }
}

/// A kernel's name and how its inputs are made.
pub type Entry = (&'static str, fn(&mut Random) -> Kernel);

/// Every kernel, a row each.
#[rustfmt::skip]
pub const KERNELS: &[Entry] = &[
    ("element product", product),
    ("fast product", fast::product),
    ("fast inner product of 64, nothing in NTT form, a term", fast::nothing_in_ntt_form),
    ("fast inner product of 64, both sides in NTT form, a term", fast::both_in_ntt_form),
    ("product with a number, added to an accumulator", multiply_add),
    ("digits of an element, base 16, 8 parts", |random| digits(random, 16, 8)),
    ("digits of an element, base 65536, 2 parts", |random| digits(random, 65536, 2)),
    ("challenge", challenge),
    ("inner product, n 16", |random| slice(random, SliceCall::InnerProduct, vec![16])),
    ("linear combination of 64 elements with numbers", |random| slice(random, SliceCall::Combination, vec![64])),
    ("p, n 16, r 4", |random| slice(random, SliceCall::Projection, vec![16, 4])),
    ("phi'', n 16, r 4, 5 constraints, 4 rows of psi", |random| slice(random, SliceCall::Phi, vec![4, 16, 5, 4])),
    ("u1, r 4, κ and κ1 4, base 256, 4 parts", |random| slice(random, SliceCall::U1, u1_sizes(4, 4, 4, 4, 4))),
    ("tests before the work, 1.7 million words, against a plain scan", judged),
    ("load, n 64, r 16, K = l = 64, against our prove of it", |_| {
        loads::against_prove(Parameters { ring: 64, constant: 64, ..parameters(64, 16) })
    }),
    ("prove, n 4, r 3", |random| whole(random, Call::Prove, 4, 3)),
    ("verify, n 4, r 3", |random| whole(random, Call::Verify, 4, 3)),
    ("prove, n 16, r 4", |random| whole(random, Call::Prove, 16, 4)),
    ("verify, n 16, r 4", |random| whole(random, Call::Verify, 16, 4)),
    ("prove, n 64, r 16", |random| whole(random, Call::Prove, 64, 16)),
    ("verify, n 64, r 16", |random| whole(random, Call::Verify, 64, 16)),
    ("prove, n 64, r 16, K = l = 64", |random| with(random, Call::Prove, Parameters { ring: 64, constant: 64, ..parameters(64, 16) })),
    ("verify, n 64, r 16, K = l = 64", |random| with(random, Call::Verify, Parameters { ring: 64, constant: 64, ..parameters(64, 16) })),
    ("prove, n 1, r 16, base 65538, 32 parts, κ1 and κ2 1", |random| with(random, Call::Prove, worst(65538))),
    ("verify, n 1, r 16, base 65538, 32 parts, κ1 and κ2 1", |random| with(random, Call::Verify, worst(65538))),
    ("prove, n 1, r 16, base 3, 32 parts, κ1 and κ2 1", |random| with(random, Call::Prove, worst(3))),
    ("verify, n 1, r 16, base 3, 32 parts, κ1 and κ2 1", |random| with(random, Call::Verify, worst(3))),
    ("prove, n 16, r 4, L 7, against our prove with L 8", |_| steps::aggregations(Call::Prove, 7, 8)),
    ("verify, n 16, r 4, L 7, against our verify with L 8", |_| steps::aggregations(Call::Verify, 7, 8)),
    ("prove, n 16, r 4, L 9, against our prove with L 8", |_| steps::aggregations(Call::Prove, 9, 8)),
    ("verify, n 16, r 4, L 9, against our verify with L 8", |_| steps::aggregations(Call::Verify, 9, 8)),
    ("prove, n 16, r 4, L 31, against our prove with L 32", |_| steps::aggregations(Call::Prove, 31, 32)),
    ("verify, n 16, r 4, L 31, against our verify with L 32", |_| steps::aggregations(Call::Verify, 31, 32)),
    ("prove, n 16, r 4, K + L 65, against our prove with K + L 64", |_| steps::constraints(Call::Prove, 61, 60)),
    ("verify, n 16, r 4, K + L 65, against our verify with K + L 64", |_| steps::constraints(Call::Verify, 61, 60)),
    ("verify eight transcripts in one call, n 16, r 4, against our eight calls", |_| many::against_single(parameters(16, 4))),
    ("verify eight transcripts in one call, n 64, r 16, against our eight calls", |_| many::against_single(parameters(64, 16))),
    ("round 1 (u1), n 16, r 4, against the whole prover", |random| whole(random, Call::Round(1), 16, 4)),
    ("round 2 (p), n 16, r 4, against the whole prover", |random| whole(random, Call::Round(2), 16, 4)),
    ("round 3 (b''), n 16, r 4, against the whole prover", |random| whole(random, Call::Round(3), 16, 4)),
    ("round 4 (u2), n 16, r 4, against the whole prover", |random| whole(random, Call::Round(4), 16, 4)),
    ("round 5 (z, t, g, h), n 16, r 4, against the whole prover", |random| whole(random, Call::Round(5), 16, 4)),
    ("verify that fails 21, n 16, r 4", |random| failing(random, 21)),
    ("verify that fails 22, n 16, r 4", |random| failing(random, 22)),
    ("verify that fails 23, n 16, r 4", |random| failing(random, 23)),
    ("verify that fails 24, n 16, r 4", |random| failing(random, 24)),
    ("verify that fails 25, n 16, r 4", |random| failing(random, 25)),
    ("verify that fails 26, n 16, r 4", |random| failing(random, 26)),
    ("verify that fails 27, n 16, r 4", |random| failing(random, 27)),
    ("verify that fails 28, n 16, r 4", |random| failing(random, 28)),
    ("verify that fails 29, n 16, r 4", |random| failing(random, 29)),
    ("prove, n 8, r 4 (growth)", |random| whole(random, Call::Prove, 8, 4)),
    ("verify, n 8, r 4 (growth)", |random| whole(random, Call::Verify, 8, 4)),
    ("prove, n 32, r 4 (growth)", |random| whole(random, Call::Prove, 32, 4)),
    ("verify, n 32, r 4 (growth)", |random| whole(random, Call::Verify, 32, 4)),
    ("prove, n 64, r 4 (growth)", |random| whole(random, Call::Prove, 64, 4)),
    ("verify, n 64, r 4 (growth)", |random| whole(random, Call::Verify, 64, 4)),
    ("prove, n 16, r 2 (growth)", |random| whole(random, Call::Prove, 16, 2)),
    ("verify, n 16, r 2 (growth)", |random| whole(random, Call::Verify, 16, 2)),
    ("prove, n 16, r 8 (growth)", |random| whole(random, Call::Prove, 16, 8)),
    ("verify, n 16, r 8 (growth)", |random| whole(random, Call::Verify, 16, 8)),
    ("prove, n 16, r 16 (growth)", |random| whole(random, Call::Prove, 16, 16)),
    ("verify, n 16, r 16 (growth)", |random| whole(random, Call::Verify, 16, 16)),
    #[cfg(prime)]
    ("over the prime, against 2^32 − 1: element product", |random| prime::element_product(random, Against::Default)),
    #[cfg(prime)]
    ("over the prime, against 2^32 − 1: product with a number, added to an accumulator", |random| prime::accumulated(random, Against::Default)),
    #[cfg(prime)]
    ("over the prime, against 2^32 − 1: round 2 (p), n 16, r 4", |random| prime::whole_call(random, Call::Round(2), 16, 4, Against::Default)),
    #[cfg(prime)]
    ("over the prime, against 2^32 − 1: prove, n 16, r 4", |random| prime::whole_call(random, Call::Prove, 16, 4, Against::Default)),
    #[cfg(prime)]
    ("over the prime, against 2^32 − 1: verify, n 16, r 4", |random| prime::whole_call(random, Call::Verify, 16, 4, Against::Default)),
    #[cfg(prime)]
    ("over the prime, against 2^32 − 1: prove, n 16, r 8", |random| prime::whole_call(random, Call::Prove, 16, 8, Against::Default)),
    #[cfg(prime)]
    ("over the prime, against 2^32 − 1: verify, n 16, r 8", |random| prime::whole_call(random, Call::Verify, 16, 8, Against::Default)),
    #[cfg(prime)]
    ("over the prime, against 2^32 − 1: prove, n 64, r 16", |random| prime::whole_call(random, Call::Prove, 64, 16, Against::Default)),
    #[cfg(prime)]
    ("over the prime, against 2^32 − 1: verify, n 64, r 16", |random| prime::whole_call(random, Call::Verify, 64, 16, Against::Default)),
    #[cfg(prime)]
    ("over the prime, against the Rust: element product", |random| prime::element_product(random, Against::Rust)),
    #[cfg(prime)]
    ("over the prime, against the Rust: prove, n 16, r 4", |random| prime::whole_call(random, Call::Prove, 16, 4, Against::Rust)),
    #[cfg(prime)]
    ("over the prime, against the Rust: verify, n 16, r 4", |random| prime::whole_call(random, Call::Verify, 16, 4, Against::Rust)),
    #[cfg(prime)]
    ("over the prime, against the Rust: prove, n 64, r 16", |random| prime::whole_call(random, Call::Prove, 64, 16, Against::Rust)),
    #[cfg(prime)]
    ("over the prime, against the Rust: verify, n 64, r 16", |random| prime::whole_call(random, Call::Verify, 64, 16, Against::Rust)),
];

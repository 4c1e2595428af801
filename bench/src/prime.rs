//! The build over the prime 4294967197, in one process with the default's and the Rust: its archive's calls have other names here (`bench/run` gives them). The Rust
//! and the default's calls are modulo 2^32 − 1, on loads of the same sizes.

use crate::kernels::{multiply_add, parameters, product, rounds, whole, Kernel};
use crate::loads;
use harness::random::Random;
use library::ffi::{self, Answer, Element, ElementAnswer, LoadNeed, Verdict};
use library::Handed;
use model::refusals::output_need;
use model::words::Parameters;
use model::Call;
use std::hint::black_box;

macro_rules! provers {
    ($($name:ident)*) => {
        extern "C" {
            $(fn $name(
                job: *const u32, job_length: usize,
                randomness: *const u32, randomness_length: usize,
                witness: *const u32, witness_length: usize,
                scratch: *mut u32, scratch_length: usize,
                output: *mut u32, output_length: usize,
            ) -> Answer;)*
        }
    };
}

provers!(prime_labrador_prove prime_labrador_round_2);

extern "C" {
    fn prime_labrador_load_needs(parameters: ffi::Parameters) -> LoadNeed;
    fn prime_labrador_load(
        parameters: ffi::Parameters,
        seed: u32,
        job: *mut u32,
        job_length: usize,
        witness: *mut u32,
        witness_length: usize,
        randomness: *mut u32,
        randomness_length: usize,
    ) -> Answer;
    fn prime_labrador_verify(
        job: *const u32,
        job_length: usize,
        randomness: *const u32,
        randomness_length: usize,
        transcript: *const u32,
        transcript_length: usize,
        scratch: *mut u32,
        scratch_length: usize,
    ) -> Verdict;
    fn prime_labrador_rq_mul(a: Element, b: Element) -> ElementAnswer;
    fn prime_labrador_rq_add(a: Element, b: Element) -> ElementAnswer;
    fn prime_labrador_rq_scale(a: Element, c: u32) -> ElementAnswer;
}

/// What a row's first column stands against.
#[derive(Clone, Copy)]
pub enum Against {
    Default,
    Rust,
}

/// Job, witness and randomness by the prime's call.
fn made(p: &Parameters) -> [Vec<u32>; 3] {
    let words = ffi::Parameters { words: loads::twelve(p) };
    // The calls take any words and buffers of any length.
    let need = unsafe { prime_labrador_load_needs(words) };
    assert_eq!((need.number, need.place), (0, 0));
    let [mut j, mut w, mut r] = [need.job, need.witness, need.randomness].map(|length| vec![0; length as usize]);
    let (a, b, c) = (j.len(), w.len(), r.len());
    let made = unsafe { prime_labrador_load(words, 1, j.as_mut_ptr(), a, w.as_mut_ptr(), b, r.as_mut_ptr(), c) };
    assert_eq!(made.number, 0);
    [j, w, r]
}

/// The answer's number of a call on whole slices.
fn run(call: Call, handed: Handed) -> u32 {
    let Handed { job: j, randomness: r, third: t, scratch: s, output: o } = handed;
    let prover = match call {
        Call::Prove => prime_labrador_prove,
        Call::Round(_) => prime_labrador_round_2,
        Call::Verify => {
            let (jp, rp, tp, sp) = (j.as_ptr(), r.as_ptr(), t.as_ptr(), s.as_mut_ptr());
            return unsafe { prime_labrador_verify(jp, j.len(), rp, r.len(), tp, t.len(), sp, s.len()) }.number;
        }
    };
    let (jp, rp, tp) = (j.as_ptr(), r.as_ptr(), t.as_ptr());
    let (sp, op) = (s.as_mut_ptr(), o.as_mut_ptr());
    unsafe { prover(jp, j.len(), rp, r.len(), tp, t.len(), sp, s.len(), op, o.len()) }.number
}

/// A call of the prime's build on a statement that is met.
fn call_of(p: Parameters, call: Call) -> Box<dyn FnMut()> {
    let [job, witness, mut randomness] = made(&p);
    let mut scratch = vec![0; p.scratch_need()];
    let mut output = vec![0; output_need(&p, Call::Prove)];
    let mut third = witness;
    if call == Call::Verify {
        let (scratch, output) = (&mut scratch[..], &mut output[..]);
        assert_eq!(run(Call::Prove, Handed { job: &job, randomness: &randomness, third: &third, scratch, output }), 0);
        third = output.to_vec();
    }
    if let Call::Round(_) = call {
        randomness.truncate(1 + randomness[0] as usize);
    }
    Box::new(move || {
        let (scratch, output) = (&mut scratch[..], &mut output[..]);
        let third = black_box(&third);
        assert_eq!(run(call, Handed { job: &job, randomness: &randomness, third, scratch, output }), 0);
    })
}

/// The prime's in place of ours, against the Rust's or against ours.
fn in_place(ours: Box<dyn FnMut()>, of: Kernel, against: Against) -> Kernel {
    match against {
        Against::Rust => Kernel { ours, ..of },
        Against::Default => Kernel { ours, prepare: Box::new(|| {}), theirs: of.ours, ..of },
    }
}

pub fn whole_call(random: &mut Random, call: Call, n: usize, r: usize, against: Against) -> Kernel {
    let kernel = in_place(call_of(parameters(n, r), call), whole(random, call, n, r), against);
    // without the Rust's there is time for more rounds
    let more = if let Against::Default = against { 5 } else { 1 };
    Kernel { rounds: more * rounds(n, r), ..kernel }
}

fn elements(random: &mut Random) -> Vec<Element> {
    // far below either modulus, which neither's time depends on
    let element = |random: &mut Random| Element { coeffs: std::array::from_fn(|_| random.word() / 2) };
    (0..64).map(|_| element(random)).collect()
}

pub fn element_product(random: &mut Random, against: Against) -> Kernel {
    let (a, b) = (elements(random), elements(random));
    let ours = move || {
        for (a, b) in a.iter().zip(&b) {
            black_box(unsafe { prime_labrador_rq_mul(*black_box(a), *b) });
        }
    };
    in_place(Box::new(ours), product(random), against)
}

pub fn accumulated(random: &mut Random, against: Against) -> Kernel {
    let a = elements(random);
    let numbers: Vec<u32> = random.numbers(64).iter().map(|n| n / 2).collect();
    let ours = move || {
        let mut sum = Element { coeffs: [0; 64] };
        for (a, c) in a.iter().zip(&numbers) {
            let scaled = unsafe { prime_labrador_rq_scale(*black_box(a), *c) };
            sum.coeffs = unsafe { prime_labrador_rq_add(sum, Element { coeffs: scaled.coeffs }) }.coeffs;
        }
        black_box(sum);
    };
    in_place(Box::new(ours), multiply_add(random), against)
}

//! Loads, and damage that gets each answer of the verifier.

use labrador::section_one::{BOUNDS, PARAMETERS};
use labrador::sections::placed;
use labrador::{load, prove, Parameters, Slice, Q};

/// What is expected over 2^32 - 1, or over the prime.
#[allow(dead_code)]
pub const fn over<T: Copy>(default: T, prime: T) -> T {
    if Q == u32::MAX {
        default
    } else {
        prime
    }
}

/// What is left to a false statement by one transcript of a small job.
#[allow(dead_code)]
pub const ONE: &str = over("1 in 81", "1 in 2^127.1");

/// The things that a small load does not force; over the prime totals and norms by divisors of Q are not among them.
#[allow(dead_code)]
pub const THINGS: u32 = over(10, 8);

/// What is said of the word Q. Where it is below 2^32 - 1 it could be a number modulo that.
#[allow(dead_code)]
pub const NOT_BELOW: &str = over("not below Q", "not below Q; a number of the modulus 4294967295?");

/// What the verifier is handed.
#[derive(Clone)]
pub struct Case {
    pub job: Vec<u32>,
    pub randomness: Vec<u32>,
    pub witness: Vec<u32>,
    pub transcript: Vec<u32>,
}

/// A load with its transcript.
pub fn made(parameters: &Parameters, seed: u32) -> Case {
    let load = load(parameters, seed).expect("fit parameters");
    let transcript = prove(&load.job, &load.randomness, &load.witness).expect("a transcript is made of every load");
    Case { job: load.job, randomness: load.randomness, witness: load.witness, transcript }
}

/// The place of the first word of a section.
pub fn begin(slice: Slice, parameters: &Parameters, name: &str) -> usize {
    let all = placed(slice, parameters);
    let found = all.iter().find(|s| s.section.name == name).expect("a section");
    found.begin() as usize
}

/// Sets a bound of section one.
pub fn set_bound(job: &mut [u32], name: &str, value: u128) {
    let k = BOUNDS.iter().position(|b| b.name == name).expect("a bound");
    let at = 1 + PARAMETERS.len() + 3 * k;
    for (w, word) in job[at..at + 3].iter_mut().enumerate() {
        *word = (value >> (32 * w)) as u32;
    }
}

fn raise(word: &mut u32) {
    *word = if *word == Q - 1 { 0 } else { *word + 1 };
}

/// A small load with damage that gets this answer of the verifier.
#[allow(dead_code)]
pub fn with_answer(number: u32) -> Case {
    let p = Parameters::SMALL;
    let mut case = made(&p, 7);
    let job = |name| begin(Slice::Job, &p, name);
    let sent = |name| begin(Slice::Transcript, &p, name);
    match number {
        21 => set_bound(&mut case.job, "beta_sq", 1),
        22 => raise(&mut case.job[job("b0")]),
        23 => set_bound(&mut case.job, "beta_prime_sq", 1),
        24 => raise(&mut case.transcript[sent("t")]),
        25 => raise(&mut case.transcript[sent("g")]),
        26 => raise(&mut case.transcript[sent("h")]),
        27 => raise(&mut case.job[job("b")]),
        28 => raise(&mut case.transcript[sent("u1")]),
        29 => raise(&mut case.transcript[sent("u2")]),
        14 => set_bound(&mut case.job, "bound_B", 0),
        15 => set_bound(&mut case.job, "bound_C", 0),
        16 => set_bound(&mut case.job, "bound_D", 0),
        3 => case.job.truncate(job("phi'") + 100),
        4 => case.job[1] = 65,
        5 => case.job[12] = 3,
        6 => case.job[job("phi'") + 17] = Q,
        7 => case.randomness.push(0),
        8 => case.randomness[begin(Slice::Randomness, &p, "signs") + 42] = 2,
        9 => case.transcript[0] += 1,
        10 => case.transcript[sent("z") + 65] = Q,
        _ => {}
    }
    case
}

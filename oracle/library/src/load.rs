//! The call that makes a test load.

use crate::ffi::{self, Parameters};
use model::Answer;

pub fn load(words: [u32; 12], seed: u32, buffers: [&mut [u32]; 3]) -> Answer {
    let [job, witness, randomness] = buffers;
    ffi::load(Parameters { words }, seed, job, witness, randomness).into()
}

/// The answer, and the lengths of job, witness and randomness.
pub fn needs(words: [u32; 12]) -> (Answer, [u64; 3]) {
    let a = ffi::load_needs(Parameters { words });
    let answer = Answer { number: a.number, place: a.place, ..Answer::FINE };
    (answer, [a.job, a.witness, a.randomness])
}

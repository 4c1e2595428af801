//! Document 02, Item 1: a test load from the parameters and a seed word; "Item 1's call takes L too" (Item 6), as the twelfth.

use crate::formulas::{left_side, triangle};
use crate::leaves::{dot, sub, Q};
use crate::refusals;
use crate::words::*;
use crate::Answer;

/// The state, which "becomes state·1664525+1013904223 modulo 2^32 before each word".
struct State(u32);

impl State {
    fn next(&mut self) -> u32 {
        self.0 = self.0.wrapping_mul(1664525).wrapping_add(1013904223);
        self.0
    }

    /// "a word equal to Q is written as 0 while the state keeps it"; so is one above Q
    fn words(&mut self, count: usize) -> Vec<u32> {
        (0..count).map(|_| Some(self.next()).filter(|&w| w < Q).unwrap_or(0)).collect()
    }

    /// "sign words take the state's top bit"
    fn signs(&mut self, count: usize) -> Vec<u32> {
        (0..count).map(|_| self.next() >> 31).collect()
    }

    /// "Witness words are the draw modulo 3, less 1."
    fn ternary(&mut self, count: usize) -> Vec<u32> {
        (0..count).map(|_| sub(self.next() % 3, 1)).collect()
    }
}

pub struct Load {
    pub job: Vec<u32>,
    pub witness: Vec<u32>,
    pub randomness: Vec<u32>,
}

/// The parameters of twelve words; "The six bounds are the largest three-word number."
fn parameters(twelve: [u32; 12]) -> Result<Parameters, Answer> {
    refusals::parameters(&[&twelve[..], &[u32::MAX; 18]].concat())
}

fn need(counts: &[usize]) -> usize {
    counts.iter().map(|count| 1 + count).sum()
}

/// The lengths of job, witness and randomness.
pub fn needs(twelve: [u32; 12]) -> Result<[usize; 3], Answer> {
    let p = parameters(twelve)?;
    Ok([need(&p.job_counts()), need(&p.witness_counts()), need(&p.randomness_counts())])
}

/// A load into buffers of these lengths.
pub fn load(twelve: [u32; 12], seed: u32, lengths: [usize; 3]) -> Result<Load, Answer> {
    let p = parameters(twelve)?;
    for (need, length) in needs(twelve)?.into_iter().zip(lengths) {
        if length < need {
            return Err(Answer::refused(2, need));
        }
    }
    let mut state = State(seed);
    let counts = p.job_counts();
    // "Counts and section one aren't drawn."; b0 and b are section 3 and 6
    let mut sections: Vec<Vec<u32>> = vec![p.words()];
    for (k, &count) in counts.iter().enumerate().skip(1) {
        sections.push(if k == 3 || k == 6 { vec![0; count] } else { state.words(count) });
    }
    let witness = join(&[state.ternary(p.witness_counts()[0])]);
    let random: Vec<Vec<u32>> = p
        .randomness_counts()
        .iter()
        .enumerate()
        .map(|(k, &count)| if k == 5 { state.signs(count) } else { state.words(count) })
        .collect();
    let job = Job::read(&join(&sections));
    let s = read_witness(&p, &witness);
    let g = triangle(p.r, |i, j| dot(&s[i], &s[j]));
    sections[3] = job.constant.iter().map(|c| left_side(c, &s, &g)[0]).collect();
    sections[6] = flat(&job.ring.iter().map(|c| left_side(c, &s, &g)).collect::<Vec<_>>());
    Ok(Load { job: join(&sections), witness, randomness: join(&random) })
}

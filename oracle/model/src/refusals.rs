//! Document 01, "Who can cause which refusal": refusals 1 to 12 in their order.

use crate::leaves::{below, Q};
pub use crate::words::Parameters;
use crate::words::PARAMETERS;
use crate::{Answer, Call};

/// Walks sections against their counts: the place of the wrong count or the first surplus word, or the length where
/// the slice ends early.
pub(crate) fn layout(number: u32, words: &[u32], counts: &[usize]) -> Result<(), Answer> {
    let mut at = 0;
    for &count in counts {
        if at >= words.len() {
            return Err(Answer::refused(number, words.len()));
        }
        if words[at] as usize != count {
            return Err(Answer::refused(number, at));
        }
        at += 1 + count;
    }
    match at.cmp(&words.len()) {
        std::cmp::Ordering::Less => Err(Answer::refused(number, at)),
        std::cmp::Ordering::Equal => Ok(()),
        std::cmp::Ordering::Greater => Err(Answer::refused(number, words.len())),
    }
}

pub(crate) fn fine(answer: Answer) -> Result<(), Answer> {
    if answer.is_fine() {
        Ok(())
    } else {
        Err(answer)
    }
}

/// The limits of the parameters, in the order of their words.
pub const LIMITS: [(u32, u32); 12] =
    [(1, 64), (1, 16), (1, 16), (1, 16), (1, 16), (0, 64), (0, 64), (16, 32), (2, Q - 1), (1, 32), (1, 32), (1, 32)];

/// The parameters of section one's words, by 4 and 5.
pub fn parameters(words: &[u32]) -> Result<Parameters, Answer> {
    for (k, (least, greatest)) in LIMITS.iter().enumerate() {
        if !(least..=greatest).contains(&&words[k]) {
            return Err(Answer::refused(4, 1 + k));
        }
        // document 02, Item 4: K and l are not both 0
        if k == 6 && words[5] == 0 && words[6] == 0 {
            return Err(Answer::refused(4, 7));
        }
    }
    let p = Parameters::read(words);
    // document 02, Item 6: "an L below 128 divided by log_q, rounded up […] at L's place"
    if p.aggregations < p.least_aggregations() {
        return Err(Answer::refused(5, 12));
    }
    Ok(p)
}

fn section_one(job: &[u32]) -> Result<Parameters, Answer> {
    let words = &job[..job.len().min(1 + PARAMETERS)];
    layout(3, words, &[PARAMETERS])?;
    parameters(&words[1..])
}

pub fn job(words: &[u32]) -> Result<Parameters, Answer> {
    let p = section_one(words)?;
    layout(3, words, &p.job_counts())?;
    fine(below(Q, 6, 1 + PARAMETERS, &words[1 + PARAMETERS..]))?;
    Ok(p)
}

fn randomness(p: &Parameters, words: &[u32], sections: usize) -> Result<(), Answer> {
    let counts = p.randomness_counts();
    layout(7, words, &counts[..sections])?;
    // sections one to five lie below Q, signs are 0 or 1, shuffle words are free
    let limits = [Q, Q, Q, Q, Q, 2];
    let mut at = 0;
    for (&limit, &count) in limits.iter().zip(&counts[..sections]) {
        fine(below(limit, 8, at + 1, &words[at + 1..at + 1 + count]))?;
        at += 1 + count;
    }
    Ok(())
}

/// What a call is handed: the third slice is the transcript of the verifier, the witness of any other call.
#[derive(Clone, Copy)]
pub struct Handed<'a> {
    pub job: &'a [u32],
    pub randomness: &'a [u32],
    pub third: &'a [u32],
    pub scratch: usize,
    pub output: usize,
}

/// The length of output that a call needs.
pub fn output_need(p: &Parameters, call: Call) -> usize {
    let (first, past) = call.output_sections();
    p.transcript_counts()[first..past].iter().map(|count| 1 + count).sum()
}

/// The parameters of an input that is fit for the work, or its refusal.
pub fn fit(call: Call, handed: Handed) -> Result<Parameters, Answer> {
    let p = job(handed.job)?;
    randomness(&p, handed.randomness, call.randomness_sections())?;
    let (number, counts) = match call {
        Call::Verify => (9, p.transcript_counts()),
        _ => (11, p.witness_counts()),
    };
    layout(number, handed.third, &counts)?;
    fine(below(Q, number + 1, 0, handed.third))?;
    if handed.scratch < p.scratch_need() {
        return Err(Answer::refused(1, p.scratch_need()));
    }
    if handed.output < output_need(&p, call) {
        return Err(Answer::refused(2, output_need(&p, call)));
    }
    Ok(p)
}

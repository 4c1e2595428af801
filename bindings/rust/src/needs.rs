//! The lengths of the buffers that a call needs.

use crate::ffi;
use crate::handed::Handed;
use crate::refusal::Refusal;

/// The words of scratch that a call with this job needs, or the job's refusal.
pub fn scratch_need(job: &[u32]) -> Result<u64, Refusal> {
    need(ffi::scratch_need(job), job)
}

/// The words of output that [`crate::prove_into`] needs with this job, which are the transcript's, or the job's refusal.
pub fn output_need(job: &[u32]) -> Result<u64, Refusal> {
    need(ffi::output_need(job), job)
}

fn need(answer: ffi::Need, job: &[u32]) -> Result<u64, Refusal> {
    let handed = Handed { job, ..Handed::default() };
    match answer.number {
        0 => Ok(answer.words),
        number => Err(handed.refusal(number, answer.place)),
    }
}

/// A buffer of this many words, all zero.
pub(crate) fn buffer(words: u64) -> Vec<u32> {
    vec![0; usize::try_from(words).expect("a need fits the machine")]
}

//! The verifier, with lent scratch and with its own.

use crate::ffi;
use crate::handed::Handed;
use crate::needs::{buffer, scratch_need};
use crate::verdict::{FailedCheck, Verdict};

/// The verdict on a transcript, by [`scratch_need`] words of lent scratch.
pub fn verify_with(job: &[u32], randomness: &[u32], transcript: &[u32], scratch: &mut [u32]) -> Verdict {
    let answer = ffi::verify(job, randomness, transcript, scratch);
    told(&answer, [job, randomness, transcript], scratch.len())
}

/// The verdict of an answer to these slices.
pub(crate) fn told(answer: &ffi::Verdict, [job, randomness, transcript]: [&[u32]; 3], scratch: usize) -> Verdict {
    let handed = Handed { job, randomness, randomness_sections: 7, transcript, scratch, ..Handed::default() };
    match answer.number {
        0 => Verdict::Accepted { cells_left: answer.cells_left },
        number @ 1..=16 => Verdict::Refused(handed.refusal(number, answer.place)),
        _ => Verdict::Failed(failed(answer)),
    }
}

/// The verdict on a transcript.
pub fn verify(job: &[u32], randomness: &[u32], transcript: &[u32]) -> Verdict {
    match scratch_need(job) {
        Ok(words) => verify_with(job, randomness, transcript, &mut buffer(words)),
        Err(refusal) => Verdict::Refused(refusal),
    }
}

fn failed(answer: &ffi::Verdict) -> FailedCheck {
    let first = ffi::joined(answer.first_hi, answer.first_lo);
    let second = ffi::joined(answer.second_hi, answer.second_lo);
    match answer.number {
        21 => FailedCheck::ProjectionNorm { norm: first, limit: second },
        22 => FailedCheck::ConstantTerm { row: answer.index, sent: first, worked_out: second },
        23 => FailedCheck::NormSum { sum: first, limit: second },
        24 => FailedCheck::Az,
        25 => FailedCheck::ZInner,
        26 => FailedCheck::Phi,
        27 => FailedCheck::Relation,
        28 => FailedCheck::FirstCommitment,
        29 => FailedCheck::SecondCommitment,
        _ => unreachable!("the verifier's checks are 21 to 29"),
    }
}

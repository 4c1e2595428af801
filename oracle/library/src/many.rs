//! The call on many transcripts.

use crate::ffi;
use model::many::Many;
use model::Answer;

pub fn verify_many(job: &[u32], count: u32, randomness: &[u32], transcripts: &[u32], scratch: &mut [u32]) -> Many {
    let a = ffi::verify_many(job, count, randomness, transcripts, scratch);
    Many { number: a.number, place: a.place, verdicts: a.verdicts.map(Answer::from) }
}

//! Document 02, Item 11: "up to eight transcripts for one statement. One call takes them with their randomness and gives eight
//! verdicts".

use crate::refusals::{job, Handed};
use crate::{whole, Answer, Call};

/// The number of a verdict past the number of transcripts.
pub const UNUSED: u32 = u32::MAX;

/// What the call answers: eight verdicts where the number is 0, else the refusal of the whole call with zeros. Scratch is zero to
/// the length needed where eight verdicts are given, and is not touched by a refusal.
#[derive(Clone, Copy, Debug, Default, PartialEq, Eq)]
pub struct Many {
    pub number: u32,
    pub place: u64,
    pub verdicts: [Answer; 8],
}

fn refused(answer: Answer) -> Many {
    Many { number: answer.number, place: answer.place, ..Many::default() }
}

/// Part m of a slice whose parts "lie end to end, each of the length that the job fixes": "a slice that ends early cuts short or
/// empties those at its end, surplus words belong to the last".
pub fn part(words: &[u32], length: usize, count: usize, m: usize) -> &[u32] {
    let begin = (m * length).min(words.len());
    let end = if m + 1 == count { words.len() } else { ((m + 1) * length).min(words.len()) };
    &words[begin..end]
}

fn length(counts: &[usize]) -> usize {
    counts.iter().map(|count| 1 + count).sum()
}

/// The call, with the length of the lent scratch.
pub fn verify_many(words: &[u32], count: u32, randomness: &[u32], transcripts: &[u32], scratch: usize) -> Many {
    // "with 35, at place 0, a number of transcripts outside 1 to 8, before any other test"
    if !(1..=8).contains(&count) {
        return refused(Answer::refused(35, 0));
    }
    let count = count as usize;
    let p = match job(words) {
        Ok(p) => p,
        Err(answer) => return refused(answer),
    };
    // "Scratch is the single need times that number"
    let need = count * p.scratch_need();
    if scratch < need {
        return refused(Answer::refused(1, need));
    }
    let each = (length(&p.randomness_counts()), length(&p.transcript_counts()));
    let mut told = Many::default();
    for (m, verdict) in told.verdicts.iter_mut().enumerate() {
        *verdict = if m < count {
            let handed = Handed {
                job: words,
                randomness: part(randomness, each.0, count, m),
                third: part(transcripts, each.1, count, m),
                scratch: p.scratch_need(),
                output: 0,
            };
            whole(Call::Verify, handed).0
        } else {
            Answer { number: UNUSED, ..Answer::FINE }
        };
    }
    told
}

//! Many transcripts for one job, with one reading of it.

use crate::ffi;
use crate::handed::Handed;
use crate::refusal::Refusal;
use crate::section_one::SectionOne;
use crate::sections::Slice;
use crate::verdict::Verdict;
use crate::verifier::told;

use self::group::Group;

mod any;
mod group;
mod threads;

pub use any::{verify_all, verify_each};

/// So many transcripts are the most of one call.
const MOST: usize = 8;

/// A transcript with its randomness.
#[derive(Clone, Copy, Debug)]
pub struct Sent<'a> {
    pub randomness: &'a [u32],
    pub transcript: &'a [u32],
}

impl Sent<'_> {
    /// Appends its words to others; it never fails.
    fn append<E>(&self, randomness: &mut Vec<u32>, transcript: &mut Vec<u32>) -> Result<(), E> {
        randomness.extend_from_slice(self.randomness);
        transcript.extend_from_slice(self.transcript);
        Ok(())
    }
}

/// Part `m` of `count` parts that lie end to end, each of this length: what ends early cuts short or empties those at its end,
/// and surplus words belong to the last.
fn part(words: &[u32], length: u64, count: u32, m: usize) -> &[u32] {
    let length = usize::try_from(length).unwrap_or(usize::MAX);
    let begin = m.saturating_mul(length).min(words.len());
    let is_last = m + 1 == count as usize;
    let end = if is_last { words.len() } else { begin.saturating_add(length).min(words.len()) };
    &words[begin..end]
}

/// The verdicts on `count` transcripts, which lie end to end, as their randomness does, each of the length that the job fixes, by
/// `count` times [`scratch_need`] words of lent scratch. Refused as a whole with 35 for a count outside 1 to 8, then by the job's
/// refusals, then by 1.
pub fn verify_many_with(
    job: &[u32],
    count: u32,
    randomness: &[u32],
    transcripts: &[u32],
    scratch: &mut [u32],
) -> Result<Vec<Verdict>, Refusal> {
    let answer = ffi::verify_many(job, count, randomness, transcripts, scratch);
    match answer.number {
        0 => {}
        35 => return Err(Refusal::TranscriptCount { count: count.into() }),
        number => {
            let handed = Handed { job, scratch: scratch.len(), ..Handed::default() };
            return Err(handed.refusal(number, answer.place));
        }
    }
    let p = SectionOne::read(job).expect("the job is fit").parameters;
    let lengths = [Slice::Randomness, Slice::Transcript].map(|slice| slice.length(&p));
    let verdict = |m: usize| {
        let slices = [job, part(randomness, lengths[0], count, m), part(transcripts, lengths[1], count, m)];
        told(&answer.verdicts[m], slices, scratch.len())
    };
    Ok((0..count as usize).map(verdict).collect())
}

/// The verdicts on one to eight transcripts with their randomness, each that of [`verify`](crate::verify). What accepted ones are worth
/// together: [`Worth::drawn`](crate::worth::Worth::drawn), for as many as [`repeats`](crate::worth::repeats) leaves. Those whose slices have the
/// length that the job fixes are judged in one call, which reads the job and its matrices once for all; the others by
/// themselves, so that none is moved by another's length.
///
/// ```
/// use labrador::{load, prove, verify_many, Parameters, Sent};
///
/// let desk = load(&Parameters::SMALL, 1)?;
/// let other = load(&Parameters::SMALL, 2)?.randomness;
/// let [one, two] = [&desk.randomness, &other].map(|drawn| prove(&desk.job, drawn, &desk.witness));
/// let (one, mut two) = (one?, two?);
/// two[1] ^= 1;
/// let sent = [(&desk.randomness, &one), (&other, &two)].map(|(randomness, transcript)| Sent { randomness, transcript });
/// let verdicts = verify_many(&desk.job, &sent)?;
/// assert_eq!(verdicts.iter().map(|verdict| verdict.number()).collect::<Vec<_>>(), [0, 28]);
/// # Ok::<(), labrador::Refusal>(())
/// ```
pub fn verify_many(job: &[u32], sent: &[Sent<'_>]) -> Result<Vec<Verdict>, Refusal> {
    if !(1..=MOST).contains(&sent.len()) {
        return Err(Refusal::TranscriptCount { count: sent.len() as u64 });
    }
    let mut group = Group::new(job, sent.len())?;
    for one in sent {
        group.add(|randomness, transcript| one.append(randomness, transcript))?;
    }
    group.verdicts()
}

//! A group of transcripts that one call judges.

use crate::needs::{buffer, scratch_need};
use crate::refusal::Refusal;
use crate::section_one::SectionOne;
use crate::sections::Slice;
use crate::verdict::Verdict;
use crate::verifier::verify;

use super::{verify_many_with, Sent};

/// Transcripts of one job as a call takes them: end to end, and so their randomness. One whose slices have another length than the job
/// fixes is kept apart.
pub(super) struct Group<'a> {
    job: &'a [u32],
    scratch: u64,
    /// The length of a randomness, and of a transcript.
    lengths: [usize; 2],
    randomness: Vec<u32>,
    transcripts: Vec<u32>,
    /// Of each transcript its slices, where they are kept apart.
    apart: Vec<Option<[Vec<u32>; 2]>>,
}

impl Group<'_> {
    /// A group with room for so many.
    pub fn new(job: &[u32], room: usize) -> Result<Group<'_>, Refusal> {
        let scratch = scratch_need(job)?;
        let p = SectionOne::read(job).expect("the job is fit").parameters;
        let lengths = [Slice::Randomness, Slice::Transcript].map(|slice| slice.length(&p) as usize);
        let mut group =
            Group { job, scratch, lengths, randomness: Vec::new(), transcripts: Vec::new(), apart: Vec::new() };
        // where there is no memory for all, it is asked for again as they are added
        let _ = group.randomness.try_reserve_exact(room * lengths[0]);
        let _ = group.transcripts.try_reserve_exact(room * lengths[1]);
        Ok(group)
    }

    /// Adds what `read` appends to the randomness and to the transcripts; nothing where it fails.
    pub fn add<E>(&mut self, read: impl FnOnce(&mut Vec<u32>, &mut Vec<u32>) -> Result<(), E>) -> Result<(), E> {
        let begin = [self.randomness.len(), self.transcripts.len()];
        let done = read(&mut self.randomness, &mut self.transcripts);
        let end = [self.randomness.len(), self.transcripts.len()];
        if done.is_ok() && [0, 1].map(|k| end[k] - begin[k]) == self.lengths {
            self.apart.push(None);
            return done;
        }
        let words = [self.randomness.split_off(begin[0]), self.transcripts.split_off(begin[1])];
        if done.is_ok() {
            self.apart.push(Some(words));
        }
        done
    }

    /// The slices of transcript `m`.
    pub fn sent(&self, m: usize) -> Sent<'_> {
        if let Some([randomness, transcript]) = &self.apart[m] {
            return Sent { randomness, transcript };
        }
        let k = self.apart[..m].iter().filter(|apart| apart.is_none()).count();
        let [randomness, transcript] = self.lengths.map(|length| k * length..(k + 1) * length);
        Sent { randomness: &self.randomness[randomness], transcript: &self.transcripts[transcript] }
    }

    /// The verdicts, by one call on those of the right length.
    pub fn verdicts(&self) -> Result<Vec<Verdict>, Refusal> {
        let whole = self.apart.iter().filter(|apart| apart.is_none()).count();
        let mut judged = Vec::new();
        if whole > 0 {
            let mut scratch = buffer(self.scratch * whole as u64);
            judged = verify_many_with(self.job, whole as u32, &self.randomness, &self.transcripts, &mut scratch)?;
        }
        let mut judged = judged.into_iter();
        let verdict = |apart: &Option<[Vec<u32>; 2]>| match apart {
            None => judged.next().expect("a verdict of the call"),
            Some([randomness, transcript]) => verify(self.job, randomness, transcript),
        };
        Ok(self.apart.iter().map(verdict).collect())
    }
}

//! The prover's five rounds, with lent buffers and with their own.

use crate::needs::{buffer, scratch_need};
use crate::prover::call_prover;
use crate::refusal::Refusal;
use crate::section_one::SectionOne;
use crate::sections::{placed, Slice};

/// A round of the prover. Their outputs, joined, are the transcript.
#[derive(Clone, Copy, Debug, PartialEq, Eq)]
pub enum Round {
    /// Makes u1.
    One,
    /// Makes p.
    Two,
    /// Makes b''.
    Three,
    /// Makes u2.
    Four,
    /// Makes z, t, g and h.
    Five,
}

impl Round {
    pub const ALL: [Round; 5] = [Round::One, Round::Two, Round::Three, Round::Four, Round::Five];

    /// 1 to 5.
    pub fn number(self) -> usize {
        self as usize + 1
    }

    /// The round of a number from 1 to 5.
    pub fn numbered(number: u32) -> Option<Round> {
        Round::ALL.into_iter().find(|round| round.number() as u64 == number.into())
    }

    /// How many sections of the randomness it takes: 0, 1, 3, 5 or 7.
    pub fn randomness_sections(self) -> usize {
        [0, 1, 3, 5, 7][self as usize]
    }

    /// The sections of the transcript that it makes, as the first and the one past the last.
    fn made(self) -> (usize, usize) {
        [(0, 1), (1, 2), (2, 3), (3, 4), (4, 8)][self as usize]
    }

    /// The names of the sections that it makes.
    pub fn makes(self) -> &'static str {
        ["u1", "p", "b''", "u2", "z, t, g, h"][self as usize]
    }

    /// The part of a whole randomness that it takes: all of it where a count passes the end.
    pub fn randomness(self, whole: &[u32]) -> &[u32] {
        let mut end = 0usize;
        for _ in 0..self.randomness_sections() {
            let count = whole.get(end).map_or(0, |&count| count as usize);
            end = end.saturating_add(1).saturating_add(count);
        }
        &whole[..end.min(whole.len())]
    }

    /// The round's refusal of a job, or of a randomness that should end after the round's sections, before any witness is looked at.
    ///
    /// ```
    /// use labrador::{load, Parameters, Round};
    ///
    /// let load = load(&Parameters::SMALL, 1)?;
    /// let two = Round::Two.randomness(&load.randomness);
    /// assert_eq!(Round::Two.admits(&load.job, two), Ok(()));
    /// let refusal = Round::Three.admits(&load.job, two).unwrap_err();
    /// assert_eq!(refusal.to_string(), "refusal 7: the randomness ends after 196609 words, before the count of section psi");
    /// # Ok::<(), labrador::Refusal>(())
    /// ```
    pub fn admits(self, job: &[u32], randomness: &[u32]) -> Result<(), Refusal> {
        // without a witness the call goes as far as its refusal, 11
        match round_into(self, job, randomness, &[], &mut [], &mut []) {
            Err(refusal) if (3..=8).contains(&refusal.number()) => Err(refusal),
            _ => Ok(()),
        }
    }

    /// The words of output that it needs with this job, or the job's refusal.
    pub fn output_need(self, job: &[u32]) -> Result<u64, Refusal> {
        scratch_need(job)?;
        let one = SectionOne::read(job).expect("the job is fit");
        let sections = placed(Slice::Transcript, &one.parameters);
        let (first, end) = self.made();
        Ok(sections[first..end].iter().map(|s| s.end() - s.count_at).sum())
    }
}

/// A round's part of the transcript into the first words of `output`. `randomness` ends after the round's sections.
pub fn round_into(
    round: Round,
    job: &[u32],
    randomness: &[u32],
    witness: &[u32],
    scratch: &mut [u32],
    output: &mut [u32],
) -> Result<(), Refusal> {
    let slices = [job, randomness, witness];
    call_prover(round.number(), round.randomness_sections(), slices, scratch, output)
}

/// A round's part of the transcript. `randomness` ends after the round's sections.
///
/// ```
/// use labrador::{load, prove, round, Parameters, Round};
///
/// let load = load(&Parameters::SMALL, 1)?;
/// let mut joined = Vec::new();
/// for r in Round::ALL {
///     joined.extend(round(r, &load.job, r.randomness(&load.randomness), &load.witness)?);
/// }
/// assert_eq!(joined, prove(&load.job, &load.randomness, &load.witness)?);
/// # Ok::<(), labrador::Refusal>(())
/// ```
pub fn round(round: Round, job: &[u32], randomness: &[u32], witness: &[u32]) -> Result<Vec<u32>, Refusal> {
    let mut scratch = buffer(scratch_need(job)?);
    let mut output = buffer(round.output_need(job)?);
    round_into(round, job, randomness, witness, &mut scratch, &mut output)?;
    Ok(output)
}

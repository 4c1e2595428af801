//! Which constant was mistyped: the entries of b0 that alone would mend a failed check 22.

use crate::ffi;
use crate::handed::Handed;
use crate::needs::{buffer, scratch_need};
use crate::number::Zq;
use crate::refusal::Refusal;
use crate::section_one::SectionOne;

/// Adding `number` to entry `index` of b0 alone would let check 22 pass, and no number of smaller centred size would.
#[derive(Clone, Copy, Debug, PartialEq, Eq)]
pub struct Mistyped {
    pub index: u32,
    pub number: Zq,
}

/// The list into the first 2·l words of a lent one, by [`scratch_need`] words of lent scratch; gives the number of entries,
/// each of which is its index and then its number, in the order of [`mistyped`].
pub fn mistyped_into(
    job: &[u32],
    randomness: &[u32],
    transcript: &[u32],
    scratch: &mut [u32],
    list: &mut [u32],
) -> Result<u64, Refusal> {
    let answer = ffi::mistyped(job, randomness, transcript, scratch, list);
    let handed =
        Handed { job, randomness, randomness_sections: 7, transcript, scratch: scratch.len(), ..Handed::default() };
    match answer.number {
        0 => Ok(answer.entries),
        2 => Err(Refusal::Output { buffer: "list", needed: answer.place, lent: list.len() as u64 }),
        32 => Err(Refusal::NotCheck22),
        33 => Err(Refusal::NothingMends),
        number => Err(handed.refusal(number, answer.place)),
    }
}

/// The list after a failed check 22. The smallest centred size comes first; of equal sizes negative numbers first, since an
/// overstated total is the usual slip, then lower indexes.
///
/// ```
/// use labrador::{load, mistyped, prove, verify, Mistyped, Parameters, Slice, Zq, Q};
///
/// let p = Parameters::SMALL;
/// let mut load = load(&p, 2026)?;
/// let transcript = prove(&load.job, &load.randomness, &load.witness)?;
/// let b0 = labrador::sections::placed(Slice::Job, &p).iter().find(|s| s.section.name == "b0").unwrap().begin();
/// let word = &mut load.job[b0 as usize + 1];
/// *word = (*word + 5) % Q;
/// let found = mistyped(&load.job, &load.randomness, &transcript)?;
/// assert_eq!(found, [Mistyped { index: 1, number: Zq(Q - 5) }]);
/// # Ok::<(), labrador::Refusal>(())
/// ```
pub fn mistyped(job: &[u32], randomness: &[u32], transcript: &[u32]) -> Result<Vec<Mistyped>, Refusal> {
    let mut scratch = buffer(scratch_need(job)?);
    let constants = SectionOne::read(job).expect("the job is fit").parameters.l;
    let mut list = buffer(2 * u64::from(constants));
    let entries = mistyped_into(job, randomness, transcript, &mut scratch, &mut list)?;
    let entry = |words: &[u32]| Mistyped { index: words[0], number: Zq(words[1]) };
    Ok(list.chunks_exact(2).take(entries as usize).map(entry).collect())
}

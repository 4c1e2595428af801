//! A test load that anyone can repeat: a job, a witness that meets it and randomness, from parameters and a seed.

use crate::ffi;
use crate::handed::Handed;
use crate::refusal::Refusal;
use crate::section_one::{Parameters, BOUNDS, COUNT};

/// A test load.
#[derive(Clone, Debug, PartialEq, Eq)]
pub struct Load {
    pub job: Vec<u32>,
    pub witness: Vec<u32>,
    pub randomness: Vec<u32>,
}

/// The lengths of a load in words.
#[derive(Clone, Copy, Debug, PartialEq, Eq)]
pub struct LoadNeeds {
    pub job: u64,
    pub witness: u64,
    pub randomness: u64,
}

fn raw(parameters: &Parameters) -> ffi::Parameters {
    ffi::Parameters { words: parameters.words() }
}

/// 4 and 5 are of the parameters, at section one's places.
fn refusal(parameters: &Parameters, number: u32, place: u64) -> Refusal {
    let bounds = [u32::MAX; 3 * BOUNDS.len()];
    let section_one = [&[COUNT as u32], &parameters.words()[..], &bounds[..]].concat();
    let handed = Handed { job: &section_one, ..Handed::default() };
    handed.refusal(number, place)
}

/// The lengths that [`load_into`] needs, or the refusal of the parameters.
pub fn load_needs(parameters: &Parameters) -> Result<LoadNeeds, Refusal> {
    let needs = ffi::load_needs(raw(parameters));
    match needs.number {
        0 => Ok(LoadNeeds { job: needs.job, witness: needs.witness, randomness: needs.randomness }),
        number => Err(refusal(parameters, number, needs.place)),
    }
}

/// A load into the first words of lent buffers. A refusal touches nothing, and words beyond the needs stay.
pub fn load_into(
    parameters: &Parameters,
    seed: u32,
    job: &mut [u32],
    witness: &mut [u32],
    randomness: &mut [u32],
) -> Result<(), Refusal> {
    let answer = ffi::load(raw(parameters), seed, job, witness, randomness);
    match answer.number {
        0 => Ok(()),
        2 => {
            let needs = load_needs(parameters)?;
            let short = [
                ("job", needs.job, job.len()),
                ("witness", needs.witness, witness.len()),
                ("randomness", needs.randomness, randomness.len()),
            ];
            let first = short.into_iter().find(|(_, needed, lent)| (*lent as u64) < *needed);
            let (buffer, _, lent) = first.expect("a buffer is too short");
            Err(Refusal::Output { buffer, needed: answer.place, lent: lent as u64 })
        }
        number => Err(refusal(parameters, number, answer.place)),
    }
}

/// A load. The prover makes a transcript of every load, and the verifier accepts it: that is proved.
///
/// ```
/// use labrador::{load, Parameters};
///
/// let refusal = load(&Parameters { n: 65, ..Parameters::SMALL }, 1).unwrap_err();
/// assert_eq!(refusal.to_string(), "refusal 4: the job's word 1 is 65: n is from 1 to 64");
/// ```
pub fn load(parameters: &Parameters, seed: u32) -> Result<Load, Refusal> {
    let needs = load_needs(parameters)?;
    let buffer = |words: u64| vec![0; usize::try_from(words).expect("a need fits the machine")];
    let mut load =
        Load { job: buffer(needs.job), witness: buffer(needs.witness), randomness: buffer(needs.randomness) };
    load_into(parameters, seed, &mut load.job, &mut load.witness, &mut load.randomness)?;
    Ok(load)
}

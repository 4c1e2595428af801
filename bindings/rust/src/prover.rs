//! The prover, with lent buffers and with its own.

use crate::ffi;
use crate::handed::Handed;
use crate::needs::{buffer, output_need, scratch_need};
use crate::refusal::Refusal;

/// The transcript into the first words of `output`, by [`scratch_need`] and [`output_need`] words of lent buffers.
/// Scratch is zero to its need after the work; words beyond the needs stay.
pub fn prove_into(
    job: &[u32],
    randomness: &[u32],
    witness: &[u32],
    scratch: &mut [u32],
    output: &mut [u32],
) -> Result<(), Refusal> {
    call_prover(0, 7, [job, randomness, witness], scratch, output)
}

/// The transcript.
///
/// ```
/// use labrador::{load, prove, verify, Parameters, Verdict};
///
/// let load = load(&Parameters::SMALL, 1)?;
/// let transcript = prove(&load.job, &load.randomness, &load.witness)?;
/// let verdict = verify(&load.job, &load.randomness, &transcript);
/// assert!(matches!(verdict, Verdict::Accepted { .. }));
/// # Ok::<(), labrador::Refusal>(())
/// ```
pub fn prove(job: &[u32], randomness: &[u32], witness: &[u32]) -> Result<Vec<u32>, Refusal> {
    let mut scratch = buffer(scratch_need(job)?);
    let mut output = buffer(output_need(job)?);
    prove_into(job, randomness, witness, &mut scratch, &mut output)?;
    Ok(output)
}

/// The whole call (round 0) or a round, which takes so many sections of the randomness.
pub(crate) fn call_prover(
    round: usize,
    randomness_sections: usize,
    [job, randomness, witness]: [&[u32]; 3],
    scratch: &mut [u32],
    output: &mut [u32],
) -> Result<(), Refusal> {
    let answer = ffi::prove(round, job, randomness, witness, scratch, output);
    let handed = Handed {
        job,
        randomness,
        randomness_sections,
        witness,
        run: None,
        transcript: &[],
        scratch: scratch.len(),
        output: output.len(),
    };
    match answer.number {
        0 => Ok(()),
        number => Err(handed.refusal(number, answer.place)),
    }
}

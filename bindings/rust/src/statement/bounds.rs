//! Bounds that fit: what honest transcripts of a statement and a stock need.

use super::{Seed, Statement, Stock, GREATEST_BOUND};
use crate::norms::{norm_of, norms};
use crate::prover::prove;
use crate::refusal::Refusal;
use crate::section_one::{SectionOne, BOUNDS};
use crate::sha256::sha256;
use crate::verdict::Verdict;
use crate::verifier::verify;

/// What so many sessions need.
#[derive(Clone, Debug, PartialEq, Eq)]
pub struct Fit {
    /// The most that a session needs, in the order of [`BOUNDS`].
    pub most: [u128; BOUNDS.len()],
    /// The most, with the slack on top.
    pub bounds: [u128; BOUNDS.len()],
    /// The verdict on each session's transcript under these bounds.
    pub verdicts: Vec<Verdict>,
}

/// The seed of a session's randomness, which anyone can draw again.
fn session_seed(statement: &Statement, session: u32) -> Seed {
    let name = b"labrador bounds, session ";
    Seed(sha256(&[&name[..], &session.to_le_bytes(), &statement.seed().0].concat()))
}

/// The bounds that a transcript needs, beside the greatest norm of a witness vector.
fn needed(one: &SectionOne, transcript: &[u32], greatest_vector: u128) -> Result<[u128; BOUNDS.len()], Refusal> {
    let [p, sum, t, g, h] = norms(one, transcript)?.map(|norm| norm.norm);
    Ok([p.div_ceil(128), sum, greatest_vector, t, g, h])
}

/// A number with so many hundredths of it on top, rounded up.
fn with_slack(most: u128, percent: u32) -> u128 {
    let slack = most.checked_mul(percent.into()).map_or(GREATEST_BOUND, |product| product.div_ceil(100));
    most.saturating_add(slack).min(GREATEST_BOUND)
}

/// The randomness of so many sessions, one after the other.
pub fn sessions(statement: &Statement, count: u32) -> impl Iterator<Item = Vec<u32>> + '_ {
    (0..count).map(|session| session_seed(statement, session).randomness(statement.parameters()))
}

/// The bounds that `count` honest transcripts need, with `percent` of slack, and what those transcripts get under them. The bounds of
/// the statement are not read.
pub fn fit(statement: &Statement, stock: &Stock, percent: u32, count: u32) -> Result<Fit, Refusal> {
    let free = statement.with_bounds([GREATEST_BOUND; BOUNDS.len()]);
    let (job, witness) = (free.job(), stock.witness());
    let one = SectionOne::read(&job).expect("the job of a statement is fit");
    let vectors = witness[1..].chunks_exact(64 * one.parameters.n as usize).map(norm_of);
    let greatest_vector = vectors.collect::<Result<Vec<_>, Refusal>>()?.into_iter().max().unwrap_or(0);
    let mut most = [0; BOUNDS.len()];
    let mut transcripts = Vec::new();
    for randomness in sessions(statement, count) {
        let transcript = prove(&job, &randomness, &witness)?;
        let needed = needed(&one, &transcript, greatest_vector)?;
        most.iter_mut().zip(needed).for_each(|(most, needed)| *most = needed.max(*most));
        transcripts.push(transcript);
    }
    let bounds = most.map(|most| with_slack(most, percent));
    let job = statement.with_bounds(bounds).job();
    // drawn again, since the randomness of all sessions together is large
    let each = sessions(statement, count).zip(&transcripts);
    let verdicts = each.map(|(randomness, transcript)| verify(&job, &randomness, transcript)).collect();
    Ok(Fit { most, bounds, verdicts })
}

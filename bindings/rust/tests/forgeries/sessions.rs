//! A session: the one who proves sends, and the desk draws when the message is there.

use labrador::{round, Parameters, Round, Slice};

use crate::words::Words;

/// One who proves.
pub trait Prover {
    /// A round's part of the transcript, each section after its count. `drawn` is the randomness drawn up to this round: what is drawn
    /// later does not exist yet.
    fn send(&mut self, round: Round, drawn: &[u32]) -> Vec<u32>;
}

/// What the verifier is handed beside the job.
#[derive(Default)]
pub struct Session {
    pub randomness: Vec<u32>,
    pub transcript: Vec<u32>,
}

/// A session with honest randomness.
pub fn session(p: &Parameters, desk: &mut Words, prover: &mut impl Prover) -> Session {
    let mut session = Session::default();
    let mut sections_drawn = 0;
    for round in Round::ALL {
        draw(p, sections_drawn..round.randomness_sections(), desk, &mut session.randomness);
        sections_drawn = round.randomness_sections();
        session.transcript.extend(prover.send(round, &session.randomness));
    }
    session
}

/// Sections of randomness, each after its count.
fn draw(p: &Parameters, sections: std::ops::Range<usize>, desk: &mut Words, randomness: &mut Vec<u32>) {
    for section in &Slice::Randomness.sections(p)[sections] {
        randomness.push(section.count() as u32);
        let word = |_| match section.name {
            "signs" => desk.bit(),
            "shuffle" => desk.free(),
            _ => desk.number(),
        };
        randomness.extend((0..section.count()).map(word));
    }
}

/// The whole randomness of a session.
pub fn drawn(p: &Parameters, desk: &mut Words) -> Vec<u32> {
    let mut randomness = Vec::new();
    draw(p, 0..Round::Five.randomness_sections(), desk, &mut randomness);
    randomness
}

/// A round of the library's prover.
pub fn honest(of: Round, job: &[u32], drawn: &[u32], witness: &[u32]) -> Vec<u32> {
    round(of, job, drawn, witness).expect("no bound is in the way")
}

/// What round 5 makes with all-zero challenge words, which are known before the challenges are drawn: t, g and h of it
/// are those of any challenges.
pub fn before_the_challenges(p: &Parameters, job: &[u32], drawn: &[u32], witness: &[u32]) -> Vec<u32> {
    let mut randomness = drawn.to_vec();
    for section in &Slice::Randomness.sections(p)[Round::Four.randomness_sections()..] {
        randomness.push(section.count() as u32);
        randomness.extend((0..section.count()).map(|_| 0));
    }
    honest(Round::Five, job, &randomness, witness)
}

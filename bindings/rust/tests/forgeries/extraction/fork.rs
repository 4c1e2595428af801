//! A fork at the challenges: transcripts of one statement whose randomness is equal up to them.

use labrador::sections::words_of;
use labrador::{verify, Element, Parameters, Round, Slice, Verdict};

use super::values::Pick::{self, C, X, Y};
use super::values::{Challenge, Values};
use crate::ring::{section, to_elements};
use crate::sessions::{self, honest, Prover, Session};
use crate::statement::Statement;
use crate::words::Words;

/// The library's prover.
pub struct Honest<'a>(pub &'a Statement);

impl Prover for Honest<'_> {
    fn send(&mut self, round: Round, drawn: &[u32]) -> Vec<u32> {
        honest(round, &self.0.job, drawn, &self.0.witness_slice())
    }
}

/// The randomness up to the challenges.
pub fn before(p: &Parameters, desk: &mut Words) -> Vec<u32> {
    Round::Four.randomness(&sessions::drawn(p, desk)).to_vec()
}

pub struct Fork {
    parameters: Parameters,
    /// The randomness up to the challenges.
    pub drawn: Vec<u32>,
    /// Those of each challenge.
    pub values: Vec<Values>,
    branches: Vec<(Vec<Pick>, Session)>,
}

/// c; c with c_i → x_i and c with c_i → y_i for each i; c with c_i → x_i and c_j → x_j for each i < j.
fn picks(r: usize) -> Vec<Vec<Pick>> {
    let of_one = (0..r).flat_map(|i| [changed(r, &[(i, X)]), changed(r, &[(i, Y)])]);
    let of_two = (0..r).flat_map(|j| (0..j).map(move |i| changed(r, &[(i, X), (j, X)])));
    let all: Vec<Vec<Pick>> = [vec![C; r]].into_iter().chain(of_one).chain(of_two).collect();
    assert_eq!(all.len(), (r + 1) * (r + 2) / 2);
    all
}

fn changed(r: usize, changes: &[(usize, Pick)]) -> Vec<Pick> {
    let mut picks = vec![C; r];
    changes.iter().for_each(|&(i, pick)| picks[i] = pick);
    picks
}

impl Fork {
    /// The first four rounds once, the last one with each choice of challenges.
    pub fn new(p: &Parameters, prover: &mut impl Prover, drawn: &[u32], values: &[Values]) -> Fork {
        let first = &Round::ALL[..4];
        let begun: Vec<u32> = first.iter().flat_map(|round| prover.send(*round, round.randomness(drawn))).collect();
        let mut branch = |picks: Vec<Pick>| {
            let chosen: Vec<&Challenge> = values.iter().zip(&picks).map(|(values, pick)| values.at(*pick)).collect();
            let signs: Vec<u32> = chosen.iter().flat_map(|c| c.signs.clone()).collect();
            let shuffle: Vec<u32> = chosen.iter().flat_map(|c| c.shuffle.clone()).collect();
            let randomness = [drawn, &section(&signs), &section(&shuffle)].concat();
            let transcript = [&begun[..], &prover.send(Round::Five, &randomness)].concat();
            (picks, Session { randomness, transcript })
        };
        let branches = picks(values.len()).into_iter().map(&mut branch).collect();
        Fork { parameters: *p, drawn: drawn.to_vec(), values: values.to_vec(), branches }
    }

    /// The verdicts: that of c, of c_1 → x_1, of c_1 → y_1, of c_2 → x_2 and so on, then those of two changes.
    pub fn verdicts(&self, job: &[u32]) -> Vec<Verdict> {
        self.branches.iter().map(|(_, session)| verify(job, &session.randomness, &session.transcript)).collect()
    }

    /// The challenges of each transcript, in the order of the verdicts.
    pub fn challenges(&self) -> Vec<Vec<Element>> {
        let of =
            |picks: &[Pick]| self.values.iter().zip(picks).map(|(values, pick)| values.at(*pick).element).collect();
        self.branches.iter().map(|(picks, _)| of(picks)).collect()
    }

    fn words_of(&self, name: &str, session: &Session) -> Vec<u32> {
        words_of(Slice::Transcript, &self.parameters, name, &session.transcript).to_vec()
    }

    /// A section that is equal in all transcripts.
    pub fn sent(&self, name: &str) -> Vec<u32> {
        let sent = self.words_of(name, &self.branches[0].1);
        assert!(self.branches.iter().all(|(_, session)| self.words_of(name, session) == sent), "{name}");
        sent
    }

    pub fn each_z(&self) -> impl Iterator<Item = Vec<Element>> + '_ {
        self.branches.iter().map(|(_, session)| to_elements(&self.words_of("z", session)))
    }

    /// z of the transcript whose challenges are c with these changes.
    pub fn z(&self, changes: &[(usize, Pick)]) -> Vec<Element> {
        let wanted = changed(self.values.len(), changes);
        let at = self.branches.iter().position(|(picks, _)| *picks == wanted);
        self.each_z().nth(at.expect("a transcript of the fork")).expect("each has z")
    }
}

//! Which of several transcripts count when they are taken together: each with a transcript and randomness of its own.

use std::fmt;

use crate::many::Sent;
use crate::section_one::Parameters;
use crate::sections::{placed, Slice};

/// What a transcript shares with an earlier one.
#[derive(Clone, Copy, Debug, PartialEq, Eq)]
pub enum Shared {
    Transcript,
    Randomness,
    /// One section of the randomness.
    Section(&'static str),
}

/// A transcript that does not count beside an earlier one, by their indexes.
#[derive(Clone, Copy, Debug, PartialEq, Eq)]
pub struct Repeat {
    pub index: usize,
    pub of: usize,
    pub shared: Shared,
}

fn shared(p: &Parameters, one: &Sent<'_>, other: &Sent<'_>) -> Option<Shared> {
    if one.transcript == other.transcript {
        return Some(Shared::Transcript);
    }
    if one.randomness == other.randomness {
        return Some(Shared::Randomness);
    }
    let sections = placed(Slice::Randomness, p).into_iter().filter(|s| s.section.count() > 0);
    let mut equal = sections.filter(|s| s.words(one.randomness) == s.words(other.randomness));
    equal.next().map(|s| Shared::Section(s.section.name))
}

/// Those that share something with an earlier one that counts. All slices have the layout of the job's parameters.
///
/// ```
/// use labrador::worth::{repeats, Repeat, Shared};
/// use labrador::{load, prove, Parameters, Sent};
///
/// let p = Parameters::SMALL;
/// let desk = load(&p, 1)?;
/// let transcript = prove(&desk.job, &desk.randomness, &desk.witness)?;
/// let sent = Sent { randomness: &desk.randomness, transcript: &transcript };
/// assert_eq!(repeats(&p, &[sent, sent]), [Repeat { index: 1, of: 0, shared: Shared::Transcript }]);
/// # Ok::<(), labrador::Refusal>(())
/// ```
pub fn repeats(p: &Parameters, sent: &[Sent<'_>]) -> Vec<Repeat> {
    repeats_by(sent.len(), |of, index| shared(p, &sent[of], &sent[index]))
}

/// The repeats among so many, where `shared` says what two of them share.
pub(super) fn repeats_by(count: usize, shared: impl Fn(usize, usize) -> Option<Shared>) -> Vec<Repeat> {
    let mut counted: Vec<usize> = Vec::new();
    let mut found = Vec::new();
    for index in 0..count {
        let earlier = |&of: &usize| shared(of, index).map(|shared| Repeat { index, of, shared });
        match counted.iter().find_map(earlier) {
            Some(repeat) => found.push(repeat),
            None => counted.push(index),
        }
    }
    found
}

impl fmt::Display for Shared {
    fn fmt(&self, f: &mut fmt::Formatter<'_>) -> fmt::Result {
        match self {
            Shared::Transcript => f.write_str("the transcript"),
            Shared::Randomness => f.write_str("the randomness"),
            Shared::Section(name) => write!(f, "section {name} of the randomness"),
        }
    }
}

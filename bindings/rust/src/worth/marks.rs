//! Which of several transcripts count, where their words are not all at hand at a time: each leaves its marks behind.

use std::collections::hash_map::RandomState;
use std::hash::{BuildHasher, Hasher};

use super::together::{repeats_by, Repeat, Shared};
use crate::many::Sent;
use crate::section_one::Parameters;
use crate::sections::{placed, Placed, Slice};

/// So many words are summed with their weights.
const BLOCK: usize = 1024;

/// Makes the marks of one job's transcripts. Equal words have equal marks; unlike ones have equal marks for at most one in 2^32 of the keys, which are
/// drawn with each marker.
pub struct Marker {
    keys: RandomState,
    weights: Vec<u32>,
    sections: Vec<Placed>,
}

/// What is left of a transcript and its randomness.
#[derive(Clone, Debug, PartialEq, Eq)]
pub struct Marks {
    transcript: u64,
    /// Of the sections that have words, by name.
    sections: Vec<(&'static str, u64)>,
}

impl Marker {
    pub fn new(p: &Parameters) -> Marker {
        let keys = RandomState::new();
        let weights = (0..BLOCK).map(|k| keys.hash_one(k) as u32).collect();
        let sections = placed(Slice::Randomness, p).into_iter().filter(|s| s.section.count() > 0).collect();
        Marker { keys, weights, sections }
    }

    fn mark(&self, words: &[u32]) -> u64 {
        let mut hasher = self.keys.build_hasher();
        for block in words.chunks(BLOCK) {
            let weighed = block.iter().zip(&self.weights).map(|(&word, &weight)| u64::from(word) * u64::from(weight));
            hasher.write_u64(weighed.fold(0, u64::wrapping_add));
        }
        hasher.finish()
    }

    /// The marks of a transcript whose slices have the layout of the job's parameters.
    pub fn marks(&self, sent: &Sent<'_>) -> Marks {
        let section = |s: &Placed| (s.section.name, self.mark(s.words(sent.randomness)));
        Marks { transcript: self.mark(sent.transcript), sections: self.sections.iter().map(section).collect() }
    }
}

fn shared(one: &Marks, other: &Marks) -> Option<Shared> {
    if one.transcript == other.transcript {
        return Some(Shared::Transcript);
    }
    if one.sections == other.sections {
        return Some(Shared::Randomness);
    }
    let mut pairs = one.sections.iter().zip(&other.sections);
    pairs.find(|(one, other)| one == other).map(|((name, _), _)| Shared::Section(name))
}

/// Those that share something with an earlier one that counts, as [`repeats`](super::repeats) says, by the marks of one [`Marker`].
///
/// ```
/// use labrador::worth::{repeats, repeats_of, Marker};
/// use labrador::{load, prove, Parameters, Sent};
///
/// let p = Parameters::SMALL;
/// let desk = load(&p, 1)?;
/// let transcript = prove(&desk.job, &desk.randomness, &desk.witness)?;
/// let sent = Sent { randomness: &desk.randomness, transcript: &transcript };
/// let marker = Marker::new(&p);
/// assert_eq!(repeats_of(&[marker.marks(&sent), marker.marks(&sent)]), repeats(&p, &[sent, sent]));
/// # Ok::<(), labrador::Refusal>(())
/// ```
pub fn repeats_of(marks: &[Marks]) -> Vec<Repeat> {
    repeats_by(marks.len(), |of, index| shared(&marks[of], &marks[index]))
}

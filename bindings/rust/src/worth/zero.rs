//! Weights that are all zero in a randomness, so that what they weigh was not tested.

use std::fmt;

use crate::section_one::Parameters;
use crate::sections::{words_of, Slice};

/// A section of weights that is all zero.
#[derive(Clone, Copy, Debug, PartialEq, Eq)]
pub struct ZeroSection {
    pub name: &'static str,
    /// What was not tested, with its verb.
    pub untested: &'static str,
}

const WEIGHTS: [ZeroSection; 4] = [
    ZeroSection { name: "psi", untested: "the constant-term constraints were" },
    ZeroSection { name: "omega", untested: "the projection p was" },
    ZeroSection { name: "alpha", untested: "the ring constraints were" },
    ZeroSection { name: "beta", untested: "the constant-term constraints and the projection p were" },
];

/// Which weights are all zero in a randomness of the right layout; a section without words has none.
pub fn zero_sections(p: &Parameters, randomness: &[u32]) -> Vec<ZeroSection> {
    let is_zero = |section: &ZeroSection| {
        let words = words_of(Slice::Randomness, p, section.name, randomness);
        !words.is_empty() && words.iter().all(|&word| word == 0)
    };
    WEIGHTS.into_iter().filter(is_zero).collect()
}

impl fmt::Display for ZeroSection {
    fn fmt(&self, f: &mut fmt::Formatter<'_>) -> fmt::Result {
        write!(f, "{} is all zero in the randomness: {} not tested", self.name, self.untested)
    }
}

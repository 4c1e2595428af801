//! A to D from 32 bytes, so that both sides see that nobody chose them.

use std::fmt;
use std::str::FromStr;

use super::mistake::Fault;
use crate::number::Q;
use crate::section_one::Parameters;
use crate::sections::{placed, Slice};
use crate::sha256::{hex, sha256};

/// The matrices in the order in which their words are drawn.
pub const MATRICES: [&str; 4] = ["A", "B", "C", "D"];

/// What A to D are drawn from.
#[derive(Clone, Copy, Debug, PartialEq, Eq)]
pub struct Seed(pub [u8; 32]);

impl Seed {
    /// The 32-bit words of SHA-256(seed ‖ counter), eight words a digest, the least byte first. The counter goes from 0, as eight
    /// bytes, the least first.
    fn stream(self) -> impl Iterator<Item = u32> {
        let digest = move |counter: u64| {
            let mut message = [0; 40];
            message[..32].copy_from_slice(&self.0);
            message[32..].copy_from_slice(&counter.to_le_bytes());
            sha256(&message)
        };
        let words = |digest: [u8; 32]| {
            let word = move |k: usize| u32::from_le_bytes(digest[4 * k..4 * k + 4].try_into().expect("four bytes"));
            (0..8).map(word)
        };
        (0u64..).map(digest).flat_map(words)
    }

    /// The words of the stream that are below Q: A to D in layout order.
    pub fn words(self) -> impl Iterator<Item = u32> {
        self.stream().filter(|&word| word < Q)
    }

    /// The index of the first word of A to D that is not the seed's, in a job of these parameters and of the right layout.
    pub fn first_difference(self, p: &Parameters, job: &[u32]) -> Option<u64> {
        let sections = placed(Slice::Job, p);
        let matrices = sections.iter().filter(|s| MATRICES.contains(&s.section.name));
        let places = matrices.flat_map(|s| s.begin()..s.end());
        places.zip(self.words()).find(|&(at, word)| job[at as usize] != word).map(|(at, _)| at)
    }

    /// Randomness of one session, drawn from the stream: words below Q, sign words 0 or 1, shuffle words as they come.
    pub(super) fn randomness(self, p: &Parameters) -> Vec<u32> {
        let mut stream = self.stream();
        let mut randomness = Vec::with_capacity(Slice::Randomness.length(p) as usize);
        for section in Slice::Randomness.sections(p) {
            let count = section.count() as usize;
            randomness.push(count as u32);
            match section.name {
                "signs" => randomness.extend(stream.by_ref().take(count).map(|word| word & 1)),
                "shuffle" => randomness.extend(stream.by_ref().take(count)),
                _ => randomness.extend(stream.by_ref().filter(|&word| word < Q).take(count)),
            }
        }
        randomness
    }
}

impl FromStr for Seed {
    type Err = Fault;

    /// Of 64 hex digits.
    fn from_str(text: &str) -> Result<Seed, Fault> {
        let digits: Vec<u8> = text.chars().map_while(|c| c.to_digit(16)).map(|digit| digit as u8).collect();
        if digits.len() != 64 || text.len() != 64 {
            return Err(Fault::Seed);
        }
        Ok(Seed(std::array::from_fn(|k| 16 * digits[2 * k] + digits[2 * k + 1])))
    }
}

impl fmt::Display for Seed {
    fn fmt(&self, f: &mut fmt::Formatter<'_>) -> fmt::Result {
        f.write_str(&hex(&self.0))
    }
}

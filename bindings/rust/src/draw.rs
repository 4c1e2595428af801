//! Randomness as a desk draws it: for each round its sections, after the message of the round before.

use std::io::{self, Read};

use crate::number::Q;
use crate::rounds::Round;
use crate::section_one::Parameters;
use crate::sections::{Section, Slice};

/// So many bytes are read at a time.
const CHUNK: usize = 1 << 16;

/// Appends words that `keep` keeps until there are `count` more: of what it does not keep as many are drawn again.
fn words(source: &mut impl Read, count: usize, keep: impl Fn(u32) -> bool, drawn: &mut Vec<u32>) -> io::Result<()> {
    let mut bytes = vec![0; CHUNK];
    let end = drawn.len() + count;
    while drawn.len() < end {
        let chunk = &mut bytes[..CHUNK.min(4 * (end - drawn.len()))];
        source.read_exact(chunk)?;
        let word = |four: &[u8]| u32::from_le_bytes(four.try_into().expect("four bytes"));
        drawn.extend(chunk.chunks_exact(4).map(word).filter(|&word| keep(word)));
    }
    Ok(())
}

/// Appends words of one bit each.
fn bits(source: &mut impl Read, count: usize, drawn: &mut Vec<u32>) -> io::Result<()> {
    let mut bytes = vec![0; count.div_ceil(8)];
    source.read_exact(&mut bytes)?;
    drawn.extend((0..count).map(|k| u32::from(bytes[k / 8] >> (k % 8) & 1)));
    Ok(())
}

/// Appends a section after its count.
fn section(section: &Section, source: &mut impl Read, drawn: &mut Vec<u32>) -> io::Result<()> {
    let count = section.count() as usize;
    drawn.push(count as u32);
    match section.name {
        "signs" => bits(source, count, drawn),
        "shuffle" => words(source, count, |_| true, drawn),
        _ => words(source, count, |word| word < Q, drawn),
    }
}

impl Round {
    /// The sections of the randomness that are drawn for it, which the round before did not take: none for round 1.
    pub fn drawn(self, p: &Parameters) -> Vec<Section> {
        let before = Round::ALL.into_iter().rev().find(|round| round.number() < self.number());
        let taken = before.map_or(0, Round::randomness_sections);
        Slice::Randomness.sections(p).drain(taken..self.randomness_sections()).collect()
    }
}

/// Appends the sections that a round adds to the randomness, drawn from a source of random bytes: words below [`Q`], of which none is likelier
/// than another, sign words 0 or 1, shuffle words of 32 bits. Where the source fails, the randomness is as it was.
///
/// A session, in which each draw follows the message before it:
///
/// ```
/// use labrador::{draw, load, round, verify, Parameters, Round};
///
/// let p = Parameters::SMALL;
/// let store = load(&p, 1)?;
/// let mut generator = std::fs::File::open("/dev/urandom")?;
/// let (mut randomness, mut transcript) = (Vec::new(), Vec::new());
/// for r in Round::ALL {
///     draw(r, &p, &mut generator, &mut randomness)?;
///     transcript.extend(round(r, &store.job, &randomness, &store.witness)?);
/// }
/// assert!(verify(&store.job, &randomness, &transcript).is_accepted());
/// # Ok::<(), Box<dyn std::error::Error>>(())
/// ```
pub fn draw(round: Round, p: &Parameters, source: &mut impl Read, randomness: &mut Vec<u32>) -> io::Result<()> {
    let before = randomness.len();
    let sections = round.drawn(p);
    randomness.reserve_exact(sections.iter().map(|s| 1 + s.count() as usize).sum());
    let made = sections.iter().try_for_each(|s| section(s, source, randomness));
    if made.is_err() {
        randomness.truncate(before);
    }
    made
}

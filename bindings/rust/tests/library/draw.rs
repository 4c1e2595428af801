//! Drawn randomness, from sources of known bytes.

use std::io::{self, Read};

use labrador::sections::placed;
use labrador::{draw, load, Parameters, Round, Slice, Q};

const P: Parameters = Parameters { n: 1, r: 2, ..Parameters::SMALL };

/// Bytes of words, again and again, then failure.
struct Words {
    words: Vec<u32>,
    at: usize,
    left: usize,
}

impl Words {
    fn new(words: &[u32], left: usize) -> Words {
        Words { words: words.to_vec(), at: 0, left }
    }
}

impl Read for Words {
    fn read(&mut self, bytes: &mut [u8]) -> io::Result<usize> {
        if self.left < bytes.len() {
            return Err(io::Error::other("no more"));
        }
        self.left -= bytes.len();
        for byte in bytes.iter_mut() {
            *byte = self.words[self.at / 4 % self.words.len()].to_le_bytes()[self.at % 4];
            self.at += 1;
        }
        Ok(bytes.len())
    }
}

#[test]
fn words_at_or_above_q_are_drawn_again() {
    let mut source = Words::new(&[Q, 7, u32::MAX, Q - 1], usize::MAX);
    let mut randomness = Vec::new();
    for round in &Round::ALL[1..=3] {
        draw(*round, &P, &mut source, &mut randomness).unwrap();
    }
    let sections = placed(Slice::Randomness, &P);
    for section in &sections[..5] {
        let words = section.words(&randomness);
        assert_eq!(randomness[section.count_at as usize] as usize, words.len());
        assert!(words.iter().all(|word| [7, Q - 1].contains(word)), "{}", section.section.name);
        assert!(words.contains(&7) && words.contains(&(Q - 1)), "{}", section.section.name);
    }
    assert_eq!(randomness.len() as u64, sections[4].end());
}

#[test]
fn signs_are_bits_and_shuffle_words_are_free() {
    let mut source = Words::new(&[0xffff_ff05], usize::MAX);
    let mut randomness = Vec::new();
    draw(Round::Five, &P, &mut source, &mut randomness).unwrap();
    let signs = 41 * P.r as usize;
    assert_eq!(randomness[0] as usize, signs);
    assert_eq!(randomness[1..11], [1, 0, 1, 0, 0, 0, 0, 0, 1, 1]);
    assert!(randomness[1..=signs].iter().all(|&sign| sign < 2));
    assert_eq!(randomness[signs + 1], 63 * P.r);
    let mut greatest = Vec::new();
    draw(Round::Five, &P, &mut Words::new(&[u32::MAX], usize::MAX), &mut greatest).unwrap();
    assert!(greatest[1..=signs].iter().all(|&sign| sign == 1));
    assert!(greatest[signs + 2..].iter().all(|&word| word == u32::MAX));
}

#[test]
fn a_source_that_fails_leaves_the_randomness() {
    let mut randomness = vec![1, 2, 3];
    let failed = draw(Round::Two, &P, &mut Words::new(&[1], 100_000), &mut randomness);
    assert_eq!((failed.unwrap_err().to_string().as_str(), &randomness[..]), ("no more", &[1, 2, 3][..]));
    draw(Round::One, &P, &mut Words::new(&[1], 0), &mut randomness).unwrap();
    assert_eq!(randomness, [1, 2, 3]);
}

#[test]
fn a_round_admits_its_own_randomness_alone() {
    let load = load(&P, 1).unwrap();
    for of in Round::ALL {
        let words = of.randomness(&load.randomness);
        for round in Round::ALL {
            let refusal = round.admits(&load.job, words).err();
            let expected = match round.number().cmp(&of.number()) {
                std::cmp::Ordering::Equal => None,
                std::cmp::Ordering::Less => Some((7, round.randomness(&load.randomness).len())),
                std::cmp::Ordering::Greater => Some((7, words.len())),
            };
            assert_eq!(refusal.map(|refusal| (refusal.number(), refusal.place() as usize)), expected);
        }
    }
    assert_eq!(Round::Two.admits(&[], &[]).unwrap_err().number(), 3);
    assert_eq!([0, 1, 5, 6].map(Round::numbered), [None, Some(Round::One), Some(Round::Five), None]);
}

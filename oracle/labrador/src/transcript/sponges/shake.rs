//! Stand-in for the sponge: it plays back prepared words in order, and absorbs nothing.

use super::Sponge;
use crate::ring::{rq::Rq, zq::Zq};
use std::cell::RefCell;

/// What is left to play back: numbers, signs and shuffle words.
#[derive(Clone, Default)]
pub struct Tape {
    pub numbers: Vec<u32>,
    pub signs: Vec<u32>,
    pub shuffles: Vec<u32>,
    numbers_read: usize,
    signs_read: usize,
    shuffles_read: usize,
}

thread_local! {
    static TAPE: RefCell<Tape> = RefCell::default();
}

impl Tape {
    pub fn new(numbers: Vec<u32>, signs: Vec<u32>, shuffles: Vec<u32>) -> Self {
        Tape { numbers, signs, shuffles, ..Tape::default() }
    }

    /// Makes this the tape that the thread's sponges play back.
    pub fn load(self) {
        TAPE.with(|tape| *tape.borrow_mut() = self);
    }

    /// The words not yet read of the thread's tape: numbers, signs and shuffle words.
    pub fn left() -> (usize, usize, usize) {
        TAPE.with(|tape| {
            let tape = tape.borrow();
            (
                tape.numbers.len() - tape.numbers_read,
                tape.signs.len() - tape.signs_read,
                tape.shuffles.len() - tape.shuffles_read,
            )
        })
    }
}

/// The next words of a run.
fn next(words: &[u32], read: &mut usize, count: usize) -> Vec<u32> {
    let at = *read;
    *read += count;
    words[at..*read].to_vec()
}

#[derive(Default)]
pub struct Playback;

impl Sponge for Playback {
    fn absorb_zq(&mut self, _: &[Zq]) {}

    fn absorb_rq(&mut self, _: &[Rq]) {}

    fn squeeze_zq(&mut self, count: usize) -> Vec<Zq> {
        TAPE.with(|tape| {
            let tape = &mut *tape.borrow_mut();
            let words = next(&tape.numbers, &mut tape.numbers_read, count);
            words.into_iter().map(Zq::new).collect()
        })
    }

    fn squeeze_rq(&mut self, count: usize) -> Vec<Rq> {
        self.squeeze_zq(count * Rq::DEGREE)
            .chunks_exact(Rq::DEGREE)
            .map(|chunk| Rq::new(chunk.try_into().unwrap()))
            .collect()
    }

    fn squeeze_bits(&mut self, count: usize) -> Vec<bool> {
        TAPE.with(|tape| {
            let tape = &mut *tape.borrow_mut();
            let words = next(&tape.signs, &mut tape.signs_read, count);
            words.into_iter().map(|w| w == 1).collect()
        })
    }

    fn squeeze_bytes(&mut self, count: usize) -> Vec<u8> {
        assert_eq!(count, 4, "the published Rust squeezes words only");
        TAPE.with(|tape| {
            let tape = &mut *tape.borrow_mut();
            let words = next(&tape.shuffles, &mut tape.shuffles_read, 1);
            words[0].to_le_bytes().to_vec()
        })
    }
}

//! The cases of document 02, Item 2: digits put together again, and the number of parts that a base needs. The published
//! Rust has neither, so the model judges.

use crate::random::Random;
use crate::tally::Tally;
use model::leaves::{digits, left, HALF, Q};
use model::recompose::{base_operand, operands, parts_needed, recompose};
use model::Answer;

/// Heading of the tally.
const ANSWERS: &str = "answers of recompose and parts_needed";

/// The comparisons.
const PARTS: &str = "library: parts_needed with the model's";
const DIGITS: &str = "library: recompose with the model's";
const BACK: &str = "model: a value is back with nothing left";

/// The values about the ends of the sizes.
const EDGES: [u32; 10] = [0, 1, 2, HALF - 1, HALF, HALF + 1, HALF + 2, Q - 3, Q - 2, Q - 1];

/// Every base of 2 to 300, the powers of two with their neighbours, the largest ones, and those that are refused.
fn bases() -> Vec<u32> {
    let powers = (0..33).flat_map(|k| [-1, 0, 1].map(|d| ((1i64 << k) + d).clamp(0, i64::from(u32::MAX)) as u32));
    (0..=300).chain(powers).chain(Q - 15..=u32::MAX).collect()
}

struct Cases<'a>(&'a mut Tally);

impl Cases<'_> {
    fn answer(refusal: Answer, value: impl FnOnce() -> u32) -> [u32; 3] {
        let value = if refusal.is_fine() { value() } else { 0 };
        [refusal.number, refusal.place as u32, value]
    }

    fn parts(&mut self, base: u32) {
        let expected = Self::answer(base_operand(base), || parts_needed(base));
        self.0.occurred(ANSWERS, format!("parts_needed {:>2}", expected[0]));
        let ours = library::recompose::parts_needed(base);
        self.0.compare(PARTS, &ours, &expected, || base.to_string());
    }

    fn digits(&mut self, base: u32, digits: &[u32]) {
        let expected = Self::answer(operands(base, digits), || recompose(base, digits));
        self.0.occurred(ANSWERS, format!("recompose    {:>2}, place {}", expected[0], expected[1].min(2)));
        let ours = library::recompose::recompose(base, digits);
        self.0.compare(DIGITS, &ours, &expected, || {
            format!("base {base}, {} digits {:?}", digits.len(), &digits[..digits.len().min(33)])
        });
    }

    /// The digits of a value: it comes back exactly when nothing is left.
    fn value(&mut self, base: u32, parts: usize, a: u32) {
        let of_a = digits(base, parts, a);
        let none_left = left(base, parts, a) == 0;
        self.0.occurred(ANSWERS, if none_left { "nothing left" } else { "something left" });
        let back = recompose(base, &of_a) == a;
        self.0.compare(BACK, &back, &none_left, || format!("base {base}, {parts} parts of {a}"));
        self.digits(base, &of_a);
    }

    /// Values with parts too few, just enough and too many.
    fn base(&mut self, random: &mut Random, base: u32) {
        self.parts(base);
        if !base_operand(base).is_fine() {
            return self.digits(base, &random.numbers(4));
        }
        let needed = parts_needed(base) as usize;
        for parts in [1, needed - 1, needed, needed + 1, 32] {
            if (1..=32).contains(&parts) {
                for a in EDGES.into_iter().chain(random.numbers(3)) {
                    self.value(base, parts, a);
                }
            }
        }
        let count = 1 + random.below(32);
        self.digits(base, &random.numbers(count));
    }

    /// Each refusal alone and before a later one.
    fn refused(&mut self, random: &mut Random) {
        for base in [0, 1, 2, 3, Q - 1, Q] {
            for length in [0, 1, 2, 31, 32, 33, 64, 1_000_000] {
                self.digits(base, &random.numbers(length));
                self.digits(base, &vec![Q; length]);
                for at in [0, length / 2, length.saturating_sub(1)] {
                    let mut words = random.numbers(length);
                    if at < length {
                        words[at] = Q;
                        self.digits(base, &words);
                    }
                }
            }
        }
    }
}

pub fn all(tally: &mut Tally, random: &mut Random, count: usize) {
    for row in ["parts_needed  0", "parts_needed 31", "nothing left", "something left"] {
        tally.must_occur(ANSWERS, row);
    }
    for row in [" 0, place 0", "31, place 0", "31, place 1", " 6, place 2"] {
        tally.must_occur(ANSWERS, format!("recompose    {row}"));
    }
    tally.must_compare(&[PARTS, DIGITS, BACK]);
    let mut cases = Cases(tally);
    for base in bases() {
        cases.base(random, base);
    }
    for _ in 0..count {
        let base = random.word();
        cases.base(random, base);
    }
    cases.refused(random);
}

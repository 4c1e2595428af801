//! The cases of the leaf calls.

use crate::instances::{coefficient, Size, BASES};
use crate::random::Random;
use crate::record::Recorder;
use crate::rust;
use crate::tally::Tally;
use model::calls::{self, Leaf, LeafAnswer};
use model::leaves::{left, DEGREE, HALF, Q};
use model::words::{SHUFFLES, SIGNS};

/// Heading of the tally.
pub const LEAVES: &str = "answers of the leaf calls";
const SIZES: &str = "sizes left over after digits";
const NOTHING: &str = "nothing left";
const SOMETHING: &str = "something left";

/// The comparisons of leaf calls.
const MODELLED: &str = "model: leaf calls with the Rust's";
const OURS: &str = "library: leaf calls with the Rust's";
const REFUSED: &str = "library: refusals of leaf calls with the model's";
/// The sizes left over, of which the Rust says nothing (document 02, Item 5).
pub const LEFT: &str = "library: sizes left over with the model's";

/// An answer without the sizes left over, and these.
pub fn without_left(leaf: Leaf, mut answer: LeafAnswer) -> (LeafAnswer, Vec<u32>) {
    let left = match leaf {
        Leaf::ZqDigits => answer.result.split_off(32),
        Leaf::RqLeft => std::mem::take(&mut answer.result),
        _ => vec![],
    };
    (answer, left)
}

/// The result of fit operands by the published Rust, with the sizes left over by the model.
fn rust_value(leaf: Leaf, w: &[u32]) -> Vec<u32> {
    use rust::leaf::*;
    match leaf {
        Leaf::ZqAdd => vec![zq_add(w[0], w[1])],
        Leaf::ZqSub => vec![zq_sub(w[0], w[1])],
        Leaf::ZqMul => vec![zq_mul(w[0], w[1])],
        Leaf::ZqNeg => vec![zq_neg(w[0])],
        Leaf::ZqCentre => calls::centre_words(zq_centre(w[0])),
        Leaf::ZqDigits => {
            let mut digits = zq_digits(w[0], w[1] as usize, w[2]);
            digits.resize(32, 0);
            digits.push(left(w[0], w[1] as usize, w[2]));
            digits
        }
        Leaf::RqLeft => calls::value(leaf, w),
        Leaf::ProjectionEntry => vec![projection_entry(w[0])],
        Leaf::RqAdd => rq_add(&w[..64], &w[64..]),
        Leaf::RqSub => rq_sub(&w[..64], &w[64..]),
        Leaf::RqMul => rq_mul(&w[..64], &w[64..]),
        Leaf::RqScale => rq_scale(&w[..64], w[64]),
        Leaf::RqConj => rq_conj(w),
        Leaf::RqNorm => calls::norm_words(rq_norm(w)),
        Leaf::RqDigits => rq_digits(w[0], w[1] as usize, &w[2..]),
        Leaf::Challenge => challenge(&w[..SIGNS], &w[SIGNS..]),
    }
}

pub struct Leaves<'a> {
    pub tally: &'a mut Tally,
    pub recorder: &'a mut Option<Recorder>,
}

impl Leaves<'_> {
    pub fn must_occur(tally: &mut Tally) {
        tally.must_compare(&[MODELLED, OURS, REFUSED, LEFT]);
        for row in [NOTHING, SOMETHING] {
            tally.must_occur(SIZES, row);
        }
        for leaf in Leaf::ALL {
            for number in leaf.answers() {
                tally.must_occur(LEAVES, row(leaf, *number));
            }
        }
    }

    /// Compares the Rust, the model and the library on one case.
    fn take(&mut self, leaf: Leaf, operands: &[u32]) {
        let expected = leaf.answer(operands, rust_value);
        let described = || format!("{} {operands:?}", leaf.name());
        self.tally.occurred(LEAVES, row(leaf, expected.number));
        let ours = library::leaf(leaf, operands);
        if let Some(recorder) = self.recorder {
            recorder.leaf(leaf, operands, &expected);
        }
        if expected.number > 0 {
            self.tally.compare(REFUSED, &ours, &expected, described);
            return;
        }
        let modelled = leaf.answer(operands, calls::value);
        let [(modelled, _), (ours, our_left), (expected, left)] =
            [modelled, ours, expected].map(|answer| without_left(leaf, answer));
        if !left.is_empty() {
            let nothing = left.iter().all(|&size| size == 0);
            self.tally.occurred(SIZES, if nothing { NOTHING } else { SOMETHING });
            self.tally.compare(LEFT, &our_left, &left, described);
        }
        if leaf != Leaf::RqLeft {
            self.tally.compare(MODELLED, &modelled, &expected, described);
            self.tally.compare(OURS, &ours, &expected, described);
        }
    }

    /// Every leaf on boundary values and on `count` random ones. Of pairs of elements, and of the digits of boundary
    /// values, each `step`-th is taken.
    pub fn all(&mut self, random: &mut Random, count: usize, step: usize) {
        self.numbers(random, count);
        self.digits(random, count, step);
        self.elements(random, count, step);
        self.challenges(random, count);
    }

    fn numbers(&mut self, random: &mut Random, count: usize) {
        for leaf in [Leaf::ZqAdd, Leaf::ZqSub, Leaf::ZqMul] {
            for a in words() {
                for b in words() {
                    self.take(leaf, &[a, b]);
                }
            }
            for _ in 0..count {
                self.take(leaf, &[random.number(), random.number()]);
            }
        }
        for leaf in [Leaf::ZqNeg, Leaf::ZqCentre, Leaf::ProjectionEntry] {
            for a in words() {
                self.take(leaf, &[a]);
            }
            for _ in 0..count {
                self.take(leaf, &[random.number()]);
            }
        }
    }

    fn digits(&mut self, random: &mut Random, count: usize, step: usize) {
        let bases = [&BASES[..], &[0, 1, Q]].concat();
        let parts = [0, 1, 2, 3, 5, 16, 20, 21, 30, 31, 32, 33, Q];
        let mut taken: usize = 0;
        for &base in &bases {
            for part in parts {
                for a in words() {
                    taken += 1;
                    if taken.is_multiple_of(step) {
                        self.take(Leaf::ZqDigits, &[base, part, a]);
                    }
                }
                if (taken / words().len()).is_multiple_of(step) {
                    let element = boundary_element(random);
                    self.take(Leaf::RqDigits, &[&[base, part], &element[..]].concat());
                    self.take(Leaf::RqLeft, &[&[base, part], &element[..]].concat());
                }
            }
        }
        for _ in 0..count {
            let base = match random.below(3) {
                0 => random.pick(&BASES),
                1 => 2 + random.below(100) as u32,
                _ => (2 + random.next_u64() % u64::from(Q - 2)) as u32,
            };
            let part = 1 + random.below(32) as u32;
            self.take(Leaf::ZqDigits, &[base, part, random.number()]);
            if random.below(4) == 0 {
                let element = any_element(random);
                self.take(Leaf::RqDigits, &[&[base, part], &element[..]].concat());
                self.take(Leaf::RqLeft, &[&[base, part], &element[..]].concat());
            }
        }
        for at in PLACES {
            let mut operands = [&[16, 3], &any_element(random)[..]].concat();
            operands[2 + at] = Q;
            self.take(Leaf::RqDigits, &operands);
            self.take(Leaf::RqLeft, &operands);
        }
    }

    fn elements(&mut self, random: &mut Random, count: usize, step: usize) {
        let special = special_elements(random);
        let two = [Leaf::RqAdd, Leaf::RqSub, Leaf::RqMul];
        let one = [Leaf::RqConj, Leaf::RqNorm];
        for a in &special {
            for leaf in one {
                self.take(leaf, a);
            }
            for c in words().iter().skip(random.below(step)).step_by(step) {
                self.take(Leaf::RqScale, &[&a[..], &[*c]].concat());
            }
            for b in special.iter().skip(random.below(step)).step_by(step) {
                for leaf in two {
                    self.take(leaf, &[&a[..], b].concat());
                }
            }
        }
        for _ in 0..count {
            let (a, b) = (any_element(random), any_element(random));
            for leaf in two {
                self.take(leaf, &[&a[..], &b].concat());
            }
            for leaf in one {
                self.take(leaf, &a);
            }
            self.take(Leaf::RqScale, &[&a[..], &[random.number()]].concat());
        }
        // a word out of range at each end and inside, alone and with a later one
        for at in PLACES {
            for later in [None, Some(63)] {
                let mut a = any_element(random);
                let b = any_element(random);
                a[at] = Q;
                if let Some(later) = later {
                    a[later] = Q;
                }
                for leaf in one {
                    self.take(leaf, &a);
                }
                self.take(Leaf::RqScale, &[&a[..], &[Q]].concat());
                for leaf in two {
                    self.take(leaf, &[&a[..], &b].concat());
                    self.take(leaf, &[&b[..], &a].concat());
                    self.take(leaf, &[&a[..], &a].concat());
                }
            }
        }
    }

    fn challenges(&mut self, random: &mut Random, count: usize) {
        let signs = |random: &mut Random| -> Vec<u32> { (0..SIGNS).map(|_| random.word() & 1).collect() };
        let shuffles = |random: &mut Random| -> Vec<u32> { (0..SHUFFLES).map(|_| random.word()).collect() };
        let still: Vec<u32> = (1..=SHUFFLES as u32).rev().collect();
        let fixed = [vec![0; SHUFFLES], still, vec![u32::MAX; SHUFFLES], vec![1; SHUFFLES]];
        for signs in [vec![0; SIGNS], vec![1; SIGNS], signs(random)] {
            for shuffles in &fixed {
                self.take(Leaf::Challenge, &[&signs[..], shuffles].concat());
            }
        }
        for _ in 0..count {
            let (signs, shuffles) = (signs(random), shuffles(random));
            self.take(Leaf::Challenge, &[&signs[..], &shuffles].concat());
        }
        for at in [0, 30, 31, 40] {
            for word in [2, Q] {
                for later in [None, Some(40)] {
                    let mut signs = signs(random);
                    signs[at] = word;
                    if let Some(later) = later {
                        signs[later] = 3;
                    }
                    self.take(Leaf::Challenge, &[&signs[..], &shuffles(random)].concat());
                }
            }
        }
    }
}

fn row(leaf: Leaf, number: u32) -> String {
    format!("{:<17}{number:>2}", leaf.name())
}

/// Words about the ends of each range that document 01 names.
const WORDS: [u32; 30] = [
    0,
    1,
    2,
    3,
    4,
    5,
    6,
    7,
    10,
    255,
    256,
    65535,
    65536,
    65537,
    1073741823,
    1073741824,
    1073741825,
    2147483646,
    2147483647,
    2147483648,
    2147483649,
    3221225471,
    4294901760,
    Q - 10,
    Q - 7,
    Q - 5,
    Q - 3,
    Q - 2,
    Q - 1,
    Q,
];

/// Those, with the ends of the centred range and of all words where they are others: over 2^32 − 1 none is.
fn words() -> Vec<u32> {
    let ends = [HALF - 1, HALF, HALF + 1, HALF + 2, u32::MAX - Q, u32::MAX - Q + 1, Q + (u32::MAX - Q) / 2, u32::MAX];
    let further = ends.into_iter().filter(|end| !WORDS.contains(end));
    WORDS.into_iter().chain(further).collect()
}

/// Places of a word in an element.
const PLACES: [usize; 4] = [0, 1, 31, 63];

/// Canonical words of `words` and random ones.
fn boundary_element(random: &mut Random) -> Vec<u32> {
    let words = words();
    (0..DEGREE)
        .map(|_| match random.pick(&words) {
            Q.. => random.number(),
            word => word,
        })
        .collect()
}

fn any_element(random: &mut Random) -> Vec<u32> {
    let sizes = [Size::Any, Size::Bits(0), Size::Bits(8), Size::Ends];
    match random.below(5) {
        4 => boundary_element(random),
        k => (0..DEGREE).map(|_| coefficient(random, sizes[k])).collect(),
    }
}

/// Zero, constants at the ends of the range, powers of X with either sign, and one random element.
fn special_elements(random: &mut Random) -> Vec<Vec<u32>> {
    let mut elements: Vec<Vec<u32>> = [0, 1, HALF, HALF + 1, Q - 1].iter().map(|&word| vec![word; DEGREE]).collect();
    for k in [0, 1, 31, 32, 63] {
        for word in [1, 65536, Q - 1] {
            let mut power = vec![0; DEGREE];
            power[k] = word;
            elements.push(power);
        }
    }
    elements.push(random.numbers(DEGREE));
    elements
}

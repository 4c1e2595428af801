//! Constraints held against each other up to a number. Modulo a prime of Q every number but 0 has an inverse, so that two left sides are
//! multiples of each other there where they are equal once each is divided by its first coefficient; Q is the product of its primes, so what
//! holds modulo each holds modulo Q.

use std::cell::OnceCell;
use std::hash::{DefaultHasher, Hasher};

use crate::constraints::zero;
use crate::worth::MODULUS;

/// How the left sides of two constraints stand to each other.
#[derive(Clone, Copy, Debug, PartialEq, Eq)]
pub enum Ratio {
    Same,
    /// One is a number times the other.
    Multiple,
    /// So they are modulo this divisor of Q.
    Modulo(u32),
}

/// Both sides of a constraint: its quadratic and its linear coefficients, and its right side.
#[derive(Clone, Copy, PartialEq, Eq)]
pub(super) struct Words<'a> {
    pub a: &'a [u32],
    pub phi: &'a [u32],
    pub right: &'a [u32],
}

/// So many words tell most left sides apart.
const HEAD: usize = 64;

/// A constraint modulo a prime.
struct Reduced {
    prime: u32,
    /// One over the first coefficient that is not 0; nothing where all are 0.
    inverse: Option<u32>,
    /// Where that coefficient stands, and the left side from there on, divided by it.
    head: (usize, Vec<u32>),
    /// Of the left side divided by it, where it was asked for.
    digest: OnceCell<u64>,
    /// The right side, divided by it.
    right: Vec<u32>,
}

/// A constraint modulo each prime of Q.
pub(super) struct Sides<'a> {
    pub words: Words<'a>,
    reduced: Vec<Reduced>,
}

fn product(a: u32, b: u32, prime: u32) -> u32 {
    (u64::from(a) * u64::from(b) % u64::from(prime)) as u32
}

/// One over a number that is not 0 modulo a prime: its power by the prime less 2.
fn inverse(number: u32, prime: u32) -> u32 {
    let (mut power, mut square, mut exponent) = (1, number % prime, prime - 2);
    while exponent > 0 {
        if exponent % 2 == 1 {
            power = product(power, square, prime);
        }
        square = product(square, square, prime);
        exponent /= 2;
    }
    power
}

/// Words times a factor, modulo a prime.
fn times(words: &[u32], factor: u32, prime: u32) -> impl Iterator<Item = u32> + '_ {
    words.iter().map(move |&word| if word == 0 { 0 } else { product(word % prime, factor, prime) })
}

impl Words<'_> {
    fn left(&self, factor: u32, prime: u32) -> impl Iterator<Item = u32> + '_ {
        times(self.a, factor, prime).chain(times(self.phi, factor, prime))
    }

    pub fn has_no_coefficient(&self) -> bool {
        zero(self.a) && zero(self.phi)
    }

    fn reduced(&self, prime: u32) -> Reduced {
        let mut coefficients = self.a.iter().chain(self.phi).enumerate();
        let first = coefficients.find(|(_, &word)| word != 0 && word % prime != 0);
        let inverse = first.map(|(_, &word)| inverse(word, prime));
        let (factor, begin) = (inverse.unwrap_or(1), first.map_or(0, |(k, _)| k));
        let head = (begin, self.left(factor, prime).skip(begin).take(HEAD).collect());
        Reduced { prime, inverse, head, digest: OnceCell::new(), right: times(self.right, factor, prime).collect() }
    }
}

impl Reduced {
    /// Whether every witness meets it.
    fn says_nothing(&self) -> bool {
        self.inverse.is_none() && zero(&self.right)
    }

    /// The digest of the left side of these words divided by its first coefficient.
    fn digest(&self, words: &Words) -> u64 {
        *self.digest.get_or_init(|| {
            let mut digest = DefaultHasher::new();
            self.inverse
                .iter()
                .flat_map(|&factor| words.left(factor, self.prime))
                .for_each(|word| digest.write_u32(word));
            digest.finish()
        })
    }

    /// Whether the right sides are equal, as far as the shorter one goes: the constant term of a ring constraint is its first word.
    fn has_right_of(&self, other: &Reduced) -> bool {
        self.right.iter().zip(&other.right).all(|(word, other)| word == other)
    }
}

impl<'a> Sides<'a> {
    pub fn of(words: Words<'a>) -> Sides<'a> {
        Sides { words, reduced: MODULUS.primes.iter().map(|&prime| words.reduced(prime)).collect() }
    }

    /// Both constraints modulo each prime.
    fn with<'b>(&'b self, other: &'b Sides) -> impl Iterator<Item = (&'b Reduced, &'b Reduced)> {
        self.reduced.iter().zip(&other.reduced)
    }

    /// Whether the left sides can be multiples of each other modulo a prime, and are not 0: they begin alike and have the same digest.
    fn is_alike(&self, other: &Sides, (own, others): (&Reduced, &Reduced)) -> bool {
        let begin_alike = own.inverse.is_some() && others.inverse.is_some() && own.head == others.head;
        begin_alike && own.digest(&self.words) == others.digest(&other.words)
    }

    /// Whether the left sides are multiples of each other modulo a prime, and not 0.
    fn is_same(&self, other: &Sides, (own, others): (&Reduced, &Reduced)) -> bool {
        let [Some(factor), Some(other_factor)] = [own.inverse, others.inverse] else {
            return false;
        };
        let (left, other_left) = (self.words.left(factor, own.prime), other.words.left(other_factor, own.prime));
        self.is_alike(other, (own, others)) && left.eq(other_left)
    }

    /// Modulo which prime it has no coefficient and a right side that is not 0, so that no witness meets it.
    pub fn unmet(&self) -> Option<u32> {
        let unmet = |reduced: &&Reduced| reduced.inverse.is_none() && !reduced.says_nothing();
        self.reduced.iter().find(unmet).map(|reduced| reduced.prime)
    }

    /// Whether the other is this one times a number, so that every witness that meets this one meets the other.
    pub fn implies(&self, other: &Sides) -> bool {
        let can = |(own, others): (&Reduced, &Reduced)| {
            others.says_nothing() || own.has_right_of(others) && self.is_alike(other, (own, others))
        };
        let does = |pair: (&Reduced, &Reduced)| pair.1.says_nothing() || self.is_same(other, pair);
        let says_as_much = self.words.right.len() >= other.words.right.len();
        says_as_much && self.with(other).all(can) && self.with(other).all(does)
    }

    /// How the left sides stand to each other where the right sides do not stand so, and no witness meets both.
    pub fn contradicts(&self, other: &Sides) -> Option<Ratio> {
        let apart = |pair: &(&Reduced, &Reduced)| !pair.0.has_right_of(pair.1) && self.is_same(other, *pair);
        let modulo: Vec<u32> = self.with(other).filter(apart).map(|(own, _)| own.prime).collect();
        if modulo.is_empty() {
            return None;
        }
        Some(self.ratio(other).unwrap_or(Ratio::Modulo(modulo.iter().product())))
    }

    /// How the left sides stand to each other modulo Q; nothing where neither is a number times the other.
    pub fn ratio(&self, other: &Sides) -> Option<Ratio> {
        if (self.words.a, self.words.phi) == (other.words.a, other.words.phi) {
            return Some(Ratio::Same);
        }
        let own = |pair: (&Reduced, &Reduced)| pair.0.inverse.is_none() || self.is_same(other, pair);
        let others = |pair: (&Reduced, &Reduced)| pair.1.inverse.is_none() || self.is_same(other, pair);
        let is_multiple = self.with(other).all(own) || self.with(other).all(others);
        is_multiple.then_some(Ratio::Multiple)
    }
}

//! Natural numbers of any size, as far as exact chances need them.

use std::cmp::Ordering;

/// A natural number: its words of 32 bits, the least first, without a zero word at the end.
#[derive(Clone, Debug, PartialEq, Eq)]
pub struct Natural {
    words: Vec<u32>,
}

impl From<u128> for Natural {
    fn from(number: u128) -> Natural {
        Natural::of((0..4).map(|k| (number >> (32 * k)) as u32).collect())
    }
}

impl Natural {
    fn of(mut words: Vec<u32>) -> Natural {
        while words.last() == Some(&0) {
            words.pop();
        }
        Natural { words }
    }

    pub fn is_zero(&self) -> bool {
        self.words.is_empty()
    }

    pub fn add(&self, other: &Natural) -> Natural {
        let length = self.words.len().max(other.words.len());
        let word = |number: &Natural, k: usize| u64::from(number.words.get(k).copied().unwrap_or(0));
        let (mut words, mut carry) = (Vec::with_capacity(length + 1), 0);
        for k in 0..=length {
            carry += word(self, k) + word(other, k);
            words.push(carry as u32);
            carry >>= 32;
        }
        Natural::of(words)
    }

    pub fn mul(&self, other: &Natural) -> Natural {
        let mut words = vec![0; self.words.len() + other.words.len()];
        for (i, &a) in self.words.iter().enumerate() {
            let mut carry = 0;
            for (j, &b) in other.words.iter().enumerate() {
                carry += u64::from(a) * u64::from(b) + u64::from(words[i + j]);
                words[i + j] = carry as u32;
                carry >>= 32;
            }
            words[i + other.words.len()] = carry as u32;
        }
        Natural::of(words)
    }

    pub fn pow(&self, exponent: u32) -> Natural {
        (0..exponent).fold(Natural::from(1), |power, _| power.mul(self))
    }

    /// Divided by a number that is not 0, rounded down.
    pub fn divided(&self, divisor: u32) -> Natural {
        let (mut words, mut rest) = (self.words.clone(), 0);
        for word in words.iter_mut().rev() {
            rest = rest << 32 | u64::from(*word);
            *word = (rest / u64::from(divisor)) as u32;
            rest %= u64::from(divisor);
        }
        Natural::of(words)
    }

    /// The greatest number below 2^128 that times `divisor` is at most this one.
    pub fn quotient(&self, divisor: &Natural) -> u128 {
        let fits = |k: u128| divisor.mul(&Natural::from(k)) <= *self;
        (0..128).rev().map(|bit| 1 << bit).fold(0, |k, bit| if fits(k | bit) { k | bit } else { k })
    }

    /// The logarithm to base 2, to be shown and not to be compared; of 0 it is that of nothing, 0.
    pub fn log2(&self) -> f64 {
        let top = self.words.iter().rev().take(3).fold(0.0, |sum, &word| sum * 4294967296.0 + f64::from(word));
        let below = self.words.len().saturating_sub(3);
        if self.is_zero() {
            0.0
        } else {
            top.log2() + 32.0 * below as f64
        }
    }
}

impl PartialOrd for Natural {
    fn partial_cmp(&self, other: &Natural) -> Option<Ordering> {
        Some(self.cmp(other))
    }
}

impl Ord for Natural {
    fn cmp(&self, other: &Natural) -> Ordering {
        let length = self.words.len().cmp(&other.words.len());
        length.then_with(|| self.words.iter().rev().cmp(other.words.iter().rev()))
    }
}

#[cfg(test)]
mod tests {
    use super::Natural;

    fn natural(number: u128) -> Natural {
        Natural::from(number)
    }

    #[test]
    fn sums_products_and_powers_are_those_of_128_bits() {
        let numbers = [0, 1, 2, 255, 4294967295, 4294967296, 4294967297, (1 << 63) - 1, 1 << 63];
        for a in numbers {
            for b in numbers {
                assert_eq!(natural(a).add(&natural(b)), natural(a + b));
                assert_eq!(natural(a).mul(&natural(b)), natural(a * b));
                assert_eq!(natural(a).cmp(&natural(b)), a.cmp(&b));
                if b > 0 {
                    assert_eq!(natural(a).quotient(&natural(b)), a / b);
                    u32::try_from(b)
                        .into_iter()
                        .for_each(|b| assert_eq!(natural(a).divided(b), natural(a / u128::from(b))));
                }
            }
        }
        assert_eq!(natural(257).pow(15), natural(257u128.pow(15)));
        assert_eq!(natural(7).pow(0), natural(1));
    }

    #[test]
    fn beyond_128_bits() {
        let power = natural(2).pow(200);
        assert_eq!(power.mul(&power), natural(2).pow(400));
        assert_eq!(natural(6).pow(100).divided(3), natural(2).mul(&natural(6).pow(99)));
        assert_eq!(power.quotient(&natural(2).pow(100)), 1 << 100);
        assert!(power > natural(2).pow(199) && power < power.add(&natural(1)));
        assert_eq!(power.log2(), 200.0);
        assert!((natural(3).pow(300).log2() - 300.0 * 3f64.log2()).abs() < 1e-9);
    }
}

//! What the worth of an acceptance takes of the modulus: all other figures are worked out from here.

use super::fraction::Fraction;
use crate::number::Q;

/// The facts of a modulus.
#[derive(Clone, Copy, Debug, PartialEq, Eq)]
pub struct Modulus {
    pub q: u32,
    /// The primes whose product q is, each once, the least first. A row of psi weighs an error that is a multiple of q divided by the
    /// least one to 0 in one of that many draws.
    pub primes: &'static [u32],
    /// The primes p that divide q for which X^64 + 1 splits into 64 factors of degree 1: residue fields of p elements,
    /// called slots. The least first.
    pub slots: &'static [u32],
}

/// 4294967295 = 3·5·17·257·65537.
pub const DEFAULT: Modulus = Modulus { q: 4294967295, primes: &[3, 5, 17, 257, 65537], slots: &[257, 65537] };

/// 2^32 - 99 is a prime and 5 modulo 8: X^64 + 1 has two factors of degree 32, so that there are no slots, and the difference of two unlike
/// challenges is a unit.
pub const PRIME: Modulus = Modulus { q: 4294967197, primes: &[4294967197], slots: &[] };

/// That of the archive.
pub const MODULUS: Modulus = if Q == PRIME.q { PRIME } else { DEFAULT };
const _: () = assert!(MODULUS.q == Q, "the facts of the archive's modulus are not known");

/// A number whose multiples are not zero in these slots alone, so that an error of that size has to slip through only there.
#[derive(Clone, Debug, PartialEq, Eq)]
pub struct Divisor {
    pub number: u32,
    pub slots: Vec<u32>,
}

impl Modulus {
    /// The least prime that divides q.
    pub fn least_prime(&self) -> u32 {
        self.primes[0]
    }

    /// q divided by the product of each choice of slots, the least number first.
    pub fn divisors(&self) -> Vec<Divisor> {
        let choice = |bits: u32| {
            let chosen = self.slots.iter().enumerate().filter(|(k, _)| bits >> k & 1 == 1);
            let slots: Vec<u32> = chosen.map(|(_, &slot)| slot).collect();
            Divisor { number: slots.iter().fold(self.q, |number, slot| number / slot), slots }
        };
        let mut all: Vec<Divisor> = (1..1 << self.slots.len()).map(choice).collect();
        all.sort_by_key(|divisor| divisor.number);
        all
    }

    /// An error in all rows of psi that is a multiple of q divided by the least prime.
    pub(super) fn weighed_to_zero(&self, rows: u32) -> Fraction {
        Fraction::new(1, self.least_prime().into()).pow(rows)
    }

    /// An error in one factor of degree 32, where there are no slots: beta weighs it to 0, one of q^32, or of several vectors the form
    /// c_1² - c_2² of the challenges is 0 there, which it is only where c_1 = c_2 or c_1 = -c_2. Of one vector c_1² is a unit.
    pub(super) fn slips_through_wide(&self, vectors: u32) -> Fraction {
        let beta = Fraction::new(1, self.q.into()).pow(32);
        match vectors {
            1 => beta,
            _ => beta.add(&one_challenge().mul(&Fraction::new(2, 1))),
        }
    }

    /// An error in one slot of p elements: beta weighs it to 0, or a linear factor of the form of the challenges is 0 there, each in
    /// one of p draws. Together 1 - (1 - 1/p)^3, or of one vector 1 - (1 - 1/p)^2.
    pub(super) fn slips_through(slot: u32, vectors: u32) -> Fraction {
        let (p, power) = (u128::from(slot), 1 + linear_factors(vectors));
        Fraction::new(p.pow(power) - (p - 1).pow(power), p.pow(power))
    }
}

/// The linear factors of the form of the challenges with the most zeros: c_1·(c_1 - c_2), or of one vector c_1 twice.
pub(super) fn linear_factors(vectors: u32) -> u32 {
    if vectors == 1 {
        1
    } else {
        2
    }
}

/// One of all challenges: which 31 of 64 coefficients are of size 1, which 10 of the others of size 2, and 41 signs.
fn one_challenge() -> Fraction {
    let choose = |n: u128, k: u128| (0..k).fold(1, |ways, i| ways * (n - i) / (i + 1));
    Fraction::new(1, choose(64, 31) * choose(33, 10)).mul(&Fraction::new(1, 1 << 41))
}

#[cfg(test)]
mod tests {
    use super::{one_challenge, Fraction, Modulus, DEFAULT, PRIME};

    fn is_prime(n: u32) -> bool {
        (2..).take_while(|d| d * d <= u64::from(n)).all(|d| u64::from(n) % d != 0)
    }

    #[test]
    fn the_prime() {
        let Modulus { q, primes, slots } = PRIME;
        assert!(is_prime(q) && primes == [q] && q % 8 == 5 && slots.is_empty());
        assert_eq!(PRIME.weighed_to_zero(4).to_string(), "1 in 2^128.0");
        let half_of_all = 180857904167729203298370297515149885440;
        assert_eq!(one_challenge().mul(&Fraction::new(2, 1)), Fraction::new(1, half_of_all));
        assert_eq!(PRIME.slips_through_wide(2).to_string(), "1 in 2^127.1");
        assert_eq!(PRIME.slips_through_wide(1), Fraction::new(1, 4294967197).pow(32));
    }

    #[test]
    fn the_default() {
        let Modulus { q, primes, slots } = DEFAULT;
        assert!(primes.iter().all(|&p| is_prime(p)) && primes.is_sorted());
        assert_eq!(primes.iter().product::<u32>(), q);
        let splits: Vec<u32> = primes.iter().copied().filter(|p| p % 128 == 1).collect();
        assert_eq!(splits, slots);
    }

    #[test]
    fn the_divisors() {
        let all = DEFAULT.divisors();
        let numbers: Vec<u32> = all.iter().map(|divisor| divisor.number).collect();
        assert_eq!(numbers, [255, 65535, 16711935]);
        assert_eq!(
            (&all[0].slots[..], &all[1].slots[..], &all[2].slots[..]),
            (&[257, 65537][..], &[65537][..], &[257][..])
        );
        assert!(PRIME.divisors().is_empty());
    }
}

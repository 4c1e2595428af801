//! Fractions of natural numbers, exact, and how they are said.

use std::cmp::Ordering;
use std::fmt;

use super::natural::Natural;

/// A chance, or a number of tries. Its denominator is not 0; it is not reduced.
#[derive(Clone, Debug)]
pub struct Fraction {
    numerator: Natural,
    denominator: Natural,
}

impl Fraction {
    /// One number over another, which is not 0.
    pub fn new(numerator: u128, denominator: u128) -> Fraction {
        assert!(denominator > 0, "a denominator is not 0");
        Fraction { numerator: numerator.into(), denominator: denominator.into() }
    }

    /// The same of numbers of any size.
    pub(super) fn of(numerator: Natural, denominator: Natural) -> Fraction {
        Fraction { numerator, denominator }
    }

    pub fn zero() -> Fraction {
        Fraction::new(0, 1)
    }

    pub fn add(&self, other: &Fraction) -> Fraction {
        let sides = [self.numerator.mul(&other.denominator), other.numerator.mul(&self.denominator)];
        Fraction::of(sides[0].add(&sides[1]), self.denominator.mul(&other.denominator))
    }

    pub fn mul(&self, other: &Fraction) -> Fraction {
        Fraction::of(self.numerator.mul(&other.numerator), self.denominator.mul(&other.denominator))
    }

    pub fn pow(&self, exponent: u32) -> Fraction {
        Fraction::of(self.numerator.pow(exponent), self.denominator.pow(exponent))
    }

    /// One over a chance that is not 0.
    pub(super) fn inverse(&self) -> Fraction {
        Fraction::of(self.denominator.clone(), self.numerator.clone())
    }

    /// Whether it is at most 2^-bits.
    pub fn is_at_most_2_to_minus(&self, bits: u32) -> bool {
        self.numerator.mul(&Natural::from(2).pow(bits)) <= self.denominator
    }

    /// Whether a false statement passes for certain.
    pub fn is_certain(&self) -> bool {
        self.numerator >= self.denominator
    }

    /// x where it is 2^-x: to be shown, never to be compared.
    pub fn bits(&self) -> f64 {
        self.denominator.log2() - self.numerator.log2()
    }

    /// The nearest whole number n of `1 in n`; a half counts up.
    pub fn one_in(&self) -> u128 {
        let twice = |number: &Natural| number.add(number);
        twice(&self.denominator).add(&self.numerator).quotient(&twice(&self.numerator))
    }
}

impl PartialEq for Fraction {
    fn eq(&self, other: &Fraction) -> bool {
        self.cmp(other) == Ordering::Equal
    }
}

impl Eq for Fraction {}

impl PartialOrd for Fraction {
    fn partial_cmp(&self, other: &Fraction) -> Option<Ordering> {
        Some(self.cmp(other))
    }
}

impl Ord for Fraction {
    fn cmp(&self, other: &Fraction) -> Ordering {
        self.numerator.mul(&other.denominator).cmp(&other.numerator.mul(&self.denominator))
    }
}

/// `81`, `21,846`, `1.9 million`, `1.9·10^15`.
fn plain(number: u128) -> String {
    match number {
        0..=999_999 => {
            let (thousands, rest) = (number / 1000, number % 1000);
            if thousands > 0 {
                format!("{thousands},{rest:03}")
            } else {
                rest.to_string()
            }
        }
        1_000_000..=999_949_999 => {
            let tenths = (number + 50_000) / 100_000;
            format!("{}.{} million", tenths / 10, tenths % 10)
        }
        _ => {
            let digits = number.ilog10();
            let tenths = (number / 10u128.pow(digits - 2) + 5) / 10;
            // 9.95 and above is 10.0, said with the next power
            let (tenths, digits) = if tenths == 100 { (10, digits + 1) } else { (tenths, digits) };
            format!("{}.{}·10^{digits}", tenths / 10, tenths % 10)
        }
    }
}

/// `1 in 81`, `1 in 2^160.0`.
impl fmt::Display for Fraction {
    fn fmt(&self, f: &mut fmt::Formatter<'_>) -> fmt::Result {
        if self.numerator.is_zero() {
            return f.write_str("0");
        }
        // beyond the numbers of 128 bits the power of two alone
        match self.is_at_most_2_to_minus(127) {
            true => write!(f, "1 in 2^{:.1}", self.bits()),
            false => write!(f, "1 in {}", plain(self.one_in())),
        }
    }
}

#[cfg(test)]
mod tests {
    use super::{plain, Fraction};

    #[test]
    fn numbers_are_said_plainly() {
        let told = [
            (1, "1"),
            (999, "999"),
            (1000, "1,000"),
            (21846, "21,846"),
            (531_441, "531,441"),
            (1_878_756, "1.9 million"),
            (999_949_999, "999.9 million"),
            (999_950_000, "1.0·10^9"),
            (1_853_020_188_851_841, "1.9·10^15"),
            (9_949_999_999, "9.9·10^9"),
            (9_950_000_000, "1.0·10^10"),
        ];
        for (number, words) in told {
            assert_eq!(plain(number), words);
        }
    }

    #[test]
    fn one_in_is_the_nearest() {
        assert_eq!(Fraction::new(2, 5).one_in(), 3);
        assert_eq!(Fraction::new(4, 9).one_in(), 2);
        assert_eq!(Fraction::new(1, 1).to_string(), "1 in 1");
        assert_eq!(Fraction::zero().to_string(), "0");
        assert_eq!(Fraction::new(1, 2).pow(126).to_string(), "1 in 8.5·10^37");
        assert_eq!(Fraction::new(1, 2).pow(127).to_string(), "1 in 2^127.0");
        assert_eq!(Fraction::new(1, 3).pow(200).to_string(), "1 in 2^317.0");
    }

    #[test]
    fn fractions_are_compared_exactly() {
        let [half, third] = [2, 3].map(|n| Fraction::new(1, n));
        assert_eq!(half.add(&third), Fraction::new(5, 6));
        assert_eq!(half.mul(&third).inverse(), Fraction::new(6, 1));
        assert!(third < half && third.pow(2) == Fraction::new(2, 18));
        assert!(half.pow(64).is_at_most_2_to_minus(64) && !half.pow(64).is_at_most_2_to_minus(65));
        assert!(Fraction::new(3, 3).is_certain() && !half.is_certain());
        assert!((Fraction::new(1, 81).bits() - 6.3398).abs() < 1e-4);
    }
}

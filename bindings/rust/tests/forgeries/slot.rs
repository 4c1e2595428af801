//! A slot: one root of X^64 + 1 modulo a prime that divides Q, and the element that is zero in all others.

use labrador::{Element, Q};

use crate::modular::power;
use crate::ring::{mul, scale};
use crate::words::Words;

pub struct Slot {
    pub prime: u32,
    /// ζ, of order 128 modulo the prime.
    root: u32,
    /// Coefficient i is ζ^(-i): that of X^0 is 1.
    pub powers: Element,
}

impl Slot {
    /// A slot of a prime that is 1 modulo 128.
    pub fn of(prime: u32) -> Slot {
        let to = |root: u32, exponent: u64| power(root.into(), exponent, prime.into()) as u32;
        let root = (2..prime).find(|&root| to(root, 64) == prime - 1).expect("a root of X^64 + 1");
        let powers = Element { coeffs: std::array::from_fn(|i| to(root, 128 - i as u64)) };
        Slot { prime, root, powers }
    }

    /// Whether Q has it: over a modulus that the prime does not divide, there is no slot.
    pub fn is_of_q(&self) -> bool {
        Q.is_multiple_of(self.prime)
    }

    /// e: coefficient i is (Q/prime)·ζ^(-i).
    pub fn element(&self) -> Element {
        scale(&self.powers, Q / self.prime)
    }

    /// An element's value at ζ.
    pub fn value(&self, a: &Element) -> u32 {
        let [prime, root] = [self.prime, self.root].map(u64::from);
        a.coeffs.iter().rev().fold(0, |value, &c| (value * root + u64::from(c)) % prime) as u32
    }
}

/// X⊗e = ζ·e, and α⊗e = α(ζ)·e, which is 0 exactly where α(ζ) is 0 modulo the prime.
#[test]
fn a_weight_meets_the_element_in_one_slot() {
    let mut words = Words::seeded(1);
    for slot in [257, 65537].map(Slot::of) {
        let e = slot.element();
        assert_eq!(mul(&Element::monomial(1, 1), &e) == scale(&e, slot.root), slot.is_of_q());
        for _ in 0..600 {
            let weight = Element { coeffs: std::array::from_fn(|_| words.number()) };
            let product = mul(&weight, &e);
            assert_eq!(product == scale(&e, slot.value(&weight)), slot.is_of_q());
            assert_eq!(product == Element::ZERO, slot.is_of_q() && slot.value(&weight) == 0);
        }
    }
}

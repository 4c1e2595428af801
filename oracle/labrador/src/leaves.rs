//! The crate-private calls of `Zq`, for the harness.

use crate::ring::zq::Zq;

pub fn centre(a: Zq) -> i128 {
    a.centered_mod()
}

pub fn digits(a: Zq, base: Zq, parts: usize) -> Vec<Zq> {
    a.decompose(base, parts)
}

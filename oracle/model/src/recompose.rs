//! Document 02, Item 2: digits put together again, and the number of parts that a base needs.

use crate::leaves::{below, left, HALF, Q};
use crate::Answer;

/// "Σ digit·b^i modulo Q", from the highest digit down.
pub fn recompose(base: u32, digits: &[u32]) -> u32 {
    let step = |sum: u64, &digit: &u32| (sum * u64::from(base) + u64::from(digit)) % u64::from(Q);
    digits.iter().rev().fold(0, step) as u32
}

/// "for a base, the smallest number of parts that leaves nothing of any value". A larger size leaves no less, so the two
/// values of the largest size tell.
pub fn parts_needed(base: u32) -> u32 {
    let enough = |parts: &u32| [HALF, HALF + 1].map(|a| left(base, *parts as usize, a)) == [0, 0];
    (1..=32).find(enough).expect("32 parts are enough")
}

/// "Both refuse with 31 a base (place 0)".
pub fn base_operand(base: u32) -> Answer {
    if (2..Q).contains(&base) {
        Answer::FINE
    } else {
        Answer::refused(31, 0)
    }
}

/// "or number of parts (place 1, the count of digits handed in) outside document 01's limits, and the first call after
/// that with 6 a non-canonical digit (places from 2)".
pub fn operands(base: u32, digits: &[u32]) -> Answer {
    let base = base_operand(base);
    if !base.is_fine() {
        base
    } else if !(1..=32).contains(&digits.len()) {
        Answer::refused(31, 1)
    } else {
        below(Q, 6, 2, digits)
    }
}

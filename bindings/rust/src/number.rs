//! Numbers modulo Q and their digits: the leaf calls as methods.

use crate::element::operand;
use crate::ffi;
use crate::refusal::Refusal;

/// The modulus of the archive that the crate is built over: 4294967295 = 3·5·17·257·65537, or the prime 4294967197. Numbers modulo Q
/// are 0 to Q - 1.
pub const Q: u32 = match u32::from_str_radix(env!("LABRADOR_Q"), 10) {
    Ok(q) => q,
    Err(_) => panic!("the build names no modulus"),
};

/// The greatest size of a centred number.
pub const HALF: u32 = Q / 2;

/// A number modulo Q. A word at or above Q is refused by each call, with 6.
///
/// ```
/// use labrador::{recompose, Zq, HALF, Q};
///
/// assert_eq!(Zq(Q - 2).mul(Zq(3))?, Zq(Q - 6));
/// assert_eq!(Zq(HALF + 1).centre()?, -i64::from(HALF));
/// let digits = Zq(7).digits(4, 2)?;
/// assert_eq!(recompose(4, &digits.digits[..2])?, Zq(7));
/// assert_eq!(digits.left, 0);
/// assert_eq!(Zq(7).digits(4, 1)?.left, 2);
/// # Ok::<(), labrador::Refusal>(())
/// ```
#[derive(Clone, Copy, Debug, PartialEq, Eq)]
pub struct Zq(pub u32);

/// The digits of a number, lowest first; those past the parts are zero. `left` is the size left over when the parts are
/// used up, without sign.
#[derive(Clone, Copy, Debug, PartialEq, Eq)]
pub struct Digits {
    pub digits: [u32; 32],
    pub left: u32,
}

fn word(answer: ffi::WordAnswer, operands: &[u32]) -> Result<Zq, Refusal> {
    operand(answer.number, answer.place.into(), operands)?;
    Ok(Zq(answer.value))
}

// the operators' traits cannot refuse
#[allow(clippy::should_implement_trait)]
impl Zq {
    pub fn add(self, b: Zq) -> Result<Zq, Refusal> {
        word(ffi::zq_add(self.0, b.0), &[self.0, b.0])
    }

    pub fn sub(self, b: Zq) -> Result<Zq, Refusal> {
        word(ffi::zq_sub(self.0, b.0), &[self.0, b.0])
    }

    pub fn mul(self, b: Zq) -> Result<Zq, Refusal> {
        word(ffi::zq_mul(self.0, b.0), &[self.0, b.0])
    }

    pub fn neg(self) -> Result<Zq, Refusal> {
        word(ffi::zq_neg(self.0), &[self.0])
    }

    /// The number itself up to [`HALF`], above that itself less Q.
    pub fn centre(self) -> Result<i64, Refusal> {
        let answer = ffi::zq_centre(self.0);
        operand(answer.number, answer.place.into(), &[self.0])?;
        Ok(answer.value)
    }

    /// The digits to a base from 2 to Q - 1, in 1 to 32 parts, and what is left after them.
    pub fn digits(self, base: u32, parts: u32) -> Result<Digits, Refusal> {
        let answer = ffi::zq_digits(base, parts, self.0);
        operand(answer.number, answer.place.into(), &[base, parts, self.0])?;
        Ok(Digits { digits: answer.digits, left: answer.left })
    }
}

/// What is wrong with a word at or above Q. One below 2^32 - 1 could be a number modulo that.
pub(crate) fn not_below(word: Option<u32>) -> &'static str {
    match word {
        Some(word) if (Q..u32::MAX).contains(&word) => "not below Q; a number of the modulus 4294967295?",
        _ => "not below Q",
    }
}

/// The projection's entry that a word stands for: Q - 1 for -1, 1 or 0.
pub fn projection_entry(projection_word: u32) -> Result<Zq, Refusal> {
    word(ffi::projection_entry(projection_word), &[projection_word])
}

/// The number of these digits, lowest first: the sum of `digits[i]`·base^i.
pub fn recompose(base: u32, digits: &[u32]) -> Result<Zq, Refusal> {
    let count = u32::try_from(digits.len()).unwrap_or(u32::MAX);
    word(ffi::recompose(base, digits), &[&[base, count], digits].concat())
}

/// The smallest number of parts that leaves nothing of any number to this base.
pub fn parts_needed(base: u32) -> Result<u32, Refusal> {
    Ok(word(ffi::parts_needed(base), &[base])?.0)
}

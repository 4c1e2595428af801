//! Ring elements modulo X^64 + 1 and challenges: the leaf calls as methods.

use crate::ffi;
use crate::refusal::Refusal;

/// A ring element: 64 coefficients, that of X^0 first. A coefficient at or above Q is refused by each call, with 6.
///
/// ```
/// use labrador::{Element, Q};
///
/// let x = Element::monomial(1, 1);
/// let x_63 = Element::monomial(1, 63);
/// assert_eq!(x.mul(&x_63)?, Element::monomial(Q - 1, 0));
/// assert_eq!(x.conj()?, Element::monomial(Q - 1, 63));
/// # Ok::<(), labrador::Refusal>(())
/// ```
#[derive(Clone, Copy, Debug, PartialEq, Eq)]
pub struct Element {
    pub coeffs: [u32; 64],
}

/// 32 rows of 64 words: row k has digit k of each coefficient.
pub type DigitRows = [[u32; 64]; 32];

impl Element {
    pub const ZERO: Element = Element { coeffs: [0; 64] };

    /// c·X^k, for k below 64.
    pub fn monomial(c: u32, k: usize) -> Element {
        let mut coeffs = [0; 64];
        coeffs[k] = c;
        Element { coeffs }
    }

    fn raw(&self) -> ffi::Element {
        ffi::Element { coeffs: self.coeffs }
    }

    /// The answer of a call whose operands' words are these, one after the other.
    fn answered(answer: ffi::ElementAnswer, operands: &[&[u32]]) -> Result<Element, Refusal> {
        operand(answer.number, answer.place.into(), &operands.concat())?;
        Ok(Element { coeffs: answer.coeffs })
    }

    pub fn add(&self, b: &Element) -> Result<Element, Refusal> {
        Element::answered(ffi::rq_add(self.raw(), b.raw()), &[&self.coeffs, &b.coeffs])
    }

    pub fn sub(&self, b: &Element) -> Result<Element, Refusal> {
        Element::answered(ffi::rq_sub(self.raw(), b.raw()), &[&self.coeffs, &b.coeffs])
    }

    pub fn mul(&self, b: &Element) -> Result<Element, Refusal> {
        Element::answered(ffi::rq_mul(self.raw(), b.raw()), &[&self.coeffs, &b.coeffs])
    }

    /// The same product by transforms modulo three primes.
    pub fn mul_fast(&self, b: &Element) -> Result<Element, Refusal> {
        Element::answered(ffi::rq_mul_fast(self.raw(), b.raw()), &[&self.coeffs, &b.coeffs])
    }

    /// The product with a number.
    pub fn scale(&self, c: u32) -> Result<Element, Refusal> {
        Element::answered(ffi::rq_scale(self.raw(), c), &[&self.coeffs, &[c]])
    }

    /// X replaced by its inverse.
    pub fn conj(&self) -> Result<Element, Refusal> {
        Element::answered(ffi::rq_conj(self.raw()), &[&self.coeffs])
    }

    /// The sum of the squares of the coefficients' centres.
    pub fn norm(&self) -> Result<u128, Refusal> {
        let answer = ffi::rq_norm(self.raw());
        operand(answer.number, answer.place.into(), &self.coeffs)?;
        Ok(ffi::joined(answer.hi, answer.lo))
    }

    /// The digit rows into the first 2048 words of `out`.
    pub fn digits_into(&self, base: u32, parts: u32, out: &mut [u32]) -> Result<(), Refusal> {
        let answer = ffi::rq_digits(base, parts, self.raw(), out);
        if answer.number == 2 {
            return Err(Refusal::Output { buffer: "output", needed: answer.place.into(), lent: out.len() as u64 });
        }
        operand(answer.number, answer.place.into(), &[&[base, parts], &self.coeffs[..]].concat())
    }

    /// The digit rows.
    pub fn digits(&self, base: u32, parts: u32) -> Result<Box<DigitRows>, Refusal> {
        let mut out = vec![0; 32 * 64];
        self.digits_into(base, parts, &mut out)?;
        let mut rows = Box::new([[0; 64]; 32]);
        for (row, words) in rows.iter_mut().zip(out.chunks_exact(64)) {
            row.copy_from_slice(words);
        }
        Ok(rows)
    }

    /// The size left over of each coefficient when the parts are used up, without sign.
    pub fn left(&self, base: u32, parts: u32) -> Result<[u32; 64], Refusal> {
        let answer = ffi::rq_left(base, parts, self.raw());
        Ok(Element::answered(answer, &[&[base, parts], &self.coeffs])?.coeffs)
    }
}

/// The words of a challenge: 41 sign words, each 0 or 1, then 63 shuffle words.
#[derive(Clone, Copy, Debug, PartialEq, Eq)]
pub struct ChallengeWords {
    pub words: [u32; 104],
}

impl ChallengeWords {
    /// The challenge of these words; a sign word above 1 is refused with 8.
    pub fn challenge(&self) -> Result<Element, Refusal> {
        let answer = ffi::challenge(ffi::ChallengeWords { words: self.words });
        Element::answered(answer, &[&self.words])
    }
}

/// Nothing where the number is 0, else the refusal at a place among the operands' words.
pub(crate) fn operand(number: u32, place: u64, words: &[u32]) -> Result<(), Refusal> {
    if number == 0 {
        return Ok(());
    }
    let found = usize::try_from(place).ok().and_then(|k| words.get(k)).copied();
    Err(Refusal::Operand { number, place, found: found.unwrap_or_default() })
}

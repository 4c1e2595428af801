//! The norms that the verifier holds against their limits, each taken of a transcript's words by the proved leaf calls.

use crate::element::Element;
use crate::refusal::Refusal;
use crate::section_one::SectionOne;
use crate::sections::{words_of, Slice};

/// A norm with the limit that it is held against.
#[derive(Clone, Copy, Debug, PartialEq, Eq)]
pub struct Norm {
    /// The check or the refusal that is answered where it is above.
    pub number: u32,
    pub what: &'static str,
    pub norm: u128,
    pub limit_name: &'static str,
    pub limit: u128,
}

/// The elements of words, 64 at a time.
pub fn elements(words: &[u32]) -> impl Iterator<Item = Element> + '_ {
    words.chunks_exact(64).map(|chunk| Element { coeffs: chunk.try_into().expect("64 words") })
}

/// The norm of words, 64 at a time.
pub fn norm_of(words: &[u32]) -> Result<u128, Refusal> {
    elements(words).map(|e| e.norm()).sum()
}

/// The norm of the digits of words.
fn digits_norm(words: &[u32], base: u32, parts: u32) -> Result<u128, Refusal> {
    let of_element = |e: Element| {
        let rows = e.digits(base, parts)?;
        rows.iter().map(|&coeffs| Element { coeffs }.norm()).sum::<Result<u128, Refusal>>()
    };
    elements(words).map(of_element).sum()
}

/// The norm of the two parts of words: their digit 0, and the whole rest.
fn parts_norm(words: &[u32], base: u32) -> Result<u128, Refusal> {
    Ok(digits_norm(words, base, 1)? + rest_norm(words, base)?)
}

/// The norm of what is left after digit 0.
fn rest_norm(words: &[u32], base: u32) -> Result<u128, Refusal> {
    let squares = |sizes: [u32; 64]| sizes.iter().map(|&size| u128::from(size).pow(2)).sum::<u128>();
    elements(words).map(|e| e.left(base, 1).map(squares)).sum()
}

/// The five norms of a transcript, both it and the job of the right layout with words below Q: in the verifier's order
/// those of 21, 23, 14, 15 and 16.
pub fn norms(one: &SectionOne, transcript: &[u32]) -> Result<[Norm; 5], Refusal> {
    let p = &one.parameters;
    let words = |name: &str| words_of(Slice::Transcript, p, name, transcript);
    let t = digits_norm(words("t"), p.b, p.t_1)?;
    let g = digits_norm(words("g"), p.b, p.t_2)?;
    let h = digits_norm(words("h"), p.b, p.t_1)?;
    let sum = parts_norm(words("z"), p.b)? + t + g + h;
    let held = |number, what, norm, limit_name, limit| Norm { number, what, norm, limit_name, limit };
    let bound = |number, what, norm, name| held(number, what, norm, name, one.bound(name));
    Ok([
        held(21, "the projection p", norm_of(words("p"))?, "128·beta_sq", one.projection_limit()),
        bound(23, "z's two parts and the digits of t, g and h", sum, "beta_prime_sq"),
        bound(14, "the digits of t", t, "bound_B"),
        bound(15, "the digits of g", g, "bound_C"),
        bound(16, "the digits of h", h, "bound_D"),
    ])
}

//! Document 01, "Leaves".

use crate::Answer;

// Q of the tree: build.rs reads it where the engine has it
include!(concat!(env!("OUT_DIR"), "/modulus.rs"));

/// The greatest size of a centre.
pub const HALF: u32 = Q / 2;

pub const DEGREE: usize = 64;

pub type Element = [u32; DEGREE];

pub const ZERO: Element = [0; DEGREE];

/// The value below Q of a sum less a sum.
fn reduce(plus: u128, minus: u128) -> u32 {
    let q = u128::from(Q);
    ((plus % q + q - minus % q) % q) as u32
}

pub fn add(a: u32, b: u32) -> u32 {
    reduce(u128::from(a) + u128::from(b), 0)
}

pub fn sub(a: u32, b: u32) -> u32 {
    reduce(u128::from(a), u128::from(b))
}

pub fn mul(a: u32, b: u32) -> u32 {
    reduce(u128::from(a) * u128::from(b), 0)
}

pub fn neg(a: u32) -> u32 {
    sub(0, a)
}

pub fn centre(a: u32) -> i64 {
    if a > HALF {
        i64::from(a) - i64::from(Q)
    } else {
        i64::from(a)
    }
}

/// The canonical value of a whole number.
pub fn canonical(x: i64) -> u32 {
    x.rem_euclid(i64::from(Q)) as u32
}

/// One step of the digit rule on a size: the remainder, and the size that goes on.
pub fn step(base: u32, size: i64) -> (i64, i64) {
    let b = i64::from(base);
    let mut rem = size % b;
    if rem > b / 2 {
        rem -= b;
    }
    (rem, (size - rem) / b)
}

/// The digit rule with "what it dropped, as the size left over, with its digits" (document 02, Item 5).
pub fn decomposed(base: u32, parts: usize, a: u32) -> (Vec<u32>, u32) {
    let sign = centre(a).signum();
    let mut size = centre(a).abs();
    let digits = (0..parts)
        .map(|_| {
            let (rem, next) = step(base, size);
            size = next;
            canonical(sign * rem)
        })
        .collect();
    (digits, size as u32)
}

pub fn digits(base: u32, parts: usize, a: u32) -> Vec<u32> {
    decomposed(base, parts, a).0
}

/// What the digit rule has left of a value after so many parts.
pub fn left(base: u32, parts: usize, a: u32) -> u32 {
    decomposed(base, parts, a).1
}

/// Document 02, Item 9: "the whole rest with its sign", after digit 0.
pub fn rest(base: u32, a: u32) -> u32 {
    let (_, next) = step(base, centre(a).abs());
    canonical(centre(a).signum() * next)
}

pub fn entry(word: u32) -> i64 {
    match word {
        0..=1073741823 => -1,
        1073741824..=2147483647 => 1,
        _ => 0,
    }
}

/// The sum of centred squares.
pub fn norm(words: &[u32]) -> u128 {
    words.iter().map(|&a| u128::from(centre(a).unsigned_abs()).pow(2)).sum()
}

pub fn element(f: impl FnMut(usize) -> u32) -> Element {
    std::array::from_fn(f)
}

pub fn radd(a: &Element, b: &Element) -> Element {
    element(|k| add(a[k], b[k]))
}

pub fn rsub(a: &Element, b: &Element) -> Element {
    element(|k| sub(a[k], b[k]))
}

/// Σ a_i·b_j over i + j = k, less that over i + j = k + 64.
pub fn rmul(a: &Element, b: &Element) -> Element {
    element(|k| {
        let product = |i: usize, j: usize| u128::from(a[i]) * u128::from(b[j]);
        let low = (0..=k).map(|i| product(i, k - i)).sum();
        let high = (k + 1..DEGREE).map(|i| product(i, k + DEGREE - i)).sum();
        reduce(low, high)
    })
}

pub fn rscale(a: &Element, c: u32) -> Element {
    element(|k| mul(a[k], c))
}

pub fn rconj(a: &Element) -> Element {
    element(|k| if k == 0 { a[0] } else { neg(a[DEGREE - k]) })
}

/// The digits of an element, lowest first: row k has digit k of each coefficient.
pub fn rdigits(base: u32, parts: usize, a: &Element) -> Vec<Element> {
    let columns: Vec<Vec<u32>> = a.iter().map(|&c| digits(base, parts, c)).collect();
    (0..parts).map(|k| element(|j| columns[j][k])).collect()
}

/// "for one element a call beside it gives the 64 sizes".
pub fn rleft(base: u32, parts: usize, a: &Element) -> Element {
    element(|k| left(base, parts, a[k]))
}

/// The challenge of 41 sign words and 63 shuffle words.
pub fn challenge(signs: &[u32], shuffles: &[u32]) -> Element {
    let mut c = element(|k| match k {
        0..=30 => canonical(if signs[k] == 1 { 1 } else { -1 }),
        31..=40 => canonical(if signs[k] == 1 { 2 } else { -2 }),
        _ => 0,
    });
    for (step, i) in (1..DEGREE).rev().enumerate() {
        c.swap(i, shuffles[step] as usize % (i + 1));
    }
    c
}

/// ⟨a, b⟩ of two vectors.
pub fn dot(a: &[Element], b: &[Element]) -> Element {
    a.iter().zip(b).fold(ZERO, |sum, (x, y)| radd(&sum, &rmul(x, y)))
}

/// The first word at or above a limit is refused with the number; the first word is at the place.
pub fn below(limit: u32, number: u32, place: usize, words: &[u32]) -> Answer {
    match words.iter().position(|&w| w >= limit) {
        Some(i) => Answer::refused(number, place + i),
        None => Answer::FINE,
    }
}

/// A leaf call's operands.
pub fn operands(words: &[u32]) -> Answer {
    below(Q, 6, 0, words)
}

/// The operands of a leaf call for digits.
pub fn digit_operands(base: u32, parts: u32, words: &[u32]) -> Answer {
    if !(2..Q).contains(&base) {
        Answer::refused(4, 0)
    } else if !(1..=32).contains(&parts) {
        Answer::refused(4, 1)
    } else {
        below(Q, 6, 2, words)
    }
}

/// The operands of the challenge leaf.
pub fn challenge_operands(signs: &[u32]) -> Answer {
    below(2, 8, 0, signs)
}

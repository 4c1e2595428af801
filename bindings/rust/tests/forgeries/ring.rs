//! Sums and products of ring elements by the proved leaf calls, and sections of words.

use labrador::norms::elements;
use labrador::{ChallengeWords, Element, Zq, Q};

const CANONICAL: &str = "canonical words";

pub const ONE: Element = {
    let mut one = Element::ZERO;
    one.coeffs[0] = 1;
    one
};

pub fn add(a: &Element, b: &Element) -> Element {
    a.add(b).expect(CANONICAL)
}

pub fn sub(a: &Element, b: &Element) -> Element {
    a.sub(b).expect(CANONICAL)
}

pub fn mul(a: &Element, b: &Element) -> Element {
    a.mul_fast(b).expect(CANONICAL)
}

pub fn scale(a: &Element, c: u32) -> Element {
    a.scale(c).expect(CANONICAL)
}

/// Half of an element: Q is odd.
pub fn half(a: &Element) -> Element {
    scale(a, Q / 2 + 1)
}

/// ⟨a, b⟩, no conjugate taken.
pub fn dot(a: &[Element], b: &[Element]) -> Element {
    assert_eq!(a.len(), b.len());
    a.iter().zip(b).fold(Element::ZERO, |sum, (a, b)| add(&sum, &mul(a, b)))
}

/// a - b, element by element.
pub fn sub_each(a: &[Element], b: &[Element]) -> Vec<Element> {
    assert_eq!(a.len(), b.len());
    a.iter().zip(b).map(|(a, b)| sub(a, b)).collect()
}

/// c times each element.
pub fn mul_each(c: &Element, a: &[Element]) -> Vec<Element> {
    a.iter().map(|a| mul(c, a)).collect()
}

/// The sum of products of numbers modulo Q.
pub fn number_dot(a: &[u32], b: &[u32]) -> u32 {
    assert_eq!(a.len(), b.len());
    let sum = |sum: Zq, (&a, &b)| sum.add(Zq(a).mul(Zq(b))?);
    a.iter().zip(b).try_fold(Zq(0), sum).expect(CANONICAL).0
}

/// A triangle's sum over all r·r pairs, the triangle mirrored: Σ cells_ij·of(i, j).
pub fn mirrored(cells: &[Element], r: usize, of: impl Fn(usize, usize) -> Element) -> Element {
    let pairs = (0..r).flat_map(|i| (0..r).map(move |j| (i, j)));
    pairs.fold(Element::ZERO, |sum, (i, j)| add(&sum, &mul(&cells[cell(i, j)], &of(i, j))))
}

/// Σ a_ij·⟨s_i,s_j⟩ + Σ⟨φ_i,s_i⟩ of r vectors, one after the other.
pub fn left_side(a: &[Element], phi: &[Element], r: usize, vectors: &[Element]) -> Element {
    let s: Vec<&[Element]> = vectors.chunks_exact(vectors.len() / r).collect();
    add(&mirrored(a, r, |i, j| dot(s[i], s[j])), &dot(phi, vectors))
}

/// Where a triangle has cell (i, j) or (j, i).
pub fn cell(i: usize, j: usize) -> usize {
    let (row, column) = (i.max(j), i.min(j));
    row * (row + 1) / 2 + column
}

/// The digits of elements, each element's lowest first.
pub fn digits(elements: &[Element], base: u32, parts: u32) -> Vec<Element> {
    let of_element = |e: &Element| e.digits(base, parts).expect(CANONICAL)[..parts as usize].to_vec();
    elements.iter().flat_map(of_element).map(|coeffs| Element { coeffs }).collect()
}

/// A matrix, row after row, times a vector.
pub fn matrix_times(matrix: &[Element], vector: &[Element]) -> Vec<Element> {
    matrix.chunks_exact(vector.len()).map(|row| dot(row, vector)).collect()
}

/// The challenges of sign and shuffle words.
pub fn challenges(signs: &[u32], shuffle: &[u32]) -> Vec<Element> {
    let of_words = |(signs, shuffle): (&[u32], &[u32])| {
        let words = [signs, shuffle].concat().try_into().expect("41 and 63 words");
        ChallengeWords { words }.challenge().expect("sign words are 0 or 1")
    };
    signs.chunks_exact(41).zip(shuffle.chunks_exact(63)).map(of_words).collect()
}

pub fn to_elements(words: &[u32]) -> Vec<Element> {
    elements(words).collect()
}

pub fn to_words(elements: &[Element]) -> Vec<u32> {
    elements.iter().flat_map(|e| e.coeffs).collect()
}

/// Words after their count.
pub fn section(words: &[u32]) -> Vec<u32> {
    [&[words.len() as u32], words].concat()
}

/// The sections of words, without their counts.
pub fn split(words: &[u32]) -> Vec<&[u32]> {
    let mut sections = Vec::new();
    let mut rest = words;
    while let Some((&count, after)) = rest.split_first() {
        let (section, next) = after.split_at(count as usize);
        sections.push(section);
        rest = next;
    }
    sections
}

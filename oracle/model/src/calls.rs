//! The exported leaf calls on words: operands in the order of their places, results as words.

use crate::leaves::*;
use crate::words::SIGNS;
use crate::Answer;

/// The numbers are those of the recorded answers.
#[derive(Clone, Copy, Debug, PartialEq, Eq, PartialOrd, Ord)]
pub enum Leaf {
    ZqAdd = 1,
    ZqSub = 2,
    ZqMul = 3,
    ZqNeg = 4,
    ZqCentre = 5,
    ZqDigits = 6,
    ProjectionEntry = 7,
    RqAdd = 8,
    RqSub = 9,
    RqMul = 10,
    RqScale = 11,
    RqConj = 12,
    RqNorm = 13,
    RqDigits = 14,
    Challenge = 15,
    /// Document 02, Item 5.
    RqLeft = 16,
}

/// A leaf call's answer. The centre is an i64 in two words, a norm four words, both least first; a number's digits are
/// 32 words and then the size left over, an element's 32 rows of 64.
#[derive(Clone, Debug, PartialEq, Eq)]
pub struct LeafAnswer {
    pub number: u32,
    pub place: u32,
    pub result: Vec<u32>,
}

impl Leaf {
    pub const ALL: [Leaf; 16] = [
        Leaf::ZqAdd,
        Leaf::ZqSub,
        Leaf::ZqMul,
        Leaf::ZqNeg,
        Leaf::ZqCentre,
        Leaf::ZqDigits,
        Leaf::ProjectionEntry,
        Leaf::RqAdd,
        Leaf::RqSub,
        Leaf::RqMul,
        Leaf::RqScale,
        Leaf::RqConj,
        Leaf::RqNorm,
        Leaf::RqDigits,
        Leaf::Challenge,
        Leaf::RqLeft,
    ];

    pub fn name(self) -> &'static str {
        match self {
            Leaf::ZqAdd => "zq_add",
            Leaf::ZqSub => "zq_sub",
            Leaf::ZqMul => "zq_mul",
            Leaf::ZqNeg => "zq_neg",
            Leaf::ZqCentre => "zq_centre",
            Leaf::ZqDigits => "zq_digits",
            Leaf::ProjectionEntry => "projection_entry",
            Leaf::RqAdd => "rq_add",
            Leaf::RqSub => "rq_sub",
            Leaf::RqMul => "rq_mul",
            Leaf::RqScale => "rq_scale",
            Leaf::RqConj => "rq_conj",
            Leaf::RqNorm => "rq_norm",
            Leaf::RqDigits => "rq_digits",
            Leaf::Challenge => "challenge",
            Leaf::RqLeft => "rq_left",
        }
    }

    /// The number of operand words.
    pub fn operands(self) -> usize {
        match self {
            Leaf::ZqAdd | Leaf::ZqSub | Leaf::ZqMul => 2,
            Leaf::ZqNeg | Leaf::ZqCentre | Leaf::ProjectionEntry => 1,
            Leaf::ZqDigits => 3,
            Leaf::RqAdd | Leaf::RqSub | Leaf::RqMul => 128,
            Leaf::RqScale => 65,
            Leaf::RqConj | Leaf::RqNorm => 64,
            Leaf::RqDigits | Leaf::RqLeft => 66,
            Leaf::Challenge => 104,
        }
    }

    /// The number of result words.
    pub fn results(self) -> usize {
        match self {
            Leaf::ZqAdd | Leaf::ZqSub | Leaf::ZqMul | Leaf::ZqNeg | Leaf::ProjectionEntry => 1,
            Leaf::ZqCentre => 2,
            Leaf::ZqDigits => 33,
            Leaf::RqNorm => 4,
            Leaf::RqDigits => 32 * 64,
            _ => 64,
        }
    }

    /// The answers that the call can give.
    pub fn answers(self) -> &'static [u32] {
        match self {
            Leaf::ZqDigits | Leaf::RqDigits | Leaf::RqLeft => &[0, 4, 6],
            Leaf::Challenge => &[0, 8],
            _ => &[0, 6],
        }
    }

    /// The refusal of operands, or none.
    pub fn refusal(self, w: &[u32]) -> Answer {
        match self {
            Leaf::ZqDigits | Leaf::RqDigits | Leaf::RqLeft => digit_operands(w[0], w[1], &w[2..]),
            Leaf::Challenge => challenge_operands(&w[..SIGNS]),
            _ => operands(w),
        }
    }

    /// The answer to operands whose refusal is known, where `value` gives the result of fit ones.
    pub fn answer(self, w: &[u32], value: impl FnOnce(Leaf, &[u32]) -> Vec<u32>) -> LeafAnswer {
        let refusal = self.refusal(w);
        let mut result = if refusal.is_fine() { value(self, w) } else { vec![] };
        result.resize(self.results(), 0);
        LeafAnswer { number: refusal.number, place: refusal.place as u32, result }
    }
}

/// The words of a centre.
pub fn centre_words(x: i64) -> Vec<u32> {
    vec![x as u32, (x >> 32) as u32]
}

/// The words of a norm.
pub fn norm_words(x: u128) -> Vec<u32> {
    (0..4).map(|k| (x >> (32 * k)) as u32).collect()
}

/// The result of fit operands by the model; zeros may be missing at the end.
pub fn value(leaf: Leaf, w: &[u32]) -> Vec<u32> {
    let at = |k: usize| -> Element { w[k..k + DEGREE].try_into().expect("64 words") };
    match leaf {
        Leaf::ZqAdd => vec![add(w[0], w[1])],
        Leaf::ZqSub => vec![sub(w[0], w[1])],
        Leaf::ZqMul => vec![mul(w[0], w[1])],
        Leaf::ZqNeg => vec![neg(w[0])],
        Leaf::ZqCentre => centre_words(centre(w[0])),
        Leaf::ZqDigits => {
            let (mut digits, left) = decomposed(w[0], w[1] as usize, w[2]);
            digits.resize(32, 0);
            digits.push(left);
            digits
        }
        Leaf::ProjectionEntry => vec![canonical(entry(w[0]))],
        Leaf::RqAdd => radd(&at(0), &at(64)).to_vec(),
        Leaf::RqSub => rsub(&at(0), &at(64)).to_vec(),
        Leaf::RqMul => rmul(&at(0), &at(64)).to_vec(),
        Leaf::RqScale => rscale(&at(0), w[64]).to_vec(),
        Leaf::RqConj => rconj(&at(0)).to_vec(),
        Leaf::RqNorm => norm_words(norm(w)),
        Leaf::RqDigits => rdigits(w[0], w[1] as usize, &at(2)).concat(),
        Leaf::Challenge => challenge(&w[..SIGNS], &w[SIGNS..]).to_vec(),
        Leaf::RqLeft => rleft(w[0], w[1] as usize, &at(2)).to_vec(),
    }
}

//! The proved calls of the static library, on words. They take slices of any length and any words.

use model::calls::{Leaf, LeafAnswer};
use model::{Answer, Call};

/// The calls and their structs, as the Rust crate declares them.
#[path = "../../../bindings/rust/src/ffi.rs"]
pub mod ffi;
pub mod load;
pub mod many;
pub mod mistyped;
pub mod ranges;
pub mod recompose;
pub mod sheds;
pub mod slices;

/// A leaf call on its operand words.
pub fn leaf(leaf: Leaf, w: &[u32]) -> LeafAnswer {
    use ffi::*;
    use model::calls::{centre_words, norm_words};
    let at = |k: usize| Element { coeffs: w[k..k + 64].try_into().expect("64 words") };
    let number = |a: WordAnswer| (a.number, a.place, vec![a.value]);
    let element = |a: ElementAnswer| (a.number, a.place, a.coeffs.to_vec());
    let (number, place, result) = match leaf {
        Leaf::ZqAdd => number(zq_add(w[0], w[1])),
        Leaf::ZqSub => number(zq_sub(w[0], w[1])),
        Leaf::ZqMul => number(zq_mul(w[0], w[1])),
        Leaf::ZqNeg => number(zq_neg(w[0])),
        Leaf::ProjectionEntry => number(projection_entry(w[0])),
        Leaf::ZqCentre => {
            let a = zq_centre(w[0]);
            (a.number, a.place, centre_words(a.value))
        }
        Leaf::ZqDigits => {
            let a = zq_digits(w[0], w[1], w[2]);
            (a.number, a.place, [&a.digits[..], &[a.left]].concat())
        }
        Leaf::RqAdd => element(rq_add(at(0), at(64))),
        Leaf::RqSub => element(rq_sub(at(0), at(64))),
        Leaf::RqMul => {
            // both products, which must agree
            let plain = element(rq_mul(at(0), at(64)));
            let fast = element(rq_mul_fast(at(0), at(64)));
            assert_eq!(fast, plain, "the fast product");
            plain
        }
        Leaf::RqScale => element(rq_scale(at(0), w[64])),
        Leaf::RqConj => element(rq_conj(at(0))),
        Leaf::Challenge => {
            let words = w.try_into().expect("104 words");
            element(challenge(ChallengeWords { words }))
        }
        Leaf::RqLeft => element(rq_left(w[0], w[1], at(2))),
        Leaf::RqNorm => {
            let a = rq_norm(at(0));
            (a.number, a.place, norm_words(joined(a.hi, a.lo)))
        }
        Leaf::RqDigits => {
            // words that the call must overwrite, and some behind them that it must not
            let mut rows = vec![0xc0de_c0de; 32 * 64 + 16];
            let a = rq_digits(w[0], w[1], at(2), &mut rows[..32 * 64]);
            let guard = rows.split_off(32 * 64);
            assert_eq!(guard, [0xc0de_c0de; 16], "words behind the lent rows");
            (a.number, a.place, rows)
        }
    };
    LeafAnswer { number, place, result }
}

/// The slices of a call on whole slices, and its lent buffers.
pub struct Handed<'a> {
    pub job: &'a [u32],
    pub randomness: &'a [u32],
    pub third: &'a [u32],
    pub scratch: &'a mut [u32],
    pub output: &'a mut [u32],
}

impl From<ffi::Verdict> for Answer {
    fn from(a: ffi::Verdict) -> Answer {
        Answer {
            number: a.number,
            place: a.place,
            index: a.index,
            first: ffi::joined(a.first_hi, a.first_lo),
            second: ffi::joined(a.second_hi, a.second_lo),
            cells_left: a.cells_left,
        }
    }
}

impl From<ffi::Answer> for Answer {
    fn from(a: ffi::Answer) -> Answer {
        Answer { number: a.number, place: a.place, ..Answer::FINE }
    }
}

/// A call on whole slices.
pub fn whole(call: Call, handed: Handed) -> Answer {
    let Handed { job, randomness, third, scratch, output } = handed;
    let round = match call {
        Call::Verify => return ffi::verify(job, randomness, third, scratch).into(),
        Call::Prove => 0,
        Call::Round(round) => round,
    };
    ffi::prove(round, job, randomness, third, scratch, output).into()
}

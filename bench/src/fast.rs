//! The fast product, and inner products of 64 terms by transforms, a term at a time: ours and the Rust's product.

use crate::kernels::Kernel;
use harness::random::Random;
use harness::rust;
use library::ffi::{self, Element};
use std::hint::black_box;

extern "C" {
    fn ntt_inner_product(a: Element, b: Element, n: u32) -> Element;
    fn fast_inner_product(a: Element, b: Element, n: u32) -> Element;
}

/// Terms of an inner product, and inputs of a series.
const TERMS: usize = 64;

fn element(random: &mut Random) -> Element {
    Element { coeffs: random.numbers(64).try_into().expect("64 words") }
}

/// Each call of `ours` stands for `terms` products of the Rust's.
fn against_products(random: &mut Random, terms: usize, mut ours: impl FnMut(&Element, &Element) + 'static) -> Kernel {
    let pairs: Vec<_> = (0..TERMS).map(|_| (element(random), element(random))).collect();
    let theirs: Vec<_> = pairs.iter().map(|(a, b)| (rust::element(&a.coeffs), rust::element(&b.coeffs))).collect();
    Kernel {
        calls: TERMS,
        rounds: 500,
        ours: Box::new(move || {
            for (a, b) in &pairs[..TERMS / terms] {
                ours(black_box(a), b);
            }
        }),
        prepare: Box::new(|| {}),
        theirs: Box::new(move || {
            for (a, b) in &theirs {
                black_box(black_box(a) * b);
            }
        }),
    }
}

pub fn product(random: &mut Random) -> Kernel {
    against_products(random, 1, |a, b| {
        black_box(ffi::rq_mul_fast(*a, *b));
    })
}

pub fn nothing_in_ntt_form(random: &mut Random) -> Kernel {
    against_products(random, TERMS, |a, b| {
        black_box(unsafe { fast_inner_product(*a, *b, TERMS as u32) });
    })
}

pub fn both_in_ntt_form(random: &mut Random) -> Kernel {
    against_products(random, TERMS, |a, b| {
        black_box(unsafe { ntt_inner_product(*a, *b, TERMS as u32) });
    })
}

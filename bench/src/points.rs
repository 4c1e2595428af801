//! Prove and verify against the Rust at parameters that are given, for a look at any size.

use crate::kernels::{parameters, with};
use crate::table::time;
use harness::random::Random;
use model::words::Parameters;
use model::Call;

/// The parameters with one of another value; the names are those of `labrador load`.
fn set(p: &mut Parameters, word: &str) {
    let (name, value) = word.split_once('=').unwrap_or_else(|| panic!("no NAME=VALUE: {word}"));
    let number: usize = value.parse().unwrap_or_else(|_| panic!("no number: {word}"));
    match name {
        "n" => p.n = number,
        "r" => p.r = number,
        "kappa" => p.kappa = number,
        "kappa_1" => p.kappa1 = number,
        "kappa_2" => p.kappa2 = number,
        "K" => p.ring = number,
        "l" => p.constant = number,
        "b" => p.b = u32::try_from(number).expect("a base below 2^32"),
        "t_1" => p.t1 = number,
        "t_2" => p.t2 = number,
        "L" => p.aggregations = number,
        _ => panic!("no parameter {name}"),
    }
}

/// A line with the ratios, ours to the Rust's, of a prove and a verify; what is not given is as in the table.
pub fn print(words: &[&str]) {
    let mut p = parameters(16, 4);
    for word in words {
        set(&mut p, word);
    }
    let [prove, verify] = [Call::Prove, Call::Verify].map(|call| {
        let (ours, theirs) = time(&mut with(&mut Random::new(1), call, p));
        ours / theirs
    });
    println!("{}: prove {prove:.3}, verify {verify:.3}", words.join(" "));
}

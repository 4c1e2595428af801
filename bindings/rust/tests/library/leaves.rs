//! The leaf calls as methods: document 01's table, and their refusals in words.

use labrador::{
    parts_needed, projection_entry, ranges, recompose, ChallengeWords, Element, Meets, Parameters, Zq, HALF, Q,
};

use crate::common::{made, set_bound, NOT_BELOW};

#[test]
fn numbers() {
    assert_eq!(Zq(Q - 1).add(Zq(1)), Ok(Zq(0)));
    assert_eq!(Zq(0).sub(Zq(1)), Ok(Zq(Q - 1)));
    // 2^32 and 2^32 - 1, modulo Q
    assert_eq!(Zq(65536).mul(Zq(65536)), Ok(Zq(u32::MAX - Q + 1)));
    assert_eq!(Zq(65537).mul(Zq(65535)), Ok(Zq(u32::MAX - Q)));
    assert_eq!(Zq(1).neg(), Ok(Zq(Q - 1)));
    assert_eq!(Zq(Q - 1).centre(), Ok(-1));
    assert_eq!(Zq(7).digits(4, 2).unwrap().digits[..3], [Q - 1, 2, 0]);
    assert_eq!(projection_entry(1073741823), Ok(Zq(Q - 1)));
    assert_eq!(recompose(4, &[Q - 1, 2]), Ok(Zq(7)));
    assert_eq!(parts_needed(2), Ok(31));
}

#[test]
fn refusals_of_numbers() {
    let told = |refusal: Result<Zq, labrador::Refusal>| refusal.unwrap_err().to_string();
    assert_eq!(told(Zq(1).add(Zq(Q))), format!("refusal 6: word 1 of the operands is {Q}, {NOT_BELOW}"));
    assert_eq!(told(recompose(1, &[1])), format!("refusal 31: the base is 1, not from 2 to {}", Q - 1));
    assert_eq!(told(recompose(2, &[0; 33])), "refusal 31: the number of digits is 33, not from 1 to 32");
    assert_eq!(told(recompose(2, &[0, Q])), format!("refusal 6: word 3 of the operands is {Q}, {NOT_BELOW}"));
    let refusal = Zq(1).digits(2, 33).unwrap_err();
    assert_eq!(refusal.to_string(), "refusal 4: the number of parts is 33, not from 1 to 32");
    assert_eq!(parts_needed(0).unwrap_err().number(), 31);
}

#[test]
fn elements() {
    let (x, x_63) = (Element::monomial(1, 1), Element::monomial(1, 63));
    assert_eq!(x.mul(&x_63), Ok(Element::monomial(Q - 1, 0)));
    assert_eq!(x.mul_fast(&x_63), x.mul(&x_63));
    assert_eq!(x.conj(), Ok(Element::monomial(Q - 1, 63)));
    assert_eq!(x.add(&x), x.scale(2));
    assert_eq!(x.sub(&x), Ok(Element::ZERO));
    assert_eq!(Element::monomial(Q - 3, 5).norm(), Ok(9));
    let rows = Element::monomial(7, 9).digits(4, 2).unwrap();
    assert_eq!((rows[0][9], rows[1][9], rows[2][9]), (Q - 1, 2, 0));
}

#[test]
fn refusals_of_elements() {
    let (x, bad) = (Element::monomial(1, 1), Element::monomial(Q, 3));
    let told = |refusal: labrador::Refusal| refusal.to_string();
    assert_eq!(told(x.mul(&bad).unwrap_err()), format!("refusal 6: word 67 of the operands is {Q}, {NOT_BELOW}"));
    assert_eq!(told(x.digits(1, 1).unwrap_err()), format!("refusal 4: the base is 1, not from 2 to {}", Q - 1));
    let short = x.digits_into(2, 1, &mut [0; 5]).unwrap_err();
    assert_eq!(told(short), "refusal 2: the output has 5 words, and 2048 are needed");
    let mut words = ChallengeWords { words: [0; 104] };
    assert_eq!(words.challenge().unwrap().coeffs[62..], [0, Q - 1]);
    words.words[40] = 2;
    assert_eq!(told(words.challenge().unwrap_err()), "refusal 8: sign word 40 is 2, neither 0 nor 1");
}

#[test]
fn a_witness_within_ranges() {
    let p = Parameters::SMALL;
    let mut job = made(&p, 1).job;
    set_bound(&mut job, "bound_A", 4 * 64);
    let numbers = 64 * 4 * 3;
    let told = ranges(&job, &vec![0; numbers], &vec![1; numbers]).unwrap();
    assert_eq!(told.len(), 3);
    assert!(told.iter().all(|v| v.meets == Meets::Every && v.least == 0 && v.greatest == 256));
    let wide = ranges(&job, &vec![0; numbers], &vec![2; numbers]).unwrap();
    assert_eq!((wide[0].meets, wide[0].greatest), (Meets::SomeNotEvery, 1024));
    assert_eq!(ranges(&job, &vec![2; numbers], &vec![2; numbers]).unwrap()[2].meets, Meets::None);
}

#[test]
fn refusals_of_ranges() {
    let job = made(&Parameters::SMALL, 1).job;
    let told = |lows: &[i64], highs: &[i64]| ranges(&job, lows, highs).unwrap_err().to_string();
    let zeros = vec![0; 768];
    assert_eq!(told(&zeros[1..], &zeros), "refusal 11: there are 767 lows, and 64·r·n is 768");
    assert_eq!(told(&zeros, &[]), "refusal 11: there are 0 highs, and 64·r·n is 768");
    let mut lows = zeros.clone();
    lows[3] = 1;
    assert_eq!(told(&lows, &zeros), "refusal 36: pair 3 goes from 1 to 0, which is below");
    lows[2] = i64::MIN;
    assert_eq!(told(&lows, &zeros), format!("refusal 37: pair 2 goes from {} to 0, beyond ±{HALF}", i64::MIN));
}

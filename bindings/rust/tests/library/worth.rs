//! What an acceptance is worth, against exact fractions.

use labrador::section_one::SectionOne;
use labrador::worth::{
    passes_without_witness, repeats, zero_sections, Fraction, Repeat, Shared, Worth, DEFAULT, MODULUS, PRIME,
};
use labrador::{load, prove, Parameters, Sent, Slice, Q};

use crate::common::{begin, made, set_bound, ONE};

/// Over 2^32 - 1 with L rows and several vectors.
fn with(rows: u32) -> Worth {
    Worth { modulus: &DEFAULT, rows, constant_terms: true, vectors: 2, certain: false }
}

fn whole(number: u128) -> Fraction {
    Fraction::new(number, 1)
}

#[test]
fn one_transcript() {
    let in_86 = Fraction::new(197377, 16974593);
    assert_eq!(with(4).one(), Fraction::new(1, 81));
    for rows in 5..=32 {
        assert_eq!(with(rows).one(), in_86, "{rows}");
    }
    assert_eq!(Worth { constant_terms: false, ..with(4) }.one(), in_86);
    // of one vector the form is a square
    let in_129 = Fraction::new(513, 66049);
    assert_eq!(Worth { vectors: 1, ..with(5) }.one(), in_129);
    assert_eq!(Worth { vectors: 1, constant_terms: false, ..with(4) }.one(), in_129);
    assert_eq!(Worth { vectors: 1, ..with(4) }.one(), Fraction::new(1, 81));
    assert_eq!(Worth { certain: true, ..with(32) }.one(), whole(1));
    let told = [with(4), with(5), Worth { vectors: 1, ..with(5) }].map(|worth| worth.one().to_string());
    assert_eq!(told, ["1 in 81", "1 in 86", "1 in 129"]);
}

#[test]
fn errors_by_the_divisors_of_the_modulus() {
    let wide = Fraction::new(65537u128.pow(3) - 65536u128.pow(3), 65537u128.pow(3));
    let expected = [Fraction::new(197377, 16974593).mul(&wide), wide, Fraction::new(197377, 16974593)];
    let chances: Vec<Fraction> = DEFAULT.divisors().iter().map(|divisor| with(4).in_slots(&divisor.slots)).collect();
    assert_eq!(chances, expected);
    let told: Vec<String> = chances.iter().map(|chance| format!("{chance} {:.1}", chance.bits())).collect();
    assert_eq!(told, ["1 in 1.9 million 20.8", "1 in 21,846 14.4", "1 in 86 6.4"]);
}

#[test]
fn drawn_by_the_desk() {
    assert_eq!(with(4).drawn(8), Fraction::new(1, 81u128.pow(8)));
    assert_eq!(with(5).drawn(3), Fraction::new(197377u128.pow(3), 16974593u128.pow(3)));
    let needed = |worth: Worth| [64, 100].map(|bits| worth.drawn_needed(bits));
    assert_eq!(needed(with(4)), [Some(11), Some(16)]);
    for rows in [5, 16, 32] {
        assert_eq!(needed(with(rows)), [Some(10), Some(16)]);
    }
    // 81^10 is below 2^64, 81^11 above
    assert!(81u128.pow(10) < 1 << 64 && 81u128.pow(11) > 1 << 64);
    assert_eq!(needed(Worth { certain: true, ..with(5) }), [None, None]);
    let eight = [4, 5].map(|rows| format!("{:.1}", with(rows).drawn(8).bits()));
    assert_eq!(eight, ["50.7", "51.4"]);
}

/// The tries of one choice of a, b and c, as the formula has them; `tail` is 257^(N - a) times the chance that b or more of N - a
/// slip through at beta.
fn tries(rows: u32, [a, b, c]: [u32; 3], tail: u128) -> Fraction {
    let psi = if a > 0 { 3u128.pow(rows * a) } else { 0 };
    let beta = Fraction::new(257u128.pow(b + c), tail);
    whole(psi).add(&beta).add(&Fraction::new(257u128.pow(c), 2u128.pow(c)))
}

#[test]
fn eight_under_one_joint_hash() {
    let [x, y, z] = [1, 2, 3].map(|k| 256u128.pow(k));
    let w = x * z;
    let cheapest = [
        (4, [3, 3, 2], 10 * y + 5 * x + 1),
        (16, [1, 4, 3], 35 * z + 21 * y + 7 * x + 1),
        (32, [0, 4, 4], 70 * w + 56 * z + 28 * y + 8 * x + 1),
    ];
    let mut bits = Vec::new();
    for (rows, choice, tail) in cheapest {
        let joint = with(rows).joint(8).unwrap();
        assert_eq!(joint, tries(rows, choice, tail), "{rows}");
        bits.push(format!("{:.1}", -joint.bits()));
    }
    assert_eq!(bits, ["21.1", "27.3", "28.3"]);
}

/// The least of all choices, each by the binomial sum itself.
fn least(worth: &Worth, count: u32) -> Fraction {
    let choose = |n: u32, k: u32| (0..u128::from(k)).fold(1, |ways, i| ways * (u128::from(n) - i) / (i + 1));
    let tail = |n: u32, b: u32| (b..=n).map(|k| choose(n, k) * 256u128.pow(n - k)).sum::<u128>();
    let zeros = if worth.vectors == 1 { 1u128 } else { 2 };
    let mut all = Vec::new();
    for a in 0..=if worth.constant_terms { count } else { 0 } {
        for b in 0..=count - a {
            let c = count - a - b;
            let psi = if a > 0 { whole(3).pow(worth.rows * a) } else { whole(0) };
            let beta = if b > 0 { Fraction::new(257u128.pow(b + c), tail(b + c, b)) } else { whole(0) };
            let form = if c > 0 { Fraction::new(257, zeros).pow(c) } else { whole(0) };
            all.push(psi.add(&beta).add(&form));
        }
    }
    all.into_iter().min().unwrap()
}

#[test]
fn the_joint_hash_is_the_least_of_all_choices() {
    for (rows, vectors, constant_terms) in [(4, 2, true), (5, 16, true), (16, 1, true), (32, 3, false), (4, 1, false)] {
        let worth = Worth { vectors, constant_terms, ..with(rows) };
        for count in 1..=12 {
            assert_eq!(worth.joint(count), Some(least(&worth, count)), "{worth:?} {count}");
        }
    }
}

#[test]
fn needed_under_one_joint_hash() {
    let needed = |rows| [64, 100].map(|bits| with(rows).joint_needed(bits).unwrap());
    assert_eq!([4, 5, 16, 32].map(needed), [[28, 45], [26, 42], [21, 33], [20, 31]]);
    let one_less = with(4).joint(27).unwrap();
    assert!(one_less < whole(1 << 64) && with(4).joint(28).unwrap() >= whole(1 << 64));
    assert_eq!(Worth { certain: true, ..with(5) }.joint_needed(64), None);
}

#[test]
fn hashed_alone_is_never_enough() {
    assert_eq!(with(4).hashed_alone(8), Some(whole(8 * 81)));
    assert_eq!(with(5).hashed_alone(8), Some(whole(1028)));
    assert_eq!(Worth { vectors: 1, ..with(32) }.hashed_alone(8), Some(whole(8 * 257)));
    assert!(with(32).hashed_alone(1_000_000).unwrap() < whole(1 << 28));
}

#[test]
fn over_the_prime() {
    let [psi, beta] = [4, 32].map(|power| Fraction::new(1, 4294967197).pow(power));
    let challenges = Fraction::new(1, 180857904167729203298370297515149885440).add(&beta);
    let prime = |rows| Worth { modulus: &PRIME, ..with(rows) };
    // the challenges are fewer than q^L
    assert!(psi < challenges);
    for rows in [4, 5, 32] {
        assert_eq!(prime(rows).one(), challenges);
        assert_eq!(Worth { constant_terms: false, ..prime(rows) }.one(), challenges);
        let [one, two] = [1, 2].map(|count| prime(rows).joint(count).unwrap());
        assert!(one.mul(&challenges) == whole(1) && two > one);
    }
    assert_eq!(Worth { vectors: 1, ..prime(4) }.one(), psi);
    assert_eq!(Worth { vectors: 1, ..prime(4) }.joint(3).unwrap().mul(&psi.pow(3)), whole(1));
    assert_eq!(Worth { vectors: 1, constant_terms: false, ..prime(4) }.one(), beta);
    let needed = |worth: Worth| [64, 100, 128].map(|bits| (worth.drawn_needed(bits), worth.joint_needed(bits)));
    assert_eq!(needed(prime(4)), [(Some(1), Some(1)), (Some(1), Some(1)), (Some(2), Some(2))]);
    let eight = [prime(4).drawn(8).bits(), -prime(4).joint(8).unwrap().bits()];
    assert_eq!(eight.map(f64::round), [1017.0, 512.0]);
    // what passes for certain does so over the prime too
    assert_eq!(Worth { certain: true, ..prime(4) }.one(), whole(1));
}

#[test]
fn the_archive_has_its_facts() {
    assert_eq!(MODULUS.q, Q);
    assert!([DEFAULT, PRIME].contains(&MODULUS));
}

#[test]
fn without_a_witness() {
    let p = Parameters { n: 4, r: 2, kappa: 1, ..Parameters::SMALL };
    let mut job = made(&p, 3).job;
    let certain = |job: &[u32]| {
        let one = SectionOne::read(job).unwrap();
        assert_eq!(Worth::of(&one).certain, passes_without_witness(&one));
        Worth::of(&one).one().to_string()
    };
    assert_eq!(certain(&job), "1 in 1");
    set_bound(&mut job, "beta_prime_sq", 1 << 30);
    assert_eq!(certain(&job), ONE);
    assert_eq!(certain(&made(&Parameters { n: 3, ..p }, 3).job), ONE);
}

#[test]
fn weights_that_are_all_zero() {
    let p = Parameters::SMALL;
    let case = made(&p, 3);
    assert!(zero_sections(&p, &case.randomness).is_empty());
    let told = [
        "psi is all zero in the randomness: the constant-term constraints were not tested",
        "omega is all zero in the randomness: the projection p was not tested",
        "alpha is all zero in the randomness: the ring constraints were not tested",
        "beta is all zero in the randomness: the constant-term constraints and the projection p were not tested",
    ];
    let mut all = case.randomness.clone();
    for (name, told) in ["psi", "omega", "alpha", "beta"].into_iter().zip(told) {
        let at = begin(Slice::Randomness, &p, name);
        let end = at + case.randomness[at - 1] as usize;
        let mut one = case.randomness.clone();
        one[at..end].fill(0);
        all[at..end].fill(0);
        let found: Vec<String> = zero_sections(&p, &one).iter().map(|section| section.to_string()).collect();
        assert_eq!(found, [told]);
        one[end - 1] = 1;
        assert!(zero_sections(&p, &one).is_empty());
    }
    assert_eq!(zero_sections(&p, &all).len(), 4);
    // a section without words has no weights
    let p = Parameters { l: 0, ..p };
    assert!(zero_sections(&p, &made(&p, 3).randomness).is_empty());
}

#[test]
fn what_is_handed_in_twice_counts_once() {
    let p = Parameters::SMALL;
    let case = made(&p, 1);
    let mut drawn: Vec<Vec<u32>> = (1..=3).map(|seed| load(&p, seed).unwrap().randomness).collect();
    let transcripts: Vec<Vec<u32>> =
        drawn.iter().map(|randomness| prove(&case.job, randomness, &case.witness).unwrap()).collect();
    let told = |drawn: &[Vec<u32>], pairs: &[(usize, usize)]| {
        let sent = |&(r, t): &(usize, usize)| Sent { randomness: &drawn[r], transcript: &transcripts[t] };
        repeats(&p, &pairs.iter().map(sent).collect::<Vec<_>>())
    };
    assert_eq!(told(&drawn, &[(0, 0), (1, 1), (2, 2)]), []);
    let same = Repeat { index: 2, of: 0, shared: Shared::Transcript };
    assert_eq!(told(&drawn, &[(0, 0), (1, 1), (0, 0)]), [same]);
    assert_eq!(told(&drawn, &[(0, 0), (1, 1), (2, 0)]), [same]);
    assert_eq!(told(&drawn, &[(0, 0), (1, 1), (0, 2)]), [Repeat { shared: Shared::Randomness, ..same }]);
    // the third shares nothing with one that counts
    assert_eq!(told(&drawn, &[(0, 0), (0, 1), (1, 1)]), [Repeat { index: 1, of: 0, shared: Shared::Randomness }]);
    let psi = begin(Slice::Randomness, &p, "psi");
    let words = drawn[0][psi..psi + drawn[0][psi - 1] as usize].to_vec();
    drawn[2][psi..psi + words.len()].copy_from_slice(&words);
    let section = Repeat { shared: Shared::Section("psi"), ..same };
    assert_eq!(told(&drawn, &[(0, 0), (1, 1), (2, 2)]), [section]);
    assert_eq!(section.shared.to_string(), "section psi of the randomness");
}

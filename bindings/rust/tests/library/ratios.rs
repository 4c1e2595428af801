//! Constraints that repeat or contradict one another up to a number.

use labrador::review::{review, Finding, Kind, Ratio};
use labrador::{Parameters, Slice, Zq, Q};

use crate::common::{begin, made, over};
use crate::statement::{head, parsed};

/// What is found of the totals of a statement, in the review's words, without the place.
fn told(totals: &[&str]) -> Vec<String> {
    let lines: String = totals.iter().map(|total| format!("total {total}\n")).collect();
    let found = review(&parsed(&format!("{}{lines}total 0 = s1 + s2\n", head())).job()).unwrap();
    let is_of_constraints = |finding: &&Finding| {
        matches!(finding, Finding::Repeated { .. } | Finding::Contradicts { .. } | Finding::NoCoefficientModulo { .. })
    };
    let line = |finding: &Finding| finding.to_string().split(" (from word").next().unwrap().to_string();
    found.iter().filter(is_of_constraints).map(line).collect()
}

const TIMES: &str = "both its sides are that one's, times a number";

fn repeats(index: u32, of: u32) -> String {
    format!("constant-term constraint {index} repeats constant-term constraint {of}: {TIMES}")
}

fn contradicts(index: u32, of: u32, sides: &str) -> String {
    format!(
        "constant-term constraint {index} contradicts constant-term constraint {of}: {sides}, and no witness meets both"
    )
}

const NUMBER: &str = "the left sides are the same up to a number, the right sides are not by that number";

#[test]
fn factors_that_are_units() {
    assert_eq!(told(&["60 = s0", "-60 = - s0"]), [repeats(1, 0)]);
    assert_eq!(told(&["60 = s0", "-61 = - s0"]), [contradicts(1, 0, NUMBER)]);
    assert_eq!(told(&["60 = s0", "120 = 2 * s0"]), [repeats(1, 0)]);
    assert_eq!(told(&["60 = s0", "61 = 2 * s0"]), [contradicts(1, 0, NUMBER)]);
    assert_eq!(told(&["120 = 2 * s0", "-180 = - 4 * s0 + s0"]), [repeats(1, 0)]);
    // all three, the repeat first
    assert_eq!(told(&["60 = s0", "-61 = - s0", "120 = 2 * s0"]), [repeats(2, 0), contradicts(1, 0, NUMBER)]);
    // sums and differences are no multiples, and another run is another left side
    assert_eq!(told(&["60 = s0", "5 = s0[1..128]", "65 = 2 * s0 - s0[0]", "7 = s0 - s1"]), Vec::<String>::new());
    assert_eq!(told(&["60 = s0 + 2 * s1", "60 = 2 * s0 + s1"]), Vec::<String>::new());
}

#[test]
fn the_same_words() {
    let same = "constant-term constraint 1 repeats constant-term constraint 0";
    assert_eq!(told(&["60 = s0", "60 = 2 * s0 - s0"]), [same]);
    assert_eq!(
        told(&["60 = s0", "61 = s0"]),
        [contradicts(1, 0, "the left sides are the same, the right sides are not")]
    );
}

/// 3 divides 2^32 - 1: three times a total says less than the total, and modulo 3 nothing.
#[test]
fn factors_that_share_a_divisor_with_q() {
    assert_eq!(told(&["60 = s0", "180 = 3 * s0"]), [repeats(1, 0)]);
    // the first is implied by the second, over the prime by each other
    assert_eq!(told(&["180 = 3 * s0", "60 = s0"]), [over(repeats(0, 1).as_str(), &repeats(1, 0))]);
    assert_eq!(told(&["60 = s0", "181 = 3 * s0"]), [contradicts(1, 0, NUMBER)]);
    // modulo 3 no witness meets the first
    let found = told(&["181 = 3 * s0", "60 = s0"]);
    assert_eq!((found.len(), found.last()), (over(2, 1), Some(&contradicts(1, 0, NUMBER))));
    // both say the same of s0 modulo the other primes; modulo 3 only the second says something, modulo 5 only the first
    assert_eq!(told(&["180 = 3 * s0", "300 = 5 * s0"]), over::<&[String]>(&[], &[repeats(1, 0)]));
    let but_for_15 = format!("modulo 286331153, which divides Q, {NUMBER}");
    assert_eq!(told(&["180 = 3 * s0", "305 = 5 * s0"]), [contradicts(1, 0, over(but_for_15.as_str(), NUMBER))]);
    // a factor of 3·5 and one of 3: neither is a unit, and one is a multiple of the other
    assert_eq!(told(&["180 = 3 * s0", "900 = 15 * s0"]), [repeats(1, 0)]);
    assert_eq!(told(&["900 = 15 * s0", "180 = 3 * s0"]), [over(repeats(0, 1).as_str(), &repeats(1, 0))]);
}

/// Equal modulo 3 alone: 4 is 1 modulo 3.
#[test]
fn left_sides_that_are_the_same_modulo_a_divisor() {
    let modulo = format!("modulo 3, which divides Q, {NUMBER}");
    let found = told(&["60 = s0", "61 = s0 + 3 * s0[0]"]);
    assert_eq!(found, over::<&[String]>(&[contradicts(1, 0, &modulo)], &[]));
    // 63 is 60 modulo 3: no witness is excluded, and neither implies the other
    assert_eq!(told(&["60 = s0", "63 = s0 + 3 * s0[0]"]), Vec::<String>::new());
}

#[test]
fn a_left_side_that_is_zero_modulo_a_divisor() {
    let line = "constant-term constraint 0 has no coefficient modulo 3, which divides Q, and a right side that is not 0 there: no witness \
                meets it";
    assert_eq!(told(&["61 = 3 * s0"]), over::<&[&str]>(&[line], &[]));
    assert_eq!(told(&["60 = 3 * s0"]), Vec::<String>::new());
    // two that say nothing modulo all primes but one, and nothing of each other
    let [by_3, by_5] = [Q / 3, Q / 5];
    let totals = [format!("0 = {by_3} * s0"), format!("0 = {by_5} * s0")];
    assert_eq!(told(&[&totals[0], &totals[1]]), over::<&[String]>(&[], &[repeats(1, 0)]));
}

/// The constant term of a ring constraint, times a number; and ring constraints times a number.
#[test]
fn constraints_of_both_kinds() {
    const P: Parameters = Parameters { n: 2, r: 2, ..Parameters::SMALL };
    let at = |name: &str| begin(Slice::Job, &P, name);
    let (a, phi) = (64 * 3, 64 * 4);
    let times = |job: &mut [u32], from: usize, to: usize, length: usize, factor: u32| {
        (0..length).for_each(|k| job[to + k] = Zq(job[from + k]).mul(Zq(factor)).unwrap().0);
    };
    let found = |job: &[u32]| {
        let of_constraints = |f: &Finding| matches!(f, Finding::Repeated { .. } | Finding::Contradicts { .. });
        review(job).unwrap().into_iter().filter(of_constraints).collect::<Vec<_>>()
    };
    let mut job = made(&P, 3).job;
    for (from, to, length) in [("a", "a'", a), ("phi", "phi'", phi), ("b", "b0", 1)] {
        times(&mut job, at(from), at(to), length, Q - 7);
    }
    let (index, place) = (0, at("a'") as u64);
    let (kind, of_kind) = (Kind::ConstantTerm, Kind::Ring);
    assert_eq!(found(&job), [Finding::Repeated { kind, index, of_kind, of: 0, multiple: true, at: place }]);
    job[at("b0")] = (job[at("b0")] + 1) % Q;
    let ratio = Ratio::Multiple;
    assert_eq!(found(&job), [Finding::Contradicts { kind, index, of_kind, of: 0, ratio, at: place }]);
    let mut job = made(&P, 3).job;
    for (name, length) in [("a", a), ("phi", phi), ("b", 64)] {
        times(&mut job, at(name), at(name) + length, length, 2);
    }
    let (kind, index, place) = (Kind::Ring, 1, (at("a") + a) as u64);
    assert_eq!(found(&job), [Finding::Repeated { kind, index, of_kind, of: 0, multiple: true, at: place }]);
    job[at("b") + 64 + 63] = (job[at("b") + 64 + 63] + 1) % Q;
    assert_eq!(found(&job), [Finding::Contradicts { kind, index, of_kind, of: 0, ratio, at: place }]);
}

/// 64 totals of all lines of 16 vectors of 64 elements: each is another one's multiple, or differs from it in the last line alone.
#[test]
fn the_greatest_statement() {
    let all: String = (0..16).map(|k| format!(" + s{k}")).collect();
    let text = head().replace("n 2\n", "n 64\n").replace("r 3\n", "r 16\n");
    let last = |k: u32| if k.is_multiple_of(2) { String::new() } else { format!(" + {k} * s15[4095]") };
    let totals: String = (0..64).map(|k| format!("total 0 ={all}{}\n", last(k))).collect();
    let found = review(&parsed(&format!("{text}{totals}")).job()).unwrap();
    let repeated = found.iter().filter(|finding| matches!(finding, Finding::Repeated { of: 0, multiple: false, .. }));
    assert_eq!(repeated.count(), 31);
}

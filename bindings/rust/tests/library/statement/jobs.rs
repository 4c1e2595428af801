//! The job of a statement, by the rule, and what a job states.

use labrador::review::Kind;
use labrador::section_one::SectionOne;
use labrador::sections::words_of;
use labrador::statement::{totals, NoStatement, NoTotal, Said, Seed, Statement};
use labrador::{load, output_need, Element, Parameters, Slice, HALF, Q};

use super::{head, parsed, three, P, SEED};
use crate::common::begin;

fn of(name: &str, job: &[u32]) -> Vec<u32> {
    let p = SectionOne::read(job).unwrap().parameters;
    words_of(Slice::Job, &p, name, job).to_vec()
}

#[test]
fn the_words_of_a_job() {
    let job = parsed(&three()).job();
    assert_eq!(output_need(&job), Ok(Slice::Transcript.length(&P)));
    assert_eq!(job.len() as u64, Slice::Job.length(&P));
    let one = SectionOne::read(&job).unwrap();
    assert_eq!((one.parameters, one.bounds), (P, [1000000; 6]));
    assert!(of("a'", &job).iter().all(|&word| word == 0));
    assert_eq!(of("b0", &job), [600, Q - 7, 12]);
    assert_eq!([of("a", &job).len(), of("phi", &job).len(), of("b", &job).len()], [0; 3]);
    let drawn: Vec<u32> = SEED.parse::<Seed>().unwrap().words().take(8).collect();
    assert_eq!(of("A", &job)[..8], drawn);
    let matrices = ["A", "B", "C", "D"].map(|name| of(name, &job)).concat();
    let all: Vec<u32> = SEED.parse::<Seed>().unwrap().words().take(matrices.len()).collect();
    assert_eq!(matrices, all);
}

/// Line 64·m + c with factor f: coefficient 0 of element m for c = 0, minus f at 64 - c for the others.
#[test]
fn the_words_of_a_total() {
    let job = parsed(&(head() + "total 1 = 5*s0[0] + 7*s0[1] - 9*s1[127] + s2[64..66]\n")).job();
    let mut phi = vec![0; 3 * 128];
    phi[0] = 5;
    phi[63] = Q - 7;
    phi[128 + 64 + 1] = 9;
    phi[256 + 64] = 1;
    phi[256 + 64 + 63] = Q - 1;
    assert_eq!(of("phi'", &job), phi);
}

#[test]
fn factors_add_up_modulo_q() {
    let most = format!("{HALF}*s0[3]");
    let job = parsed(&(head() + &format!("total 1 = {most} + {most} + {most} + s1 - s1 + 4*s2[1] - 3*s2\n"))).job();
    let phi = of("phi'", &job);
    // three times (Q - 1)/2 is one less than that modulo Q
    let less = HALF - 1;
    assert_eq!(phi[61], Q - less);
    assert!(phi[128..256].iter().all(|&word| word == 0));
    assert_eq!(
        Said::of_job(&job).unwrap().totals()[0].to_string(),
        format!("total 1 = {less} * s0[3] - 3 * s2[0] + s2[1] - 3 * s2[2..128]")
    );
}

/// The constant coefficient of the sum of products is the weighted sum of the lines.
#[test]
fn the_constant_coefficient_is_the_sum() {
    let job = parsed(&(head() + "total 1 = 5*s0[0..100] - 7*s1[30..90] + s2\n")).job();
    let phi = of("phi'", &job);
    let lines: Vec<u32> = (0..384).map(|k| k * k % 1000).collect();
    let element = |words: &[u32], k: usize| Element { coeffs: words[64 * k..64 * (k + 1)].try_into().unwrap() };
    let products = (0..6).map(|k| element(&phi, k).mul(&element(&lines, k)).unwrap());
    let sum = products.reduce(|a, b| a.add(&b).unwrap()).unwrap();
    let part = |begin: usize, end: usize| lines[begin..end].iter().map(|&line| i64::from(line)).sum::<i64>();
    let expected = 5 * part(0, 100) - 7 * part(158, 218) + part(256, 384);
    assert_eq!(i64::from(sum.coeffs[0]), expected.rem_euclid(Q.into()));
}

#[test]
fn terms_are_joined_as_far_as_they_go() {
    let cases = [
        ("s0[0..64] + s0[64..128]", "s0"),
        ("s0[0] + s0[1] + s0[2]", "s0[0..3]"),
        ("s1[5] + s1[5]", "2 * s1[5]"),
        ("2*s0 - s0", "s0"),
        ("s0 - s0", "0 * s0"),
        ("0*s2", "0 * s0"),
        ("s1[127] + s2[0]", "s1[127] + s2[0]"),
        ("s0 - s0[63..65]", "s0[0..63] + s0[65..128]"),
        ("-s1 + 3*s0[10..20]", "3 * s0[10..20] - s1"),
        ("- 4 * s0[1] + s0[2]", "- 4 * s0[1] + s0[2]"),
    ];
    for (given, printed) in cases {
        let job = parsed(&format!("{}total -3 = {given}\n", head())).job();
        let said = Said::of_job(&job).unwrap();
        assert_eq!(said.totals()[0].to_string(), format!("total -3 = {printed}"), "{given}");
    }
}

#[test]
fn a_job_without_its_seed_is_printed_with_a_comment() {
    let printed = Said::of_job(&parsed(&three()).job()).unwrap().to_string();
    let expected = three()
        .replace(&format!("seed {SEED}"), "# the seed is not known: A to D are not made from this file")
        .replace("s0[1] + s0[1]", "2 * s0[1]");
    assert_eq!(printed, expected);
}

#[test]
fn another_seed_is_told() {
    let seed: Seed = SEED.parse().unwrap();
    let mut job = parsed(&three()).job();
    assert_eq!(Statement::of_job(&job, seed).unwrap().job(), job);
    let at = begin(Slice::Job, &P, "C") + 5;
    job[at] ^= 1;
    let told = Statement::of_job(&job, seed).unwrap_err().to_string();
    let spot = "section C, row 0, column 0, coefficient 5";
    assert_eq!(told, format!("A to D are not those of the seed: word {at} is another ({spot})"));
    job[at] ^= 1;
    assert!(matches!(Statement::of_job(&job, Seed([1; 32])), Err(NoStatement::Matrices(_))));
}

#[test]
fn constraints_that_are_no_totals_are_told() {
    let mut job = parsed(&three()).job();
    let a = begin(Slice::Job, &P, "a'");
    job[a + 64 * 6 + 70] = 1;
    let none = NoTotal { kind: Kind::ConstantTerm, index: 1, at: (a + 64 * 6 + 70) as u64 };
    assert_eq!(Said::of_job(&job), Err(NoStatement::Constraints(vec![none])));
    let told = totals(&job).unwrap();
    assert_eq!((told.len(), told[0].is_ok(), told[1].clone(), told[2].is_ok()), (3, true, Err(none), true));
    let said = format!("constant-term constraint 1 is no total: it has quadratic coefficients (from word {})", none.at);
    assert_eq!(none.to_string(), said);
    let load = load(&Parameters { l: 0, ..P.with_rings(2) }, 1).unwrap().job;
    let none: Vec<String> = totals(&load).unwrap().iter().map(|total| total.clone().unwrap_err().to_string()).collect();
    assert_eq!(none, ["ring constraint 0 is no total (from word 35)", "ring constraint 1 is no total (from word 419)"]);
    assert!(matches!(Said::of_job(&load[..40]), Err(NoStatement::Refused(refusal)) if refusal.number() == 3));
}

trait WithRings {
    fn with_rings(self, rings: u32) -> Self;
}

impl WithRings for Parameters {
    fn with_rings(self, rings: u32) -> Parameters {
        Parameters { K: rings, ..self }
    }
}

#[test]
fn a_long_total_is_cut() {
    let total = &parsed(&(head() + "total 5 = s0[0] + 2*s0[2] + 3*s0[4]\n")).totals()[0].clone();
    assert_eq!(total.cut(3), "total 5 = s0[0] + 2 * s0[2] + 3 * s0[4]");
    assert_eq!(total.cut(2), "total 5 = s0[0] + 2 * s0[2] … and 1 term more");
    assert_eq!(total.cut(1), "total 5 = s0[0] … and 2 terms more");
}

//! What a job does not force is found.

use labrador::review::{review, Finding, Kind, Severity};
use labrador::section_one::BOUNDS;
use labrador::{Element, Parameters, Slice, HALF, Q};

use crate::common::{begin, made, over, set_bound};

/// A shape whose digits lose nothing.
const P: Parameters = Parameters { n: 2, r: 2, ..Parameters::SMALL };

/// A job of which only that is found that holds of every job.
fn sound() -> Vec<u32> {
    let mut job = made(&P, 3).job;
    BOUNDS.iter().for_each(|bound| set_bound(&mut job, bound.name, 1000));
    job
}

/// All findings but those that hold of every job.
fn found(job: &[u32]) -> Vec<Finding> {
    review(job).unwrap().into_iter().filter(|finding| !finding.holds_of_every_job()).collect()
}

fn findings(job: &[u32]) -> Vec<String> {
    found(job).iter().map(|finding| finding.to_string()).collect()
}

/// The tests that can never fail.
fn never(job: &[u32]) -> Vec<u32> {
    review(job).unwrap().iter().filter_map(|finding| finding.never_fails()).collect()
}

fn at(name: &str) -> usize {
    begin(Slice::Job, &P, name)
}

#[test]
fn something_is_found_of_every_job() {
    let job = sound();
    let told: Vec<String> = review(&job).unwrap().iter().map(|finding| finding.to_string()).collect();
    let totals = format!(
        "totals are forced modulo 255 only: one that is wrong by a multiple of 255 passes one transcript with at least 1 in 1.9 million \
         (2^-20.8), by a multiple of 65535 with 1 in 21,846 (2^-14.4), by a multiple of 16711935 with 1 in 86, by a multiple of 1431655765 \
         with 1 in 81 (from word {})",
        at("b0")
    );
    let prover =
        "bound_A is tested by the prover alone: no check of the verifier holds a witness vector to it (from word 19)";
    assert_eq!(told, over(&[&totals, prover][..], &[prover]));
    assert_eq!(findings(&job), Vec::<String>::new());
    // without constant-term constraints there is no total
    let p = Parameters { l: 0, ..P };
    let mut job = made(&p, 3).job;
    BOUNDS.iter().for_each(|bound| set_bound(&mut job, bound.name, 1000));
    assert_eq!(review(&job).unwrap(), [Finding::ProverAlone { at: 19 }]);
}

#[test]
fn totals_under_one_vector() {
    let p = Parameters { r: 1, L: 5, ..P };
    let job = made(&p, 3).job;
    let told: Vec<String> = review(&job).unwrap().iter().map(|finding| finding.to_string()).collect();
    let totals = "by a multiple of 255 passes one transcript with at least 1 in 4.2 million (2^-22.0), by a multiple of 65535 with \
                  1 in 32,769 (2^-15.0), by a multiple of 16711935 with 1 in 129 (from";
    assert_eq!(told.iter().filter(|line| line.contains(totals)).count(), over(1, 0), "{told:?}");
    assert_eq!(told.iter().filter(|line| line.contains("totals")).count(), over(1, 0), "{told:?}");
}

#[test]
fn the_worst_comes_first() {
    let p = Parameters { n: 10, t_1: 3, ..P };
    let told = review(&made(&p, 3).job).unwrap();
    let severities: Vec<Severity> = told.iter().map(|finding| finding.severity()).collect();
    let mut sorted = severities.clone();
    sorted.sort();
    assert_eq!(severities, sorted);
    let never: Vec<u32> = told.iter().filter_map(|finding| finding.never_fails()).collect();
    assert_eq!(never, [21, 23, 14, 15, 16]);
    let expected = [
        vec![Severity::Anything],
        vec![Severity::NeverFails; 5],
        vec![Severity::Chance; over(3, 1)],
        vec![Severity::Digits],
        vec![Severity::Prover; 2],
    ];
    assert_eq!(severities, expected.concat());
}

/// The greatest chance first: that of a norm is the less one at 10837, and wrong totals have no less at any limit.
#[test]
fn the_greatest_chance_comes_first() {
    for (beta_sq, names) in [(10837, over(&["Totals", "Norm"][..], &[])), (1 << 60, over(&["Totals", "Norm"], &[]))] {
        let mut job = sound();
        set_bound(&mut job, "beta_sq", beta_sq);
        let told = review(&job).unwrap();
        let name = |finding: &Finding| match finding {
            Finding::Totals { .. } => Some("Totals"),
            Finding::NormNotForced { .. } => Some("Norm"),
            _ => None,
        };
        assert_eq!(told.iter().filter_map(name).collect::<Vec<_>>(), names);
        let chances: Vec<_> = told.iter().filter_map(Finding::chance).collect();
        assert!(chances.iter().rev().is_sorted() && chances.len() == names.len());
    }
    // without totals the norm comes first, and beta above q/125, which has no chance of its own, behind it
    let p = Parameters { l: 0, ..P };
    let told = review(&made(&p, 3).job).unwrap();
    let of_chances: Vec<_> = told.iter().filter(|finding| finding.severity() == Severity::Chance).collect();
    assert_eq!(of_chances.len(), over(2, 1));
    assert!(matches!(of_chances.last(), Some(Finding::BetaTooGreat { .. })));
}

/// h needs room for a cell of any size, whatever check 23 is.
#[test]
fn a_bound_of_h_without_room() {
    let anything = |beta_prime_sq: u128, bound_d: u128| {
        let mut job = made(&Parameters { n: 10, ..P }, 3).job;
        set_bound(&mut job, "beta_prime_sq", beta_prime_sq);
        set_bound(&mut job, "bound_D", bound_d);
        review(&job).unwrap()[0].severity() == Severity::Anything
    };
    // four digits of the base 256 of 64 coefficients: three of 256²/12 each, and a last of 255²/12
    let cell = 64 * (3 * (256 * 256 / 12) + 255 * 255 / 12);
    assert!(anything((1 << 96) - 1, cell));
    for bound_d in [0, 1000, cell - 1] {
        assert!(!anything((1 << 96) - 1, bound_d), "{bound_d}");
    }
    assert!(!anything(1 << 40, cell));
}

#[test]
fn any_statement_passes_without_a_witness() {
    let anything = |n, kappa| {
        let job = made(&Parameters { n, kappa, ..P }, 3).job;
        let first = review(&job).unwrap().remove(0);
        (first.severity() == Severity::Anything).then(|| first.to_string())
    };
    let told =
        "any statement is accepted for certain, without a witness: check 23 can never fail, and n is 10, at least \
                2·kappa + 2 = 10 (from word 16)";
    assert_eq!(anything(10, 4).as_deref(), Some(told));
    assert_eq!(anything(9, 4), None);
    assert!(anything(4, 1).is_some());
    let mut job = made(&Parameters { n: 10, ..P }, 3).job;
    set_bound(&mut job, "beta_prime_sq", 1 << 40);
    assert_ne!(review(&job).unwrap()[0].severity(), Severity::Anything);
}

#[test]
fn a_limit_of_23_with_room_for_a_z_of_any_size() {
    let told = |b: u32, parts: u32, limit: u128, bound_d: u128| {
        let mut job = made(&Parameters { n: 4, kappa: 1, b, t_1: parts, t_2: parts, ..P }, 3).job;
        set_bound(&mut job, "beta_prime_sq", limit);
        set_bound(&mut job, "bound_D", bound_d);
        review(&job).unwrap()[0].clone()
    };
    // 65536²/12 and 65535²/12, of a part and of a digit alike: 4 elements of z, a cell of h
    let element = 64 * (357913941 + 357903018);
    let sum = 5 * element;
    let Finding::AnythingPasses { room, .. } = told(65536, 2, sum, element) else { panic!("anything passes") };
    assert_eq!(room, Some((sum, sum)));
    let line = format!(
        "any statement is accepted for certain, without a witness: check 23 has room for a z of any size, whose sum is {sum} on the \
         average where beta_prime_sq is {sum}, and n is 4, at least 2·kappa + 2 = 4 (from word 16)"
    );
    assert_eq!(told(65536, 2, sum, element).to_string(), line);
    for less in [told(65536, 2, sum - 1, element), told(65536, 2, sum, element - 1), told(256, 4, sum, element)] {
        assert_ne!(less.severity(), Severity::Anything, "{less}");
    }
}

#[test]
fn norms_that_21_does_not_force() {
    let told = |beta_sq| {
        let mut job = sound();
        set_bound(&mut job, "beta_sq", beta_sq);
        findings(&job)
    };
    // a sixth of 255², 65535² and 16711935², each a half above a whole number: that number
    let steps = [
        (10837, 255, "1 in 1.9 million (2^-20.8)"),
        (715806037, 65535, "1 in 21,846 (2^-14.4)"),
        (46548128574037, 16711935, "1 in 86"),
    ];
    if over(false, true) {
        // the prime has no divisors
        assert!(steps.iter().all(|step| told(step.0).is_empty()));
        return;
    }
    for (k, (beta_sq, divisor, chance)) in steps.into_iter().enumerate() {
        let line = format!(
            "norms are not forced by check 21: p can be sent modulo {divisor}, since beta_sq reaches a sixth of its square, and a witness beyond \
             beta_sq passes one transcript with at least {chance} (from word 13)"
        );
        assert_eq!(told(beta_sq), [line]);
        let before = told(beta_sq - 1);
        assert_eq!(before.len(), usize::from(k > 0));
        assert!(before.iter().all(|line| line.contains(&format!("modulo {}, ", steps[k - 1].1))), "{before:?}");
    }
}

#[test]
fn beta_above_q_over_125() {
    let told = |beta_sq| {
        let mut job = sound();
        set_bound(&mut job, "beta_sq", beta_sq);
        findings(&job)
    };
    // (q/125)² is 1180591620167655.5, or over the prime 1180591566291586.4
    let most = over(1180591620167655, 1180591566291586);
    let line = format!(
        "beta is above q/125, and the paper's lemma on check 21 needs one that is not: a beta_sq of at most {most} (from word 13)"
    );
    // over 2^32 - 1 norms are not forced there either, which is told first
    assert_eq!((told(most).len(), told(most + 1).len()), over((1, 2), (0, 1)));
    assert_eq!(told(most + 1).last(), Some(&line));
}

#[test]
fn bounds_of_zero() {
    let mut job = sound();
    BOUNDS.iter().for_each(|bound| set_bound(&mut job, bound.name, 0));
    let none = "all six bounds are 0: nothing can be proved, since only a witness of zeros meets them (from word 13)";
    assert_eq!(findings(&job), [none]);
    set_bound(&mut job, "bound_D", 1);
    assert_eq!(findings(&job), Vec::<String>::new());
}

#[test]
fn a_refused_job_is_refused() {
    assert_eq!(review(&[]).unwrap_err().number(), 3);
}

#[test]
fn constraints_that_say_nothing_or_repeat() {
    let mut job = sound();
    let (a, phi, b) = (at("a"), at("phi"), at("b"));
    let (a_length, phi_length) = (64 * 3, 64 * 4);
    for (begin, length) in [(a, a_length), (phi, phi_length), (b, 64)] {
        job.copy_within(begin..begin + length, begin + length);
    }
    assert_eq!(findings(&job), [format!("ring constraint 1 repeats ring constraint 0 (from word {})", a + a_length)]);
    job[b + 64 + 63] = (job[b + 64 + 63] + 1) % Q;
    let line = "ring constraint 1 contradicts ring constraint 0: the left sides are the same, the right sides are not, and no witness meets both";
    assert_eq!(findings(&job), [format!("{line} (from word {})", a + a_length)]);
    let mut job = sound();
    let (a, phi, b_0) = (at("a'"), at("phi'"), at("b0"));
    job[a..a + a_length].fill(0);
    job[phi..phi + phi_length].fill(0);
    let no_witness = Finding::NoCoefficient { kind: Kind::ConstantTerm, index: 0, met: job[b_0] == 0, at: a as u64 };
    assert_eq!(found(&job), [no_witness]);
    job[b_0] = 0;
    let every = format!("constant-term constraint 0 has no coefficient at all: every witness meets it (from word {a})");
    assert_eq!(findings(&job), [every]);
}

/// Copies the left side of a ring constraint to a constant-term constraint.
fn left_of_ring(job: &mut [u32], ring: usize, constant_term: usize) {
    for (from, to, length) in [("a", "a'", 64 * 3), ("phi", "phi'", 64 * 4)] {
        let begin = at(from) + ring * length;
        job.copy_within(begin..begin + length, at(to) + constant_term * length);
    }
}

#[test]
fn constant_term_constraints_held_against_the_others() {
    let mut job = sound();
    left_of_ring(&mut job, 1, 0);
    job[at("b0")] = job[at("b") + 64];
    let place = format!("(from word {})", at("a'"));
    assert_eq!(findings(&job), [format!("constant-term constraint 0 repeats ring constraint 1 {place}")]);
    job[at("b0")] = (job[at("b0")] + 1) % Q;
    let line = "constant-term constraint 0 contradicts ring constraint 1: the left sides are the same, the right sides are not, and no \
                witness meets both";
    assert_eq!(findings(&job), [format!("{line} {place}")]);
    // the third repeats the second, which contradicts the first: both are told
    left_of_ring(&mut job, 1, 1);
    job[at("b0") + 1] = job[at("b0")];
    let kinds: Vec<bool> = found(&job).iter().map(|finding| matches!(finding, Finding::Repeated { .. })).collect();
    assert_eq!(kinds, [true, false]);
}

/// Row `to` of A becomes row `from` times an element.
fn multiply_row(job: &mut [u32], from: usize, to: usize, by: &Element) {
    let row = |k: usize| at("A") + 128 * k;
    for column in 0..2 {
        let entry = Element { coeffs: job[row(from) + 64 * column..][..64].try_into().unwrap() };
        job[row(to) + 64 * column..][..64].copy_from_slice(&entry.mul(by).unwrap().coeffs);
    }
}

#[test]
fn rows_of_a_that_are_multiples() {
    let by = Element { coeffs: std::array::from_fn(|k| 7 * k as u32 + 2) };
    let mut job = sound();
    multiply_row(&mut job, 1, 3, &by);
    assert_eq!(
        findings(&job),
        [format!("rows 1 and 3 of A are multiples of one row (from word {})", at("A") + 3 * 128)]
    );
    // one coefficient off, and they are not
    job[at("A") + 3 * 128] = (job[at("A") + 3 * 128] + 1) % Q;
    assert_eq!(findings(&job), Vec::<String>::new());
    let mut job = sound();
    (1..4).for_each(|row| multiply_row(&mut job, 0, row, &by));
    let all = "A has rank 1: its 4 rows are multiples of one row";
    assert_eq!(findings(&job).last(), Some(&format!("{all} (from word {})", at("A"))));
    // a zero row is told as that, and hides no multiple behind it
    let mut job = sound();
    multiply_row(&mut job, 1, 2, &by);
    job[at("A")..at("A") + 128].fill(0);
    let told = [
        format!("row 0 of A is zero (from word {})", at("A")),
        format!("rows 1 and 2 of A are multiples of one row (from word {})", at("A") + 2 * 128),
    ];
    assert_eq!(findings(&job), told);
}

#[test]
fn one_row_of_a() {
    let told = |n| {
        let p = Parameters { n, kappa: 1, ..P };
        let mut job = made(&p, 3).job;
        BOUNDS.iter().for_each(|bound| set_bound(&mut job, bound.name, 1000));
        (begin(Slice::Job, &p, "A"), findings(&job))
    };
    let (a, one) = told(2);
    assert_eq!(one, [format!("A has rank 1: it has one row (from word {a})")]);
    // one element is bound by one row, and no rank is greater
    assert_eq!(told(1).1, Vec::<String>::new());
}

#[test]
fn a_matrix_of_zeros() {
    for n in [1, 2] {
        let p = Parameters { n, ..P };
        let mut job = made(&p, 3).job;
        BOUNDS.iter().for_each(|bound| set_bound(&mut job, bound.name, 1000));
        let a = begin(Slice::Job, &p, "A");
        job[a..a + 64 * 4 * n as usize].fill(0);
        assert_eq!(findings(&job), [format!("A is zero: t says nothing of the witness (from word {a})")]);
        job[a] = 1;
        assert!(findings(&job).iter().all(|line| !line.starts_with("A is zero")) && findings(&job).len() >= 3);
    }
}

#[test]
fn a_vector_that_nothing_touches() {
    let mut job = sound();
    // vector 1: cells (1,0) and (1,1), and its part of phi
    for (a, phi) in [("a'", "phi'"), ("a", "phi")] {
        for k in 0..2 {
            job[at(a) + k * 192 + 64..][..128].fill(0);
            job[at(phi) + k * 256 + 128..][..128].fill(0);
        }
    }
    assert_eq!(findings(&job), ["witness vector 1 is in no constraint"]);
    job[at("a") + 64] = 1;
    assert_eq!(findings(&job), Vec::<String>::new());
}

#[test]
fn zero_columns_and_rows() {
    let mut job = sound();
    let a = at("A");
    for row in 0..4 {
        job[a + 64 * (2 * row + 1)..][..64].fill(0);
    }
    let zero = "column 1 of A is zero: t says nothing of element 1 of a vector";
    // of two columns one is left
    let one = format!("A has rank 1: its 4 rows are multiples of one row (from word {a})");
    assert_eq!(findings(&job), [format!("{zero} (from word {})", a + 64), one]);
    let mut job = sound();
    let (c, d) = (at("C"), at("D"));
    let row = 64 * 3 * 4;
    job[c + row..c + 2 * row].fill(0);
    job.copy_within(d..d + row, d + 3 * row);
    let told = [
        format!("row 1 of C is zero (from word {})", c + row),
        format!("row 3 of D repeats row 0 (from word {})", d + 3 * row),
    ];
    assert_eq!(findings(&job), told);
}

#[test]
fn limits_that_no_norm_passes() {
    let half_q = u128::from(HALF);
    let projection = 256 * half_q * half_q;
    let mut job = sound();
    set_bound(&mut job, "beta_sq", projection.div_ceil(128) - 1);
    assert_eq!(never(&job), []);
    set_bound(&mut job, "beta_sq", projection.div_ceil(128));
    assert_eq!(never(&job), [21]);
    let line = format!(
        "check 21 can never fail: this limit limits nothing, since no norm is above {projection}, and 128·beta_sq is {} (from word 13)",
        128 * projection.div_ceil(128)
    );
    assert_eq!(findings(&job)[0], line);
    let mut job = sound();
    let vector = 2 * 64 * half_q * half_q;
    set_bound(&mut job, "bound_A", vector);
    // the verifier does not hold anything against bound_A
    assert_eq!((found(&job).len(), never(&job)), (1, vec![]));
    let limits_nothing = "can never fail: this limit limits nothing, since no norm is above";
    let line = format!("the test of refusal 13 {limits_nothing} {vector}, and bound_A is {vector} (from word 19)");
    assert_eq!(findings(&job), [line]);
    // base 256, sizes up to (Q - 1)/2: digits up to 128, 128, 128 and the last up to 128
    let cells = 4 * 128 * 128;
    let mut job = sound();
    set_bound(&mut job, "bound_C", 64 * 3 * cells - 1);
    assert_eq!(findings(&job), Vec::<String>::new());
    set_bound(&mut job, "bound_C", 64 * 3 * cells);
    assert!(findings(&job)[0].starts_with("the test of refusal 15 can never fail: this limit limits nothing"));
    assert_eq!(never(&job), [15]);
    let mut job = sound();
    let rest = 8388608;
    let all = 64 * (2 * (128 * 128 + rest * rest) + (2 * 4 + 3 + 3) * cells);
    set_bound(&mut job, "beta_prime_sq", all - 1);
    assert_eq!(findings(&job), Vec::<String>::new());
    set_bound(&mut job, "beta_prime_sq", all);
    assert!(findings(&job)[0].starts_with("check 23 can never fail: this limit limits nothing"));
}

#[test]
fn parts_too_few_for_the_base() {
    let p = Parameters { t_1: 3, ..P };
    let mut job = made(&p, 3).job;
    BOUNDS.iter().for_each(|bound| set_bound(&mut job, bound.name, 1000));
    let few = "t_1 is 3, and base 256 needs 4: digits of t and h can lose something (from word 10)";
    assert_eq!(findings(&job), [few]);
}

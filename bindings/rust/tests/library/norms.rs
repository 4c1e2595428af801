//! The norms by the leaf calls are the ones that the verifier holds against the limits.

use labrador::norms::norms;
use labrador::section_one::SectionOne;
use labrador::{verify, FailedCheck, Parameters, Verdict};

use crate::common::{made, set_bound, Case};

fn verdict(case: &Case) -> Verdict {
    verify(&case.job, &case.randomness, &case.transcript)
}

fn taken(case: &Case) -> [labrador::norms::Norm; 5] {
    norms(&SectionOne::read(&case.job).unwrap(), &case.transcript).unwrap()
}

/// Bases for which z has a rest, and parts for which digits lose something.
fn shapes() -> Vec<Parameters> {
    let small = Parameters::SMALL;
    vec![small, Parameters { b: 2, t_1: 3, ..small }, Parameters { b: 3, t_2: 1, ..small }]
}

#[test]
fn a_norm_passes_at_its_limit_and_no_lower() {
    for p in shapes() {
        let case = made(&p, 11);
        for norm in taken(&case).into_iter().filter(|norm| norm.number != 21) {
            let mut tight = case.clone();
            set_bound(&mut tight.job, norm.limit_name, norm.norm);
            assert!(verdict(&tight).is_accepted(), "{norm:?}");
            set_bound(&mut tight.job, norm.limit_name, norm.norm - 1);
            assert_eq!(verdict(&tight).number(), norm.number, "{norm:?}");
        }
    }
}

#[test]
fn the_verifiers_figures_are_these() {
    for p in shapes() {
        let mut case = made(&p, 12);
        set_bound(&mut case.job, "beta_sq", 0);
        let [first, second, ..] = taken(&case);
        let failed = FailedCheck::ProjectionNorm { norm: first.norm, limit: 0 };
        assert_eq!(verdict(&case), Verdict::Failed(failed));
        set_bound(&mut case.job, "beta_sq", first.norm.div_ceil(128));
        set_bound(&mut case.job, "beta_prime_sq", 1);
        let failed = FailedCheck::NormSum { sum: second.norm, limit: 1 };
        assert_eq!(verdict(&case), Verdict::Failed(failed));
    }
}

//! Projection worked by shed.

use labrador::{
    add_projections, add_projections_into, scratch_need, shed_projection, shed_projection_into, shed_rows,
    shed_rows_into, Parameters, Refusal, Run, RunParts, Slice, Q,
};

use crate::common::{begin, made, set_bound, Case, NOT_BELOW};

const MARK: u32 = 0xc0de_c0de;
const FIVE: Parameters = Parameters { r: 5, kappa: 3, n: 2, ..Parameters::SMALL };

fn parts(case: &Case, run: Run) -> RunParts {
    run.parts(&case.job, &case.randomness, &case.witness).unwrap()
}

fn projection(case: &Case, run: Run) -> Vec<u32> {
    let parts = parts(case, run);
    shed_projection(&case.job, run, &parts.projection, &parts.vectors).unwrap()
}

fn rows(case: &Case, run: Run) -> Vec<u32> {
    shed_rows(&case.job, run, &parts(case, run).vectors).unwrap()
}

/// A section of the transcript, with its count.
fn sent(case: &Case, name: &str) -> Vec<u32> {
    let at = begin(Slice::Transcript, &FIVE, name);
    case.transcript[at - 1..at + case.transcript[at - 1] as usize].to_vec()
}

/// Every split of 0 to 5 into runs: the bits of a number say which inner indexes are ends.
fn splits() -> impl Iterator<Item = Vec<Run>> {
    (0..16u32).map(|bits| {
        let ends = (1..5).filter(|end| bits >> (end - 1) & 1 == 1).chain([5]);
        let mut first = 0;
        ends.map(|end| Run { first: std::mem::replace(&mut first, end), end }).collect()
    })
}

#[test]
fn every_split_gives_the_whole_p_and_t() {
    let case = made(&FIVE, 11);
    for runs in splits() {
        let mut left: Vec<Vec<u32>> = runs.iter().map(|&run| projection(&case, run)).collect();
        // the first with the last, until one is left
        while left.len() > 1 {
            let (first, last) = (left.remove(0), left.pop().unwrap());
            left.insert(left.len() / 2, add_projections(&last, &first).unwrap());
        }
        assert_eq!(left[0], sent(&case, "p"), "{runs:?}");
        let laid: Vec<u32> = runs.iter().flat_map(|&run| rows(&case, run)[1..].to_vec()).collect();
        assert_eq!(laid, sent(&case, "t")[1..], "{runs:?}");
    }
}

#[test]
fn a_run_outside_the_vectors_is_34() {
    let case = made(&FIVE, 11);
    for (first, end) in [(0, 0), (3, 3), (4, 2), (0, 6), (5, 6), (u32::MAX, u32::MAX), (u32::MAX, 0)] {
        let run = Run { first, end };
        let refusal = shed_rows(&case.job, run, &[]).unwrap_err();
        assert_eq!(refusal, Refusal::OutsideRun { run, vectors: 5 });
        assert_eq!((refusal.number(), refusal.place()), (34, u64::from(first)));
        assert_eq!(shed_projection(&case.job, run, &[], &[]).unwrap_err(), refusal);
        assert_eq!(run.parts(&case.job, &case.randomness, &case.witness).unwrap_err(), refusal);
        assert_eq!(run.rows_need(&case.job).unwrap_err(), refusal);
        let told = format!("refusal 34: the run goes from {first} up to {end}, and the job's vectors from 0 up to 5");
        assert_eq!(refusal.to_string(), told);
    }
    let run = Run { first: 0, end: 0 };
    assert_eq!(shed_rows(&case.job[..100], run, &[]).unwrap_err().number(), 3);
}

#[test]
fn refusals_come_in_their_order() {
    let case = made(&FIVE, 11);
    let run = Run { first: 1, end: 3 };
    let mut parts = parts(&case, run);
    let told = |parts: &RunParts| shed_projection(&case.job, run, &parts.projection, &parts.vectors).unwrap_err();
    parts.vectors[200] = Q;
    assert_eq!(
        told(&parts).to_string(),
        format!(
            "refusal 12: the witness's word 200 is {Q}, {NOT_BELOW} (section witness, vector of the run 1, element 1, coefficient 7)"
        )
    );
    parts.vectors.pop();
    assert_eq!(told(&parts).to_string(), "refusal 11: the witness ends after 256 words, within section witness");
    parts.projection[32770] = Q;
    assert_eq!(
        told(&parts).to_string(),
        format!(
            "refusal 8: the randomness's word 32770 is {Q}, {NOT_BELOW} \
             (section projection, vector of the run 1, row 0, element 0, coefficient 1)"
        )
    );
    parts.projection[0] = 7;
    assert_eq!(
        told(&parts).to_string(),
        "refusal 7: the randomness's word 0 is 7, and the count of section projection is 65536"
    );
}

#[test]
fn thirteen_counts_over_the_whole_job() {
    let mut case = made(&FIVE, 11);
    set_bound(&mut case.job, "bound_A", 0);
    let run = Run { first: 2, end: 5 };
    let parts = parts(&case, run);
    let need = scratch_need(&case.job).unwrap() as usize;
    let (mut scratch, mut output) = (vec![MARK; need + 1], vec![MARK; 1 + 64 * 3 * 3 + 1]);
    let refusal = shed_rows_into(&case.job, run, &parts.vectors, &mut scratch, &mut output).unwrap_err();
    let Refusal::WitnessNorm { vector: 2, norm, bound: 0 } = refusal else { panic!("{refusal}") };
    assert_eq!(norm, parts.vectors[1..129].iter().map(|&w| u128::from(w.min(Q - w))).sum::<u128>());
    assert!(scratch[..need].iter().chain(&output[..577]).all(|&w| w == 0));
    assert_eq!((scratch[need], output[577]), (MARK, MARK));
    // the projection is not held to that bound
    assert!(shed_projection(&case.job, run, &parts.projection, &parts.vectors).is_ok());
}

#[test]
fn lent_buffers_are_written_to_their_need() {
    let case = made(&FIVE, 11);
    let run = Run { first: 0, end: 2 };
    let parts = parts(&case, run);
    let need = scratch_need(&case.job).unwrap();
    let (mut scratch, mut output) = (vec![MARK; need as usize + 2], vec![MARK; 259]);
    let (scratch_short, output_short) = (need as usize - 1, 256);
    let mut call = |lent: usize, out: usize| {
        let (scratch, output) = (&mut scratch[..lent], &mut output[..out]);
        shed_projection_into(&case.job, run, &parts.projection, &parts.vectors, scratch, output)
    };
    assert_eq!(call(scratch_short, 0), Err(Refusal::Scratch { needed: need, lent: need - 1 }));
    assert_eq!(call(need as usize, output_short), Err(Refusal::Output { buffer: "output", needed: 257, lent: 256 }));
    assert_eq!(call(need as usize + 1, 258), Ok(()));
    assert_eq!(output[..257], projection(&case, run));
    assert_eq!((output[257], scratch[need as usize]), (MARK, MARK));
    assert!(scratch[..need as usize].iter().all(|&w| w == 0));
}

#[test]
fn an_unfit_p_is_told_by_which_it_is() {
    let fit: Vec<u32> = [256].into_iter().chain(1..=256).collect();
    let with = |at: usize, word: u32| {
        let mut p = fit.clone();
        p[at] = word;
        p
    };
    let long = [&fit[..], &[0]].concat();
    let told = |p: &[u32], other: &[u32]| add_projections(p, other).unwrap_err().to_string();
    assert_eq!(told(&[], &[]), "refusal 9: the first p ends after 0 words, and has 257 with its count");
    assert_eq!(told(&fit, &fit[..256]), "refusal 9: the second p ends after 256 words, and has 257 with its count");
    assert_eq!(told(&with(0, 255), &[]), "refusal 9: word 0 of the first p is 255, and its count is 256");
    assert_eq!(told(&fit, &long), "refusal 9: the second p goes on at word 257, behind its 256 entries");
    assert_eq!(
        told(&with(256, Q), &[]),
        format!("refusal 10: word 256 of the first p is {Q}, {NOT_BELOW} (entry 255)")
    );
    assert_eq!(told(&fit, &with(1, Q)), format!("refusal 10: word 1 of the second p is {Q}, {NOT_BELOW} (entry 0)"));
    let refusal = add_projections_into(&fit, &fit, &mut [0; 256]).unwrap_err();
    assert_eq!(refusal, Refusal::Output { buffer: "output", needed: 257, lent: 256 });
    let sum = add_projections(&with(1, Q - 1), &with(1, 2)).unwrap();
    assert_eq!((sum[0], sum[1], sum[256]), (256, 1, 512));
}

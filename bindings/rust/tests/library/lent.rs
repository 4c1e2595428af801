//! The forms with lent buffers against those that allocate.

use labrador::{
    load, load_into, load_needs, output_need, prove_into, round, round_into, scratch_need, verify, verify_with,
    Parameters, Refusal, Round,
};

use crate::common::{made, with_answer};

const MARK: u32 = 0xc0de_c0de;

#[test]
fn the_prover_writes_its_need_and_no_more() {
    let case = made(&Parameters::SMALL, 9);
    let (scratch, output) = (scratch_need(&case.job).unwrap() as usize, output_need(&case.job).unwrap() as usize);
    let (mut lent, mut out) = (vec![MARK; scratch + 3], vec![MARK; output + 3]);
    prove_into(&case.job, &case.randomness, &case.witness, &mut lent, &mut out).unwrap();
    assert_eq!(out[..output], case.transcript);
    assert_eq!((&out[output..], &lent[scratch..]), (&[MARK; 3][..], &[MARK; 3][..]));
    assert!(lent[..scratch].iter().all(|&word| word == 0));
}

#[test]
fn short_buffers_are_refused_with_their_need() {
    let case = made(&Parameters::SMALL, 9);
    let (scratch, output) = (scratch_need(&case.job).unwrap(), output_need(&case.job).unwrap());
    let mut lent = vec![MARK; scratch as usize];
    let mut prove =
        |scratch: usize| prove_into(&case.job, &case.randomness, &case.witness, &mut lent[..scratch], &mut []);
    let refusal = prove(7).unwrap_err();
    assert_eq!(refusal, Refusal::Scratch { needed: scratch, lent: 7 });
    assert_eq!(refusal.to_string(), format!("refusal 1: the scratch has 7 words, and {scratch} are needed"));
    let refusal = prove(scratch as usize).unwrap_err();
    assert_eq!(refusal.to_string(), format!("refusal 2: the output has 0 words, and {output} are needed"));
    assert!(lent.iter().all(|&word| word == MARK));
}

#[test]
fn a_rounds_need_is_the_one_that_its_refusal_names() {
    let case = made(&Parameters { r: 2, kappa_1: 2, ..Parameters::SMALL }, 4);
    let mut scratch = vec![0; scratch_need(&case.job).unwrap() as usize];
    let mut joined = Vec::new();
    for r in Round::ALL {
        let randomness = r.randomness(&case.randomness);
        let refusal = round_into(r, &case.job, randomness, &case.witness, &mut scratch, &mut []).unwrap_err();
        assert_eq!((refusal.number(), refusal.place()), (2, r.output_need(&case.job).unwrap()));
        joined.extend(round(r, &case.job, randomness, &case.witness).unwrap());
    }
    assert_eq!(joined, case.transcript);
}

#[test]
fn a_rounds_surplus_randomness_is_told() {
    let case = made(&Parameters::SMALL, 4);
    let told = |r: Round| round(r, &case.job, &case.randomness, &case.witness).unwrap_err().to_string();
    assert_eq!(told(Round::One), "refusal 7: the randomness goes on at word 0, and should have no words");
    assert!(told(Round::Two).contains("behind its last section, projection"));
}

#[test]
fn a_cut_randomness_has_no_parts_beyond_its_end() {
    assert!(Round::Five.randomness(&[]).is_empty());
    assert_eq!(Round::Two.randomness(&[u32::MAX, 1, 2]), [u32::MAX, 1, 2]);
}

#[test]
fn both_verifiers_say_the_same() {
    for number in [0, 3, 6, 10, 14, 21, 22, 29] {
        let case = with_answer(number);
        let mut scratch = vec![0; 1 << 17];
        let lent = verify_with(&case.job, &case.randomness, &case.transcript, &mut scratch);
        assert_eq!(lent, verify(&case.job, &case.randomness, &case.transcript));
    }
}

#[test]
fn a_load_into_lent_buffers_is_the_same() {
    let p = Parameters::SMALL;
    let (needs, made) = (load_needs(&p).unwrap(), load(&p, 1).unwrap());
    let mut job = vec![MARK; needs.job as usize + 1];
    let mut witness = vec![MARK; needs.witness as usize + 1];
    let mut randomness = vec![MARK; needs.randomness as usize - 1];
    let refusal = load_into(&p, 1, &mut job, &mut witness, &mut randomness).unwrap_err();
    let (needed, lent) = (needs.randomness, needs.randomness - 1);
    assert_eq!(refusal, Refusal::Output { buffer: "randomness", needed, lent });
    randomness.push(0);
    load_into(&p, 1, &mut job, &mut witness, &mut randomness).unwrap();
    assert_eq!((job.pop(), witness.pop()), (Some(MARK), Some(MARK)));
    assert_eq!((job, witness, randomness), (made.job, made.witness, made.randomness));
}

//! Many transcripts, one reading of the job.

use labrador::{load, prove, scratch_need, verify, verify_many, verify_many_with, Parameters, Refusal, Sent, Slice, Q};

use crate::common::{begin, made, Case};

const MARK: u32 = 0xc0de_c0de;
const P: Parameters = Parameters { n: 2, r: 2, ..Parameters::SMALL };

/// Eight cases of one job and witness, each with randomness of its own.
fn eight() -> Vec<Case> {
    let first = made(&P, 1);
    let with_randomness = |seed| {
        let randomness = load(&P, seed).unwrap().randomness;
        let transcript = prove(&first.job, &randomness, &first.witness).unwrap();
        Case { randomness, transcript, ..first.clone() }
    };
    (1..=8).map(with_randomness).collect()
}

fn sent(cases: &[Case]) -> Vec<Sent<'_>> {
    cases.iter().map(|case| Sent { randomness: &case.randomness, transcript: &case.transcript }).collect()
}

fn joined(cases: &[Case]) -> (Vec<u32>, Vec<u32>) {
    let randomness = cases.iter().flat_map(|case| case.randomness.clone()).collect();
    (randomness, cases.iter().flat_map(|case| case.transcript.clone()).collect())
}

fn raise(word: &mut u32) {
    *word = if *word == Q - 1 { 0 } else { *word + 1 };
}

/// Eight cases, most of them damaged, and the numbers of their verdicts.
fn damaged() -> (Vec<Case>, [u32; 8]) {
    let mut cases = eight();
    let at = |name| begin(Slice::Transcript, &P, name);
    raise(&mut cases[0].transcript[at("u1")]);
    raise(&mut cases[1].transcript[at("b''")]);
    cases[3].transcript[at("z")] = Q;
    raise(&mut cases[4].transcript[at("h")]);
    cases[5].randomness[0] += 1;
    cases[6].transcript[at("p") - 1] = 7;
    (cases, [28, 22, 0, 10, 26, 7, 9, 0])
}

#[test]
fn each_verdict_is_the_single_calls() {
    let (cases, numbers) = damaged();
    for count in 1..=8 {
        let verdicts = verify_many(&cases[0].job, &sent(&cases[..count])).unwrap();
        assert_eq!(verdicts.len(), count);
        for ((case, verdict), number) in cases.iter().zip(&verdicts).zip(numbers) {
            assert_eq!(*verdict, verify(&case.job, &case.randomness, &case.transcript));
            assert_eq!(verdict.number(), number);
        }
    }
}

#[test]
fn a_slice_of_another_length_moves_no_other() {
    let mut cases = eight();
    cases[2].transcript.pop();
    cases[4].randomness.push(0);
    cases[5].transcript.clear();
    let verdicts = verify_many(&cases[0].job, &sent(&cases)).unwrap();
    let numbers: Vec<u32> = verdicts.iter().map(|verdict| verdict.number()).collect();
    assert_eq!(numbers, [0, 0, 9, 0, 7, 9, 0, 0]);
    for (case, verdict) in cases.iter().zip(&verdicts) {
        assert_eq!(*verdict, verify(&case.job, &case.randomness, &case.transcript));
    }
}

#[test]
fn lent_scratch_is_zero_after_eight_verdicts() {
    let (cases, numbers) = damaged();
    let (randomness, transcripts) = joined(&cases);
    let need = 8 * scratch_need(&cases[0].job).unwrap();
    let mut scratch = vec![MARK; need as usize + 2];
    let mut call = |lent: usize| {
        let told = verify_many_with(&cases[0].job, 8, &randomness, &transcripts, &mut scratch[..lent]);
        (told, scratch.clone())
    };
    let (short, stays) = call(need as usize - 1);
    assert_eq!(short, Err(Refusal::Scratch { needed: need, lent: need - 1 }));
    assert!(stays.iter().all(|&word| word == MARK));
    let (verdicts, cleared) = call(need as usize + 1);
    assert_eq!(verdicts.unwrap().iter().map(|verdict| verdict.number()).collect::<Vec<_>>(), numbers);
    assert!(cleared[..need as usize].iter().all(|&word| word == 0));
    assert_eq!(cleared[need as usize..], [MARK; 2]);
}

#[test]
fn slices_end_to_end_are_cut_from_the_start() {
    let cases = eight();
    let (randomness, transcripts) = joined(&cases);
    let length = cases[0].transcript.len();
    let mut scratch = vec![0; 4 * scratch_need(&cases[0].job).unwrap() as usize];
    let mut told = |count, transcripts: &[u32]| {
        let randomness = &randomness[..count as usize * cases[0].randomness.len()];
        let verdicts = verify_many_with(&cases[0].job, count, randomness, transcripts, &mut scratch).unwrap();
        verdicts.iter().map(|verdict| verdict.to_string()).collect::<Vec<_>>()
    };
    let good = "accepted, 0 cells with something left";
    let early = told(4, &transcripts[..2 * length + 3]);
    assert_eq!(early[..2], [good, good]);
    assert_eq!(early[2], "refusal 9: the transcript ends after 3 words, within section u1");
    assert_eq!(early[3], "refusal 9: the transcript ends after 0 words, before the count of section u1");
    let surplus = told(2, &transcripts[..2 * length + 1]);
    assert_eq!(
        surplus,
        [good.to_string(), format!("refusal 9: the transcript goes on at word {length}, behind its last section, h")]
    );
}

#[test]
fn a_number_outside_one_to_eight_is_35() {
    let cases = eight();
    let nine: Vec<Sent> = sent(&cases).into_iter().chain(sent(&cases[..1])).collect();
    let refusal = verify_many(&cases[0].job, &nine).unwrap_err();
    assert_eq!((refusal.number(), refusal.place()), (35, 0));
    assert_eq!(refusal.to_string(), "refusal 35: there are 9 transcripts, and a call takes 1 to 8");
    assert_eq!(verify_many(&[], &[]), Err(Refusal::TranscriptCount { count: 0 }));
    for count in [0, 9, u32::MAX] {
        let refusal = verify_many_with(&[], count, &[], &[], &mut []).unwrap_err();
        assert_eq!(refusal, Refusal::TranscriptCount { count: count.into() });
    }
    assert_eq!(verify_many(&cases[0].job[..40], &sent(&cases)).unwrap_err().number(), 3);
    assert_eq!(verify_many_with(&[], 8, &[], &[], &mut []).unwrap_err().number(), 3);
}

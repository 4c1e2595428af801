//! Every answer of the verifier, and its words.

use labrador::meaning::{meaning, CHECKS, MEANINGS};
use labrador::{prove, verify, Parameters, Refusal, Slice, Verdict, Q};

use crate::common::{begin, set_bound, with_answer, Case, NOT_BELOW};

fn verdict(case: &Case) -> Verdict {
    verify(&case.job, &case.randomness, &case.transcript)
}

#[test]
fn the_table_has_each_number_once() {
    let numbers: Vec<u32> = MEANINGS.iter().map(|m| m.number).collect();
    let expected: Vec<u32> = (1..=16).chain(21..=29).chain(31..=37).collect();
    assert_eq!(numbers, expected);
    assert!(CHECKS.iter().all(|check| meaning(check.number).is_some()));
    let conditions: Vec<u32> = CHECKS.iter().filter(|c| c.condition).map(|c| c.number).collect();
    assert_eq!(conditions, [21, 22, 23, 27]);
}

#[test]
fn each_answer_comes_with_its_number() {
    for number in [0].into_iter().chain(3..=10).chain(14..=16).chain(21..=29) {
        let verdict = verdict(&with_answer(number));
        assert_eq!(verdict.number(), number, "{verdict}");
        let kind = match number {
            0 => matches!(verdict, Verdict::Accepted { .. }),
            1..=16 => matches!(verdict, Verdict::Refused(_)),
            _ => matches!(verdict, Verdict::Failed(_)),
        };
        assert!(kind, "{number}");
    }
}

/// The words of the first refusal of each kind, whose places are those of the sections.
#[test]
fn refusals_are_told_with_their_place() {
    let p = Parameters::SMALL;
    let told = |number, words: String| assert_eq!(verdict(&with_answer(number)).to_string(), words);
    let job = |name, more| begin(Slice::Job, &p, name) + more;
    let drawn = Slice::Randomness.length(&p);
    let sign = begin(Slice::Randomness, &p, "signs") + 42;
    let z = begin(Slice::Transcript, &p, "z") + 65;
    told(3, format!("refusal 3: the job ends after {} words, within section phi'", job("phi'", 100)));
    told(4, "refusal 4: the job's word 1 is 65: n is from 1 to 64".into());
    told(5, "refusal 5: the job's word 12 is 3: L is at least 4 where log_q is 32".into());
    let phi = "section phi', constraint 0, vector 0, element 0, coefficient 17";
    told(6, format!("refusal 6: the job's word {} is {Q}, {NOT_BELOW} ({phi})", job("phi'", 17)));
    told(7, format!("refusal 7: the randomness goes on at word {drawn}, behind its last section, shuffle"));
    let signs = "section signs, challenge 1, sign 1";
    told(8, format!("refusal 8: the randomness's word {sign} is 2, neither 0 nor 1 ({signs})"));
    told(9, "refusal 9: the transcript's word 0 is 257, and the count of section u1 is 256".into());
    let coefficient = "section z, element 1, coefficient 1";
    told(10, format!("refusal 10: the transcript's word {z} is {Q}, {NOT_BELOW} ({coefficient})"));
    told(14, "refusal 14: the norm of the digits of t is above B's bound".into());
}

#[test]
fn failed_checks_are_told_with_their_figures() {
    let told = verdict(&with_answer(21)).to_string();
    assert!(told.starts_with("check 21 failed: the norm of the projection p is above its limit (norm "), "{told}");
    assert!(told.ends_with(", limit 128)"), "{told}");
    let told = verdict(&with_answer(22)).to_string();
    assert!(told.contains("(row 0: sent "), "{told}");
    assert_eq!(verdict(&with_answer(24)).to_string(), "check 24 failed: A·z is not the sum of t_i·c_i");
}

#[test]
fn empty_slices_are_refused_at_the_start() {
    let case = with_answer(0);
    let refused = |job: &[u32], randomness: &[u32], transcript: &[u32]| verify(job, randomness, transcript).to_string();
    assert_eq!(
        refused(&[], &case.randomness, &case.transcript),
        "refusal 3: the job ends after 0 words, before the count of section parameters"
    );
    assert_eq!(
        refused(&case.job, &[], &case.transcript),
        "refusal 7: the randomness ends after 0 words, before the count of section projection"
    );
    assert_eq!(
        refused(&case.job, &case.randomness, &[]),
        "refusal 9: the transcript ends after 0 words, before the count of section u1"
    );
}

#[test]
fn the_witness_is_refused_with_its_place() {
    let mut case = with_answer(0);
    let told = |case: &Case| prove(&case.job, &case.randomness, &case.witness).unwrap_err().to_string();
    case.witness[1 + 64 * 5 + 3] = Q;
    assert_eq!(
        told(&case),
        format!("refusal 12: the witness's word 324 is {Q}, {NOT_BELOW} (section witness, vector 1, element 1, coefficient 3)")
    );
    case.witness.pop();
    assert_eq!(told(&case), "refusal 11: the witness ends after 768 words, within section witness");
    let mut case = with_answer(0);
    set_bound(&mut case.job, "bound_A", 0);
    let refusal = prove(&case.job, &case.randomness, &case.witness).unwrap_err();
    assert!(matches!(refusal, Refusal::WitnessNorm { vector: 0, norm: 1.., bound: 0 }), "{refusal}");
}

/// The greatest word is a number of neither modulus.
#[test]
fn a_word_of_the_other_modulus_is_asked_for() {
    let mut case = with_answer(0);
    let place = begin(Slice::Job, &Parameters::SMALL, "A");
    for word in [u32::MAX, u32::MAX - 1, Q] {
        case.job[place] = word;
        let told = verdict(&case).to_string();
        assert_eq!(
            told.starts_with(&format!("refusal 6: the job's word {place} is {word}, not below Q")),
            u64::from(word) >= u64::from(Q),
            "{told}"
        );
        assert_eq!(
            told.contains("; a number of the modulus 4294967295? (section A"),
            (Q..u32::MAX).contains(&word),
            "{told}"
        );
    }
}

#[test]
fn one_kind_only_is_told() {
    let mut case = with_answer(0);
    case.job[6] = 0;
    case.job[7] = 0;
    assert_eq!(verdict(&case).to_string(), "refusal 4: the job's word 7 is 0: l and K are not both 0");
}

//! Any number of transcripts, and which of them count.

use std::num::NonZeroUsize;
use std::sync::atomic::{AtomicUsize, Ordering};

use labrador::worth::{repeats, repeats_of, Marker, Marks, Shared};
use labrador::{load, prove, verify, verify_all, verify_each, Parameters, Refusal, Sent, Slice};

use crate::common::{begin, made, Case};

const P: Parameters = Parameters { n: 1, r: 2, ..Parameters::SMALL };

/// So many cases of one job and witness, each with randomness of its own; each fifth is damaged.
fn cases(count: u32) -> Vec<Case> {
    let first = made(&P, 1);
    let with_randomness = |seed| {
        let randomness = load(&P, seed).unwrap().randomness;
        let mut transcript = prove(&first.job, &randomness, &first.witness).unwrap();
        match seed % 10 {
            0 => transcript[1] ^= 1,
            5 => drop(transcript.pop()),
            _ => {}
        }
        Case { randomness, transcript, ..first.clone() }
    };
    (1..=count).map(with_randomness).collect()
}

fn sent(cases: &[Case]) -> Vec<Sent<'_>> {
    cases.iter().map(|case| Sent { randomness: &case.randomness, transcript: &case.transcript }).collect()
}

fn threads(count: usize) -> NonZeroUsize {
    NonZeroUsize::new(count).unwrap()
}

#[test]
fn each_verdict_is_the_single_call_s_by_any_number_of_threads() {
    let cases = cases(19);
    let job = &cases[0].job;
    let single: Vec<_> = cases.iter().map(|case| verify(job, &case.randomness, &case.transcript)).collect();
    for count in [1, 8, 9, 16, 17, 19] {
        for by in [1, 2, 3, 8, 40] {
            assert_eq!(verify_all(job, &sent(&cases[..count]), threads(by)).unwrap(), single[..count]);
        }
    }
    assert_eq!(verify_all(job, &[], threads(1)), Err(Refusal::TranscriptCount { count: 0 }));
    assert_eq!(verify_all(&[], &sent(&cases), threads(2)).unwrap_err().number(), 3);
}

#[test]
fn what_cannot_be_read_is_given_back_in_its_place() {
    let cases = cases(11);
    let read = |index: usize, randomness: &mut Vec<u32>, transcript: &mut Vec<u32>| {
        randomness.extend(&cases[index].randomness);
        // the tenth fails after a part of its words
        if index == 9 {
            return Err("lost");
        }
        transcript.extend(&cases[index].transcript);
        Ok(())
    };
    let told = |index: usize, verdict: labrador::Verdict, sent: Sent<'_>| {
        assert_eq!(sent.transcript, cases[index].transcript);
        (index, verdict.number())
    };
    let judged = verify_each(&cases[0].job, 11, threads(2), read, told).unwrap();
    let expected = (0..11).map(|index| match index {
        4 => Ok((4, 9)),
        9 => Err("lost"),
        _ => Ok((index, 0)),
    });
    assert_eq!(judged, expected.collect::<Vec<_>>());
}

/// Of the transcripts that were read and not yet told there are at most eight on up to eight threads.
#[test]
fn no_more_than_eight_are_held_at_a_time() {
    let cases = cases(1);
    for by in [1, 2, 3, 5, 8] {
        let (held, most) = (AtomicUsize::new(0), AtomicUsize::new(0));
        let read = |_: usize, randomness: &mut Vec<u32>, transcript: &mut Vec<u32>| {
            most.fetch_max(held.fetch_add(1, Ordering::SeqCst) + 1, Ordering::SeqCst);
            randomness.extend(&cases[0].randomness);
            transcript.extend(&cases[0].transcript);
            Ok::<(), ()>(())
        };
        let told = |_: usize, _, _: Sent<'_>| held.fetch_sub(1, Ordering::SeqCst);
        assert_eq!(verify_each(&cases[0].job, 30, threads(by), read, told).unwrap().len(), 30);
        assert!(most.into_inner() <= 8, "{by} threads");
    }
}

#[test]
fn marks_find_what_the_words_share() {
    let mut cases = cases(4);
    cases.push(cases[1].clone());
    let mut psi = cases[3].clone();
    let at = begin(Slice::Randomness, &P, "psi");
    psi.randomness[at..at + 8].copy_from_slice(&cases[0].randomness[at..at + 8]);
    psi.transcript[3] ^= 1;
    cases.push(psi);
    let mut changed = cases[2].clone();
    changed.transcript[7] ^= 1;
    cases.push(changed);
    let marker = Marker::new(&P);
    let marks: Vec<Marks> = sent(&cases).iter().map(|one| marker.marks(one)).collect();
    let found = repeats_of(&marks);
    assert_eq!(found, repeats(&P, &sent(&cases)));
    let shared: Vec<_> = found.iter().map(|repeat| (repeat.index, repeat.of, repeat.shared)).collect();
    assert_eq!(shared, [(4, 1, Shared::Transcript), (5, 0, Shared::Section("psi")), (6, 2, Shared::Randomness)]);
    let mut other = cases[0].clone();
    let last = other.transcript.len() - 1;
    other.transcript[last] ^= 1;
    assert_ne!(marker.marks(&sent(&cases)[0]), marker.marks(&sent(&[other])[0]));
}

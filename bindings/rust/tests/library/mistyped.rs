//! Which constant was mistyped.

use labrador::{mistyped, mistyped_into, scratch_need, Mistyped, Parameters, Refusal, Slice, Zq, Q};

use crate::common::{begin, made, with_answer, Case};

fn list_of(case: &Case) -> Result<Vec<Mistyped>, Refusal> {
    mistyped(&case.job, &case.randomness, &case.transcript)
}

fn add(word: &mut u32, number: u32) {
    *word = ((u64::from(*word) + u64::from(number)) % u64::from(Q)) as u32;
}

#[test]
fn each_constant_put_wrong_is_found() {
    let p = Parameters { l: 5, ..Parameters::SMALL };
    let right = made(&p, 3);
    let b0 = begin(Slice::Job, &p, "b0");
    for index in 0..5 {
        let mut case = right.clone();
        add(&mut case.job[b0 + index as usize], 7 + index);
        let number = Zq(Q - 7 - index);
        assert_eq!(list_of(&case), Ok(vec![Mistyped { index, number }]));
    }
}

/// Columns of psi that are the first one's times a number, so that one wrong constant can be mended at every index.
fn with_columns(p: &Parameters, factors: &[i64]) -> Case {
    let mut case = made(p, 3);
    let psi = begin(Slice::Randomness, p, "psi");
    for row in case.randomness[psi..psi + (p.L * p.l) as usize].chunks_mut(p.l as usize) {
        let first = i128::from(row[0]);
        for (word, &factor) in row.iter_mut().zip(factors) {
            *word = (first * i128::from(factor)).rem_euclid(i128::from(Q)) as u32;
        }
    }
    case.transcript = labrador::prove(&case.job, &case.randomness, &case.witness).unwrap();
    case
}

#[test]
fn of_equal_sizes_lowered_constants_come_first() {
    let p = Parameters { l: 6, ..Parameters::SMALL };
    let b0 = begin(Slice::Job, &p, "b0");
    let centred = |found: Vec<Mistyped>| -> Vec<(u32, i64)> {
        found.iter().map(|entry| (entry.index, entry.number.centre().unwrap())).collect()
    };
    let mut case = with_columns(&p, &[1, -1, 1, -1, 1, -1]);
    add(&mut case.job[b0], Q - 7);
    assert_eq!(centred(list_of(&case).unwrap()), [(1, -7), (3, -7), (5, -7), (0, 7), (2, 7), (4, 7)]);
    // two sizes, each with both signs
    let mut case = with_columns(&p, &[1, 3, -3, -1, -1, 3]);
    add(&mut case.job[b0], 9);
    assert_eq!(centred(list_of(&case).unwrap()), [(1, -3), (5, -3), (2, 3), (0, -9), (3, 9), (4, 9)]);
}

#[test]
fn two_wrong_constants_are_mended_by_none() {
    let p = Parameters { l: 5, ..Parameters::SMALL };
    let mut case = made(&p, 3);
    let b0 = begin(Slice::Job, &p, "b0");
    add(&mut case.job[b0], 1);
    add(&mut case.job[b0 + 4], 1);
    assert_eq!(list_of(&case), Err(Refusal::NothingMends));
}

#[test]
fn another_verdict_is_no_failed_22() {
    for number in [0, 21, 23, 24, 25, 26, 27, 28, 29] {
        let refusal = list_of(&with_answer(number)).unwrap_err();
        assert_eq!(refusal.to_string(), "refusal 32: check 22 is not the one that failed", "{number}");
    }
    for number in [3, 4, 5, 6, 7, 8, 9, 10, 14, 15, 16] {
        assert_eq!(list_of(&with_answer(number)).unwrap_err().number(), number);
    }
}

#[test]
fn short_buffers_are_refused_and_stay() {
    let case = with_answer(22);
    let need = scratch_need(&case.job).unwrap() as usize;
    let l = Parameters::SMALL.l as usize;
    let (mut scratch, mut list) = (vec![9; need], vec![9; 2 * l - 1]);
    let refusal = mistyped_into(&case.job, &case.randomness, &case.transcript, &mut scratch, &mut list).unwrap_err();
    assert_eq!(refusal, Refusal::Output { buffer: "list", needed: 2 * l as u64, lent: list.len() as u64 });
    assert!(scratch.iter().chain(&list).all(|&w| w == 9));
    let refusal =
        mistyped_into(&case.job, &case.randomness, &case.transcript, &mut scratch[1..], &mut list).unwrap_err();
    assert_eq!(refusal.number(), 1);
}

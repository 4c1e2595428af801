//! Document 02, Item 8: which constant was mistyped. "After such a verdict a call lists each index l for which adding one
//! number to b0[l] alone would let check 22 pass." Its order is Item 12's.

use crate::checks::{row_values, verdict};
use crate::leaves::{centre, mul, sub, Q};
use crate::refusals::{fit, Handed};
use crate::words::{Job, Randomness, Transcript};
use crate::{Answer, Call};

/// An entry of the list: an index and the number to be added there, a word below Q.
#[derive(Clone, Copy, Debug, PartialEq, Eq)]
pub struct Entry {
    pub index: u32,
    pub number: u32,
}

impl Entry {
    /// "entries of equal size now come with negative numbers first, then by lower l. Smallest size still leads."
    fn rank(&self) -> (u64, bool, u32) {
        let number = centre(self.number);
        (number.unsigned_abs(), number > 0, self.index)
    }
}

/// What the call answers. The list has words only where the work was reached: 2·l, zeros where there are no entries.
#[derive(Clone, Debug, Default, PartialEq, Eq)]
pub struct Mistyped {
    pub number: u32,
    pub place: u64,
    pub entries: u64,
    pub list: Option<Vec<u32>>,
}

/// gcd(a, m) = g, and s below m with a·s = g modulo m.
fn gcd(a: i128, m: i128) -> (i128, i128) {
    let (mut g, mut next) = (m, a % m);
    let (mut s, mut of_next) = (0, 1);
    while next != 0 {
        let times = g / next;
        (g, next) = (next, g - times * next);
        (s, of_next) = (of_next, s - times * of_next);
    }
    (g, s.rem_euclid(m))
}

/// The number of smallest centred size with weight·x = error modulo Q in every row.
pub fn smallest(rows: &[(u32, u32)]) -> Option<u32> {
    // the numbers x, x + modulus, x + 2·modulus, …; modulus divides Q
    let q = i128::from(Q);
    let (mut x, mut modulus) = (0_i128, 1_i128);
    for &(weight, error) in rows {
        // weight·modulus·t = short modulo Q, for the numbers x + t·modulus
        let weight = i128::from(weight);
        let short = (i128::from(error) - weight * x).rem_euclid(q);
        let (g, s) = gcd(weight * modulus, q);
        if short % g != 0 {
            return None;
        }
        x += modulus * (short / g * s % (q / g));
        modulus *= q / g;
        x %= modulus;
    }
    let last = x + (q - modulus);
    [x, last].map(|x| x as u32).into_iter().min_by_key(|&x| centre(x).unsigned_abs())
}

/// Each row's weight at an index, and what its constant coefficient is short of the one sent.
fn rows(job: &Job, x: &Randomness, sent: &Transcript, index: usize) -> Vec<(u32, u32)> {
    (0..job.parameters.aggregations)
        .map(|k| {
            let (value, computed) = row_values(job, x, k, &sent.b2, &sent.p);
            (x.psi[k][index], sub(value, computed))
        })
        .collect()
}

/// The list in its order. Each entry is put in and the rows are looked at again.
fn entries(job: &Job, x: &Randomness, sent: &Transcript) -> Vec<Entry> {
    let mut found = vec![];
    for index in 0..job.parameters.constant {
        let rows = rows(job, x, sent, index);
        if let Some(number) = smallest(&rows) {
            assert!(rows.iter().all(|&(weight, error)| mul(weight, number) == error));
            found.push(Entry { index: index as u32, number });
        }
    }
    found.sort_by_key(Entry::rank);
    found
}

fn refused(answer: Answer, list: Option<Vec<u32>>) -> Mistyped {
    Mistyped { number: answer.number, place: answer.place, entries: 0, list }
}

/// The call; `handed.output` is the length of the list.
pub fn mistyped(handed: Handed) -> Mistyped {
    let p = match fit(Call::Verify, handed) {
        Ok(p) => p,
        Err(answer) => return refused(answer, None),
    };
    let need = 2 * p.constant;
    if handed.output < need {
        return refused(Answer::refused(2, need), None);
    }
    let job = Job::read(handed.job);
    let drawn = Randomness::read(&p, handed.randomness);
    let sent = Transcript::read(&p, handed.third);
    let zeros = Some(vec![0; need]);
    match verdict(&job, &drawn, &sent).number {
        22 => {}
        number @ 14..=16 => return refused(Answer::refused(number, 0), zeros),
        _ => return refused(Answer::refused(32, 0), zeros),
    }
    let found = entries(&job, &drawn, &sent);
    if found.is_empty() {
        return refused(Answer::refused(33, 0), zeros);
    }
    let mut list: Vec<u32> = found.iter().flat_map(|e| [e.index, e.number]).collect();
    list.resize(need, 0);
    Mistyped { number: 0, place: 0, entries: found.len() as u64, list: Some(list) }
}

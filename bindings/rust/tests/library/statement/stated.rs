//! What each constraint of a job states.

use labrador::review::Kind;
use labrador::statement::{stated, totals, Touched};
use labrador::{Parameters, Slice, HALF, Q};

use super::{parsed, three, P};
use crate::common::{begin, made};

fn touched(counts: &[(u32, u64, u64)]) -> Vec<Touched> {
    counts.iter().map(|&(vector, terms, products)| Touched { vector, terms, products }).collect()
}

#[test]
fn totals_by_their_lines() {
    let all = stated(&parsed(&three()).job()).unwrap();
    assert_eq!(all.iter().map(|one| one.right.clone()).collect::<Vec<_>>(), [[600], [Q - 7], [12]]);
    assert_eq!(all.iter().map(|one| one.centred()).collect::<Vec<_>>(), [[600], [-7], [12]]);
    assert_eq!(all[0].touched, touched(&[(0, 128, 0)]));
    assert_eq!(all[1].touched, touched(&[(1, 64, 0), (2, 1, 0)]));
    // a line that is named twice is one term
    assert_eq!(all[2].touched, touched(&[(0, 1, 0), (2, 128, 0)]));
    assert!(all.iter().enumerate().all(|(k, one)| (one.kind, one.index) == (Kind::ConstantTerm, k as u64)));
}

#[test]
fn products_and_right_sides_on_the_ring() {
    let p = Parameters { K: 2, l: 1, ..P };
    let mut job = made(&p, 5).job;
    for name in ["a'", "phi'", "a", "phi", "b"] {
        let at = begin(Slice::Job, &p, name);
        let end = at + job[at - 1] as usize;
        job[at..end].fill(0);
    }
    let (a, phi, b) = (begin(Slice::Job, &p, "a"), begin(Slice::Job, &p, "phi"), begin(Slice::Job, &p, "b"));
    // of ring constraint 1: the cells (1,1) and (2,0), two coefficients of vector 1, and a right side
    let cells = a + 6 * 64;
    job[cells + 2 * 64 + 9] = 4;
    job[cells + 3 * 64] = 1;
    job[cells + 3 * 64 + 63] = 1;
    let vectors = phi + 3 * 128;
    (job[vectors + 128], job[vectors + 200]) = (1, Q - 1);
    (job[b + 64], job[b + 127]) = (HALF + 1, 3);
    let all = stated(&job).unwrap();
    assert_eq!(all[0].touched, []);
    assert_eq!((all[1].kind, all[1].index, &all[1].touched), (Kind::Ring, 0, &Vec::new()));
    assert_eq!((all[2].kind, all[2].index), (Kind::Ring, 1));
    assert_eq!(all[2].touched, touched(&[(0, 0, 1), (1, 2, 1), (2, 0, 1)]));
    assert_eq!((all[2].right.len(), all[2].right[0], all[2].right[63]), (64, HALF + 1, 3));
    assert_eq!((all[2].centred()[0], all[2].centred()[63]), (-i64::from(HALF), 3));
    assert_eq!(all.into_iter().map(|one| one.total).collect::<Vec<_>>(), totals(&job).unwrap());
}

#[test]
fn an_unfit_job_states_nothing() {
    assert_eq!(stated(&[]).unwrap_err().number(), 3);
}

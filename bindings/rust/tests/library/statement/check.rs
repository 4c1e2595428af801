//! Which constraints a witness meets.

use labrador::review::Kind;
use labrador::statement::{check, Stock};
use labrador::{prove, verify, Parameters, Slice, HALF, Q};

use super::{head, parsed, P};
use crate::common::{begin, made, set_bound};

#[test]
fn totals_met_and_missed() {
    let job = parsed(&(head() + "total 600 = s0\ntotal -7 = 3*s1[0..64] - s2[5]\ntotal 13 = 2*s1[1] + s2[0]\n")).job();
    let mut numbers = vec![0; 384];
    (numbers[0], numbers[127]) = (1000, -400);
    (numbers[128 + 1], numbers[256 + 5], numbers[256]) = (5, 22, 2);
    let witness = Stock::new(&P, &numbers).unwrap().witness();
    let checked = check(&job, &witness).unwrap();
    let sides: Vec<_> = checked.sides.iter().map(|side| (side.left, side.right, side.difference())).collect();
    assert_eq!(sides, [(600, 600, 0), (-7, -7, 0), (12, 13, -1)]);
    assert_eq!((checked.missed(), checked.above()), (1, 1));
    assert_eq!((checked.norms.clone(), checked.bound), (vec![1160000, 25, 488], 1000000));
    assert_eq!(checked.sides[2].total.as_ref().unwrap().to_string(), "total 13 = 2 * s1[1] + s2[0]");
}

/// Sums of lines are not taken modulo Q, and one that is the total modulo Q alone is told as that; the verifier accepts it.
#[test]
fn sums_beyond_q() {
    let q = i128::from(Q);
    let half = i64::from(HALF);
    let told = |total: &str, numbers: &[i64]| {
        let job = parsed(&(head().replace("1000000", "79228162514264337593543950335") + total)).job();
        let checked = check(&job, &Stock::new(&P, numbers).unwrap().witness()).unwrap();
        let side = checked.sides[0].clone();
        assert_eq!(
            (checked.missed(), checked.modulo_q()),
            (usize::from(!side.is_met_modulo_q()), usize::from(side.is_met_modulo_q() && !side.is_met()))
        );
        (side.left, side.difference(), side.is_met(), side.is_met_modulo_q())
    };
    let line = 1500000000;
    assert_eq!(told("total 1500000000 = s0\n", &[line, line]), (3000000000, 1500000000, false, false));
    let modulo = 2 * line - i64::from(Q);
    assert_eq!(told(&format!("total {modulo} = s0\n"), &[line, line]), (3000000000, q, false, true));
    assert_eq!(told("total -1 = 2*s0\n", &[half]), (q - 1, q, false, true));
    assert_eq!(told("total 0 = s0\n", &[half, half, 1]), (q, q, false, true));
    assert_eq!(told(&format!("total -{half} = s0\n"), &[-half]), (-i128::from(half), 0, true, true));
    assert_eq!(told("total 5 = s0\n", &[half, -half, 5]), (5, 0, true, true));
}

/// Both kinds of constraints of test loads, which their witness meets, with one right side raised.
#[test]
fn constraints_of_every_kind() {
    for seed in 1..6 {
        let p = Parameters { n: 2, r: 1 + seed % 3, ..Parameters::SMALL };
        let case = made(&p, seed);
        let mut job = case.job.clone();
        let checked = check(&job, &case.witness).unwrap();
        assert_eq!((checked.sides.len(), checked.missed()), (4, 0), "{seed}");
        let at = begin(Slice::Job, &p, "b") + 64 + 17;
        job[at] = if job[at] == 0 { Q - 1 } else { job[at] - 1 };
        let at = begin(Slice::Job, &p, "b0");
        job[at] = if job[at] == Q - 1 { 0 } else { job[at] + 1 };
        let checked = check(&job, &case.witness).unwrap();
        let missed: Vec<_> = checked.sides.iter().filter(|side| !side.is_met()).collect();
        assert_eq!((missed.len(), missed[0].kind, missed[0].index), (2, Kind::ConstantTerm, 0), "{seed}");
        assert_eq!((missed[1].kind, missed[1].index, missed[1].coefficient), (Kind::Ring, 1, 17), "{seed}");
        assert_eq!((missed[0].difference() + 1) % i128::from(Q), 0);
        assert_eq!((missed[1].difference() - 1) % i128::from(Q), 0);
    }
}

#[test]
fn unfit_slices_are_refused() {
    let case = made(&P, 3);
    let told = |job: &[u32], witness: &[u32]| check(job, witness).unwrap_err().number();
    assert_eq!(told(&case.job[..50], &case.witness), 3);
    assert_eq!(told(&case.job, &case.witness[..50]), 11);
    let mut witness = case.witness.clone();
    witness[9] = Q;
    assert_eq!(told(&case.job, &witness), 12);
}

/// What `check` says is what the verifier answers: the total that is missed fails 22, and the norm above is 13.
#[test]
fn the_verifier_agrees() {
    let mut job = parsed(&(head().replace("1000000", "999999999999") + "total 600 = s0\n")).job();
    let randomness = made(&Parameters { l: 1, ..P }, 5).randomness;
    for (line, number) in [(600, 0), (599, 22), (601, 22)] {
        let witness = Stock::new(&P, &[line]).unwrap().witness();
        assert_eq!(check(&job, &witness).unwrap().missed() > 0, number == 22);
        let transcript = prove(&job, &randomness, &witness).unwrap();
        assert_eq!(verify(&job, &randomness, &transcript).number(), number, "{line}");
    }
    let witness = Stock::new(&P, &[600]).unwrap().witness();
    for (bound, above) in [(360000, 0), (359999, 1)] {
        set_bound(&mut job, "bound_A", bound);
        assert_eq!(check(&job, &witness).unwrap().above(), above);
        assert_eq!(prove(&job, &randomness, &witness).is_err(), above > 0);
    }
}

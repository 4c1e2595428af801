//! Rows of A and aggregated equations apart: kappa and L are two numbers.

use labrador::{load_needs, output_need, scratch_need, verify, FailedCheck, Parameters, Round, Slice, Verdict, Q};

use crate::common::{begin, made};

fn apart() -> Vec<Parameters> {
    let small = Parameters { n: 2, r: 2, ..Parameters::SMALL };
    let sizes = [(1, 4), (16, 4), (3, 7), (2, 32)];
    sizes.map(|(kappa, rows)| Parameters { kappa, L: rows, ..small }).to_vec()
}

#[test]
fn a_load_is_proved_and_accepted() {
    for p in apart() {
        let case = made(&p, 6);
        assert_eq!((case.job[3], case.job[12]), (p.kappa, p.L));
        let verdict = verify(&case.job, &case.randomness, &case.transcript);
        assert_eq!(verdict, Verdict::Accepted { cells_left: 0 }, "{p:?}");
    }
}

#[test]
fn the_needs_have_both() {
    for p in apart() {
        let job = made(&p, 6).job;
        let [n, r, kappa, rows] = [p.n, p.r, p.kappa, p.L].map(u64::from);
        let scratch = 64 * ((rows + 2) * (r * n + p.triangle()) + r * kappa + n + 64);
        assert_eq!(scratch_need(&job), Ok(scratch), "{p:?}");
        assert_eq!(output_need(&job), Ok(Slice::Transcript.length(&p)), "{p:?}");
        assert_eq!(Round::Three.output_need(&job), Ok(1 + 64 * rows), "{p:?}");
    }
}

#[test]
fn check_22_runs_to_the_last_row() {
    for p in apart() {
        let mut case = made(&p, 6);
        let last = begin(Slice::Transcript, &p, "b''") + 64 * (p.L as usize - 1);
        let was = case.transcript[last];
        case.transcript[last] = (was + 1) % Q;
        let (sent, worked_out) = (case.transcript[last].into(), was.into());
        let failed = FailedCheck::ConstantTerm { row: p.L - 1, sent, worked_out };
        assert_eq!(verify(&case.job, &case.randomness, &case.transcript), Verdict::Failed(failed), "{p:?}");
    }
}

#[test]
fn too_small_an_l_is_refused_at_its_place() {
    let small = Parameters::SMALL;
    let refused = |p: Parameters| load_needs(&p).unwrap_err();
    for (log_q, least) in [(16, 8), (31, 5), (32, 4)] {
        let p = Parameters { log_q, L: least, ..small };
        assert_eq!(p.least_aggregations(), least);
        assert!(load_needs(&p).is_ok());
        let refusal = refused(Parameters { L: least - 1, ..p });
        assert_eq!((refusal.number(), refusal.place()), (5, 12));
        let found = least - 1;
        let told = format!("refusal 5: the job's word 12 is {found}: L is at least {least} where log_q is {log_q}");
        assert_eq!(refusal.to_string(), told);
        assert_eq!(refusal.meaning().short, "L is below 128 divided by log_q, rounded up");
        assert_eq!(refusal.meaning().place, "L's index, 12");
    }
    let refusal = refused(Parameters { L: 33, ..small });
    assert_eq!(refusal.to_string(), "refusal 4: the job's word 12 is 33: L is from 1 to 32");
    let refusal = refused(Parameters { kappa: 17, ..small });
    assert_eq!(refusal.to_string(), "refusal 4: the job's word 3 is 17: kappa is from 1 to 16");
}

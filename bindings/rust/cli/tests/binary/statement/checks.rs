//! `labrador check`

use labrador::{HALF, Q};

use super::made;
use crate::common::with_answer;
use crate::desk::Desk;
use crate::run::{run, PROVE, VERIFY};

#[test]
fn what_is_met() {
    let desk = made("check_met");
    let ran = run(&desk, "check --job job --witness witness");
    let told = "total 0 is met: left 60, right 60, difference 0, in grams (total 60 = s0)\n\
                total 1 is met: left -5, right -5, difference 0, in grams (total -5 = - 2 * s0[1] + s1[0..32])\n\
                vector 0: norm 1850 is at most A's bound 99999999\n\
                vector 1: norm 4225 is at most A's bound 99999999\n";
    assert_eq!((ran.status, ran.out.as_str()), (0, told));
    assert_eq!(ran.line, "labrador: all 2 totals are met, no norm of 2 vectors is above A's bound\n");
}

#[test]
fn what_is_missed() {
    let desk = made("check_missed");
    desk.text("b.stock", "0,0,25\n0,1,36\n1,0,65\n1,40,20000\n");
    assert_eq!(run(&desk, "stock b.stock --job job --witness witness --force").status, 0);
    let ran = run(&desk, "check --job job --witness witness");
    let told = "total 0 is missed: left 61, right 60, difference 1, in grams (total 60 = s0)\n\
                total 1 is missed: left -7, right -5, difference -2, in grams (total -5 = - 2 * s0[1] + s1[0..32])\n\
                vector 0: norm 1921 is at most A's bound 99999999\n\
                vector 1: norm 400004225 is above A's bound 99999999\n";
    assert_eq!((ran.status, ran.out.as_str()), (1, told));
    assert_eq!(ran.line, "labrador: 2 of 2 totals missed, 1 of 2 vectors above A's bound\n");
    let json = run(&desk, "check --job job --witness witness --json");
    let first = "\"constraints\":[{\"constraint\":\"total 0\",\"verdict\":\"missed\",\"left\":\"61\",\"right\":\"60\",\"difference\":\"1\"}";
    assert!(json.out.contains(first) && json.out.contains("\"bound_A\":\"99999999\""), "{}", json.out);
}

/// Grams are not taken modulo Q, and a total that is met so only is told as that, with status 1.
#[test]
fn sums_beyond_q() {
    let desk = made("check_modulo");
    let most = HALF;
    desk.text("b.stock", &format!("0,0,{most}\n0,1,35\n0,2,{most}\n0,3,26\n1,0,65\n"));
    let sum = u64::from(Q) + 60;
    assert_eq!(run(&desk, "stock b.stock --job job --witness witness --force").status, 0);
    let ran = run(&desk, "check --job job --witness witness");
    let told = format!("total 0 is met modulo Q only: left {sum}, right 60, difference {Q}, in grams (total 60 = s0)");
    assert_eq!((ran.status, ran.out.lines().next()), (1, Some(told.as_str())));
    assert!(ran.line.starts_with("labrador: 1 of 2 totals met modulo Q only, 1 of 2 vectors above"), "{}", ran.line);
    let json = run(&desk, "check --job job --witness witness --json").out;
    let first =
        format!("\"verdict\":\"met modulo Q only\",\"left\":\"{sum}\",\"right\":\"60\",\"difference\":\"{Q}\"}}");
    assert!(json.contains(&first), "{json}");
    desk.text("b.stock", "1500000000\n1500000000\n");
    assert_eq!(run(&desk, "stock b.stock --job job --witness witness --force").status, 0);
    let ran = run(&desk, "check --job job --witness witness");
    let told = "total 0 is missed: left 3000000000, right 60, difference 2999999940, in grams (total 60 = s0)";
    assert_eq!((ran.status, ran.out.lines().next()), (1, Some(told)));
}

#[test]
fn constraints_of_other_kinds_are_held_too() {
    let desk = Desk::with("check_load", &with_answer(22));
    let ran = run(&desk, "check --job job --witness witness");
    assert_eq!(ran.status, 1);
    assert!(ran.out.starts_with("constant-term constraint 0 is missed: left "), "{}", ran.out);
    assert!(ran.out.contains("\nring constraint 1 is met: left "), "{}", ran.out);
    assert!(ran.line.starts_with("labrador: 1 of 4 constraints missed, no norm of 3 vectors"), "{}", ran.line);
    let desk = Desk::with("check_ring", &with_answer(27));
    let ran = run(&desk, "check --job job --witness witness");
    assert!(ran.out.contains("\nring constraint 0 is missed: left "), "{}", ran.out);
}

#[test]
fn unfit_files_are_2() {
    let desk = Desk::with("check_unfit", &with_answer(0));
    let ran = run(&desk, "check --job job --witness randomness");
    assert_eq!(ran.status, 2);
    assert!(ran.line.starts_with("labrador: refusal 11: "), "{}", ran.line);
    assert!(run(&desk, "check --job witness --witness witness").line.starts_with("labrador: refusal 3: "));
}

/// A wrong total is found here, and by the desk only in check 22.
#[test]
fn a_wrong_total_fails_22() {
    let desk = super::proved("check_22");
    assert_eq!(run(&desk, VERIFY).status, 0);
    desk.text("b.statement", &super::text().replace("total 60", "total 61"));
    assert_eq!(run(&desk, "statement b.statement --job job --force").status, 0);
    assert_eq!(run(&desk, "check --job job --witness witness").status, 1);
    assert_eq!(run(&desk, &format!("{PROVE} --transcript transcript --force")).status, 0);
    let verdict = run(&desk, VERIFY);
    assert_eq!(verdict.status, 1);
    assert!(
        verdict.line.contains("check 22 failed: ") || verdict.out.contains("check 22 failed: "),
        "{}",
        verdict.line
    );
}

//! A job held against a statement file: describe, verify, verify-many and the page; and the totals in words.

use labrador::Q;

use super::{proved, text};
use crate::common::with_answer;
use crate::desk::Desk;
use crate::run::{run, VERIFY};

const SAME: &str = "A to D are those of the seed\nthe job is that of a.statement\n";
const MANY: &str = "verify-many --job job randomness transcript";

#[test]
fn describe_says_the_totals() {
    let desk = proved("held_describe");
    let plain = run(&desk, "describe job");
    let first = "  total 60 = s0\n    constant-term constraint 0: b0 is 60, centred 60; it touches s0 with 64 terms\n";
    let second = format!(
        "  total -5 = - 2 * s0[1] + s1[0..32]\n    constant-term constraint 1: b0 is {}, centred -5; it touches s0 with 1 term, s1 with 32 terms\n",
        Q - 5
    );
    assert!(plain.out.contains(&format!("\nstates\n{first}{second}\n")), "{}", plain.out);
    assert!(!plain.out.contains("seed"));
    let held = run(&desk, "describe --statement a.statement job");
    assert_eq!((held.status, held.out.as_str(), held.line.as_str()), (0, format!("{}{SAME}", plain.out).as_str(), ""));
    let json = run(&desk, "describe --statement a.statement job --json").out;
    assert!(json.contains("\"states\":[\"total 60 = s0\",\"total -5 = - 2 * s0[1] + s1[0..32]\"]"), "{json}");
    assert!(
        json.contains("\"compared\":[\"A to D are those of the seed\",\"the job is that of a.statement\"]"),
        "{json}"
    );
    // held against the job that is named, and against none
    assert!(run(&desk, "describe --statement a.statement --job job transcript").out.ends_with(SAME));
    let none = run(&desk, "describe --statement a.statement transcript");
    assert_eq!((none.status, none.line.as_str()), (1, "labrador: there is no fit job to hold a.statement against\n"));
}

#[test]
fn describe_says_what_is_no_total() {
    let desk = Desk::with("held_load", &with_answer(0));
    let told = run(&desk, "describe job").out;
    assert!(told.contains("\nstates\n  constant-term constraint 0 is no total: it has quadratic"), "{told}");
    assert!(told.contains("\n  ring constraint 1 is no total ("), "{told}");
    let touched = "63 of the other 63 are not 0; it touches s0 to s2 with 256 terms and 3 products each\n";
    assert!(told.contains("\n    ring constraint 1: coefficient 0 of b is ") && told.contains(touched), "{told}");
}

#[test]
fn another_total_is_told() {
    let desk = proved("held_total");
    desk.text("b.statement", &text().replace("total 60", "total 61"));
    let told = run(&desk, "describe --statement b.statement job");
    assert_eq!(told.status, 1);
    let other = "the job is not that of b.statement: word 674 is another (section b0, constraint 0)";
    assert!(told.out.ends_with(&format!("A to D are those of the seed\n{other}\n")), "{}", told.out);
    assert_eq!(told.line, format!("labrador: {other}\n"));
    for call in [VERIFY, MANY] {
        let verdict = run(&desk, &format!("{call} --statement b.statement --json"));
        assert_eq!(verdict.status, 1, "{call}");
        assert!(verdict.out.contains(other) && verdict.out.contains("accepted"), "{}", verdict.out);
        assert_eq!(run(&desk, &format!("{call} --statement a.statement")).status, 0);
    }
}

#[test]
fn other_matrices_are_told() {
    let desk = proved("held_matrices");
    desk.text("b.statement", &text().replace("seed 00", "seed 01"));
    let told = run(&desk, "describe --statement b.statement job");
    let place = "word 680 is another (section A, row 0, column 0, coefficient 0)";
    assert_eq!(told.status, 1);
    assert!(told.out.contains(&format!("\nA to D are not those of the seed: {place}\n")), "{}", told.out);
    assert!(told.out.ends_with(&format!("the job is not that of b.statement: {place}\n")), "{}", told.out);
    desk.text("c.statement", &text().replace("r 2", "r 3"));
    let told = run(&desk, "describe --statement c.statement job");
    assert!(told
        .out
        .ends_with("the job is not that of c.statement: word 2 is another (section parameters, field r)\n"));
}

#[test]
fn the_page_has_the_totals() {
    let desk = proved("held_page");
    let page = |options: &str| {
        let ran = run(&desk, &format!("{VERIFY} --report page.html --force {options}"));
        (ran.status, desk.read("page.html"))
    };
    let (status, plain) = page("");
    assert_eq!(status, 0);
    for total in ["<td>total 60 = s0</td>", "<td>total -5 = - 2 * s0[1] + s1[0..32]</td>"] {
        assert!(plain.contains(total), "{plain}");
    }
    assert!(!plain.contains("those of the seed"));
    let (status, held) = page("--statement a.statement");
    assert_eq!(status, 0);
    assert!(held.contains("<p>A to D are those of the seed; the job is that of a.statement.</p>"), "{held}");
    desk.text("b.statement", &text().replace("total 60", "total 61"));
    let (status, other) = page("--statement b.statement");
    assert_eq!(status, 1);
    assert!(other.contains("the job is not that of b.statement: word 674 is another"), "{other}");
    // no green headline
    assert!(plain.contains("<header class=\"accepted\">") && other.contains("<header class=\"refused\">"));
    assert!(other.contains("; the job is not that of the statement file</h1>"), "{other}");
}

#[test]
fn a_wrong_statement_is_2_and_nothing_is_judged() {
    let desk = proved("held_wrong");
    desk.text("b.statement", "statement 2");
    for call in [VERIFY, MANY, "describe job"] {
        let ran = run(&desk, &format!("{call} --statement b.statement"));
        let told = "labrador: b.statement: line 1, column 11: 2 stands there; the first line is: statement 1\n";
        assert_eq!((ran.status, ran.line.as_str(), ran.out.as_str()), (2, told, ""), "{call}");
    }
    assert_eq!(run(&desk, &format!("{VERIFY} --statement a.statement --report a.statement --force")).status, 64);
}

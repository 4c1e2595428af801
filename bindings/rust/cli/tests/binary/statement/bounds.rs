//! `labrador bounds`

use labrador::statement::Statement;

use super::{store, text, STOCK};
use crate::run::run;

/// The statement without its bounds.
fn lacking() -> String {
    text().lines().filter(|line| !line.ends_with(" 99999999")).map(|line| format!("{line}\n")).collect()
}

#[test]
fn six_lines_that_fit() {
    let desk = store("bounds_fit");
    desk.text("b.statement", &lacking());
    assert_eq!(run(&desk, "statement b.statement --job job").status, 2);
    let ran = run(&desk, "bounds --statement b.statement --stock a.stock --slack 0 --sessions 3");
    assert_eq!((ran.status, ran.line.as_str()), (0, "labrador: with these bounds 3 of 3 honest transcripts pass\n"));
    let names: Vec<&str> = ran.out.lines().map(|line| line.split(' ').next().unwrap()).collect();
    assert_eq!(names, ["beta_sq", "beta_prime_sq", "bound_A", "bound_B", "bound_C", "bound_D"]);
    assert!(ran.out.contains("\nbound_A 4225\n"), "{}", ran.out);
    // the lines make the file whole
    let whole = lacking().replace("seed", &format!("{}seed", ran.out));
    assert_eq!(Statement::parse(&whole).unwrap().bounds()[2], 4225);
    // the bounds of the file are not read
    assert_eq!(run(&desk, "bounds --statement a.statement --stock a.stock --slack 0 --sessions 3").out, ran.out);
    let slack = run(&desk, "bounds --statement b.statement --stock a.stock --slack 10 --sessions 3");
    assert!(slack.out.contains("\nbound_A 4648\n"), "{}", slack.out);
    let json = run(&desk, "bounds --statement b.statement --stock a.stock --sessions 2 --json").out;
    assert!(json.contains("\"bounds\":{\"beta_sq\":\"") && json.ends_with("\"passed\":2,\"sessions\":2}\n"), "{json}");
}

#[test]
fn forty_sessions_and_a_tenth_where_nothing_is_said() {
    let desk = store("bounds_default");
    let plain = run(&desk, "bounds --statement a.statement --stock a.stock");
    assert_eq!(plain.line, "labrador: with these bounds 40 of 40 honest transcripts pass\n");
    assert_eq!(plain.out, run(&desk, "bounds --statement a.statement --stock a.stock --slack 10 --sessions 40").out);
}

/// The totals that are missed are named with their lines, and by how much.
#[test]
fn a_stock_that_misses_a_total_is_1() {
    let desk = store("bounds_missed");
    desk.text("b.stock", &STOCK.replace("25", "26"));
    desk.text("b.statement", &text().replace("total 60", "# the first\ntotal 60"));
    let call = "bounds --statement b.statement --stock b.stock --sessions 2";
    let ran = run(&desk, call);
    assert_eq!((ran.status, ran.out.lines().count()), (1, 6));
    let lines: Vec<&str> = ran.line.lines().collect();
    let missed =
        "labrador: b.statement: line 20: total 0 is missed: left 61, right 60, difference 1, in grams (total 60 = s0)";
    let passed = "labrador: 1 of 2 totals missed; with these bounds 0 of 2 honest transcripts pass; the first of the others: check 22 failed: ";
    assert!(lines.len() == 2 && lines[0] == missed && lines[1].starts_with(passed), "{}", ran.line);
    let json = run(&desk, &format!("{call} --json")).out;
    let object = "\"missed\":[{\"line\":20,\"constraint\":\"total 0\",\"verdict\":\"missed\",\"left\":\"61\",\"right\":\"60\",\"difference\":\"1\"}]";
    assert!(json.contains(object), "{json}");
    desk.text("b.stock", &STOCK.replace("25", "24").replace("35", "34"));
    let ran = run(&desk, call);
    let second = "labrador: b.statement: line 21: total 1 is missed: left -3, right -5, difference 2, in grams (";
    assert!(ran.line.lines().count() == 3 && ran.line.lines().nth(1).unwrap().starts_with(second), "{}", ran.line);
}

/// A total that is met modulo Q only is told, though every transcript passes.
#[test]
fn a_total_that_is_met_modulo_q_only_is_1() {
    let desk = store("bounds_modulo");
    let half = labrador::HALF;
    desk.text("b.stock", &format!("0,0,{half}\n0,1,35\n0,2,{half}\n0,3,26\n1,0,65\n"));
    let ran = run(&desk, "bounds --statement a.statement --stock b.stock --sessions 2");
    assert_eq!(ran.status, 1);
    assert!(
        ran.line.starts_with("labrador: a.statement: line 19: total 0 is met modulo Q only: left "),
        "{}",
        ran.line
    );
    let passed = "labrador: 1 of 2 totals met modulo Q only; with these bounds 2 of 2 honest transcripts pass";
    assert_eq!(ran.line.lines().nth(1), Some(passed));
}

#[test]
fn mistakes_are_told_with_their_file() {
    let desk = store("bounds_mistakes");
    desk.text("b.stock", "0,0\n");
    let ran = run(&desk, "bounds --statement a.statement --stock b.stock");
    assert_eq!(ran.status, 2);
    assert!(ran.line.starts_with("labrador: b.stock: line 1, column 4: "), "{}", ran.line);
    desk.text("b.statement", &lacking().replace("seed", "# seed"));
    let ran = run(&desk, "bounds --statement b.statement --stock a.stock");
    let told =
        "labrador: b.statement: line 13, column 1: total stands there; before the first total stands also seed\n";
    assert_eq!((ran.status, ran.line.as_str(), ran.out.as_str()), (2, told, ""));
    desk.text("b.stock", "0,0\n9,0,1\n");
    let ran = run(&desk, "bounds --statement a.statement --stock b.stock");
    assert_eq!((ran.status, ran.line.lines().count(), ran.out.as_str()), (2, 2, ""));
}

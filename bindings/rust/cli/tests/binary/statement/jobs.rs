//! `labrador statement`: a file's job, and a job's file.

use labrador::statement::Statement;

use super::{made, store, text, SEED};
use crate::common::with_answer;
use crate::desk::Desk;
use crate::run::run;

#[test]
fn the_job_of_a_file() {
    let desk = store("statement_job");
    let ran = run(&desk, "statement a.statement --job job");
    let job = Statement::parse(&text()).unwrap().job();
    let line = format!("labrador: made a job of {} words with 2 totals\n", job.len());
    assert_eq!((ran.status, ran.out.as_str(), ran.line), (0, "", line));
    assert_eq!(desk.words("job"), job);
    let kept = run(&desk, "statement a.statement --job job");
    assert_eq!((kept.status, kept.line.as_str()), (3, "labrador: job is there already; --force overwrites it\n"));
    let json = run(&desk, "statement a.statement --job job --force --json");
    assert!(json.out.contains(&format!("\"job\":{},\"totals\":2}}", job.len())), "{}", json.out);
    assert_eq!(run(&desk, "statement a.statement --job a.statement --force").status, 64);
    assert_eq!(desk.read("a.statement"), text());
}

#[test]
fn a_mistake_makes_nothing() {
    let desk = store("statement_mistake");
    desk.text("b.statement", &text().replace("= s0\n", "= s2\n"));
    let told = "b.statement: line 19, column 12: s2 stands there; the vectors are s0 to s1";
    let ran = run(&desk, "statement b.statement --job job");
    assert_eq!((ran.status, ran.out.as_str(), ran.line), (2, "", format!("labrador: {told}\n")));
    let json = run(&desk, "statement b.statement --job job --json");
    let fields =
        "\"file\":\"b.statement\",\"line\":19,\"column\":12,\"found\":\"s2\",\"expected\":\"the vectors are s0 to s1\"";
    assert!(json.out.contains(fields), "{}", json.out);
    assert_eq!(desk.names(), ["a.statement", "a.stock", "b.statement"]);
}

/// A line each on standard error, and all of them for machines.
#[test]
fn every_mistake_is_told() {
    let desk = store("statement_mistakes");
    desk.text("b.statement", &text().replace("kappa 2", "kappa 0").replace("= s0\n", "= s2\n"));
    let told = [
        "line 4, column 7: 0 stands there; kappa is a number from 1 to 16",
        "line 19, column 12: s2 stands there; the vectors are s0 to s1",
    ];
    let ran = run(&desk, "statement b.statement --job job");
    let lines = told.map(|line| format!("labrador: b.statement: {line}\n")).concat();
    assert_eq!((ran.status, ran.out.as_str(), ran.line), (2, "", lines));
    let json = run(&desk, "statement b.statement --job job --json").out;
    let first = "\"line\":4,\"column\":7,\"found\":\"0\",\"expected\":\"kappa is a number from 1 to 16\"";
    let second = "\"line\":19,\"column\":12,\"found\":\"s2\",\"expected\":\"the vectors are s0 to s1\"";
    let all = format!("\"file\":\"b.statement\",{first},\"mistakes\":[{{{first}}},{{{second}}}]}}");
    assert!(json.contains(&all), "{json}");
    assert_eq!(desk.names(), ["a.statement", "a.stock", "b.statement"]);
}

#[test]
fn the_file_of_a_job() {
    let desk = made("statement_from");
    let whole = run(&desk, &format!("statement --from job --seed {SEED}"));
    let joined = text().replace("s1[0..32] - 2 * s0[1]", "- 2 * s0[1] + s1[0..32]");
    assert_eq!((whole.status, whole.out.as_str(), whole.line.as_str()), (0, joined.as_str(), ""));
    desk.text("back", &whole.out);
    assert_eq!(run(&desk, "statement back --job again").status, 0);
    assert_eq!(desk.words("again"), desk.words("job"));
    let upper = run(&desk, &format!("statement --from again --seed {}", SEED.to_uppercase()));
    assert_eq!(upper.out, whole.out);
    let unknown = run(&desk, "statement --from job");
    assert_eq!(unknown.status, 0);
    let comment = "# the seed is not known: A to D are not made from this file";
    assert_eq!(unknown.out, whole.out.replace(&format!("seed {SEED}"), comment));
    let json = run(&desk, "statement --from job --json");
    assert!(json.out.contains("\"totals\":2,\"statement\":\"statement 1\\u000an 1\\u000a"), "{}", json.out);
}

#[test]
fn a_job_that_is_none_is_1() {
    let desk = made("statement_none");
    let other = SEED.replace("00", "01");
    let ran = run(&desk, &format!("statement --from job --seed {other}"));
    assert_eq!((ran.status, ran.out.as_str()), (1, ""));
    let told = "labrador: job: A to D are not those of the seed: word 680 is another (section A, row 0, column 0, coefficient 0)\n";
    assert_eq!(ran.line, told);
    let mut job = desk.words("job");
    job[32 + 192 + 5] = 7;
    desk.put("job", &job);
    let ran = run(&desk, "statement --from job");
    let told = "constant-term constraint 1 is no total: it has quadratic coefficients (from word 229)";
    assert_eq!((ran.status, ran.out.as_str(), ran.line), (1, "", format!("labrador: job: {told}\n")));
    let json = run(&desk, "statement --from job --json");
    let fields = "\"no_totals\":[{\"kind\":\"constant-term constraint\",\"index\":1,\"from_word\":229}]";
    assert!(json.out.contains(fields), "{}", json.out);
}

#[test]
fn a_test_load_is_no_statement() {
    let desk = Desk::with("statement_load", &with_answer(0));
    let ran = run(&desk, "statement --from job");
    assert_eq!(ran.status, 1);
    for told in [
        "constant-term constraint 0 is no total: ",
        "; constant-term constraint 1 is",
        "; ring constraint 1 is no total (",
    ] {
        assert!(ran.line.contains(told), "{}", ran.line);
    }
    let mut job = desk.words("job");
    job[1] = 65;
    desk.put("job", &job);
    let ran = run(&desk, "statement --from job");
    assert_eq!(
        (ran.status, ran.line.as_str()),
        (2, "labrador: job: refusal 4: the job's word 1 is 65: n is from 1 to 64\n")
    );
}

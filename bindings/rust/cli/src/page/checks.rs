//! The verifier's tests in their order, with a mark each, as far as it came.

use labrador::meaning::{Check, CHECKS};

use super::html::{escape, section, table, Row};
use super::Report;

/// A test's mark: its class and its text.
fn mark(report: &Report, k: usize) -> (&'static str, &'static str) {
    let number = report.verdict.number();
    let stopped = CHECKS.iter().position(|check| check.number == number);
    match stopped {
        _ if report.before_work() => ("open", "– not reached"),
        Some(at) if k > at => ("open", "– not reached"),
        Some(at) if k == at => ("failed", "✗ failed"),
        _ => ("passed", "✓ passed"),
    }
}

fn row(report: &Report, k: usize, check: &Check) -> Row {
    let (class, text) = mark(report, k);
    let condition = if check.condition { " <strong>(condition)</strong>" } else { "" };
    let never = class == "passed" && report.job.is_some_and(|job| job.never_fail().contains(&check.number));
    let never = if never { " (can never fail)" } else { "" };
    Row {
        class,
        cells: vec![
            check.number.to_string(),
            format!("{}{condition}", escape(check.holds)),
            format!("<span class=\"mark\">{text}</span>{never}"),
        ],
    }
}

/// The table of the tests.
fn tests(report: &Report) -> String {
    let slices = match report.before_work() {
        true => ("failed", "✗ refused"),
        false => ("passed", "✓ passed"),
    };
    let first = Row {
        class: slices.0,
        cells: vec![
            "3–10".to_string(),
            "the job, the randomness and the transcript have their layout and their words are in range".to_string(),
            format!("<span class=\"mark\">{}</span>", slices.1),
        ],
    };
    let rows = CHECKS.iter().enumerate().map(|(k, check)| row(report, k, check));
    let rows: Vec<Row> = std::iter::once(first).chain(rows).collect();
    let caption =
        "In the verifier's order. Of a transcript that the prover made of this job and this randomness only the four \
                   conditions can fail.";
    table("checks", caption, &["no.", "what holds", "mark"], &rows)
}

pub fn list(report: &Report) -> String {
    section("checks", "Checks", &tests(report))
}

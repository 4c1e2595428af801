//! The verdict on top of the page, and what the page rests on at its end.

use labrador::section_one::SectionOne;
use labrador::{Verdict, Q};

use super::html::escape;
use super::Report;
use crate::worth::{chance_sentence, drawn_sentence};

/// The verdict in a line; an acceptance has what it is worth beside it.
pub fn title(report: &Report) -> String {
    match (report.verdict, report.job) {
        (Verdict::Accepted { .. }, Some(job)) => {
            let other = if report.is_other() { "; the job is not that of the statement file" } else { "" };
            format!("Accepted; {}{other}", job.short(&job.worth_with(report.warnings)))
        }
        (Verdict::Accepted { .. }, None) => unreachable!("an acceptance is under a fit job"),
        (Verdict::Failed(check), _) => format!("Not accepted: check {} failed", check.number()),
        (Verdict::Refused(refusal), _) => format!("Refused: refusal {}", refusal.number()),
    }
}

/// What the verdict says, and what follows from it.
fn sentences(report: &Report) -> Vec<String> {
    match report.verdict {
        Verdict::Accepted { .. } => {
            let passes = "The transcript passes every check of the verifier, for this job and this randomness.";
            vec![format!("{passes} {}", cells(report)), worth(report)]
        }
        Verdict::Failed(check) => vec![check.to_string(), check.meaning().follows.to_string()],
        Verdict::Refused(refusal) => {
            let meaning = refusal.meaning();
            let cause = format!("It is caused by {}. {}", meaning.cause, meaning.follows);
            vec![refusal.to_string(), cause]
        }
    }
}

/// What the acceptance is worth.
fn worth(report: &Report) -> String {
    let of_job = report.job.map(|job| job.worth_with(report.warnings));
    of_job.map_or_else(String::new, |worth| format!("{}; {}", chance_sentence(&worth), drawn_sentence(&worth)))
}

/// How many cells of t, g and h have something left.
fn cells(report: &Report) -> String {
    let Verdict::Accepted { cells_left } = report.verdict else {
        return String::new();
    };
    let all = SectionOne::read(report.slices[0]).map_or(0, |one| {
        let p = one.parameters;
        u64::from(p.r) * u64::from(p.kappa) + 2 * p.triangle()
    });
    let told = format!("Cells of t, g and h with something left after their digits: {cells_left} of {all}");
    match cells_left {
        0 => told,
        _ => format!("{told}. The commitments and the norms do not see what is left"),
    }
}

pub fn header(report: &Report) -> String {
    let certain = report.job.is_some_and(|job| job.worth_with(report.warnings).certain);
    let (class, mark) = match report.verdict {
        Verdict::Accepted { .. } if certain || report.is_other() => ("refused", "!"),
        Verdict::Accepted { .. } => ("accepted", "✓"),
        Verdict::Failed(_) => ("failed", "✗"),
        Verdict::Refused(_) => ("refused", "✗"),
    };
    let heading = escape(&title(report));
    let warnings = report.warnings.iter().map(|warning| format!("warning: {warning}"));
    let told = warnings.chain(sentences(report));
    let told: String = told.map(|s| format!("<p>{}</p>\n", escape(&sentence(&s)))).collect();
    format!(
        "<header class=\"{class}\">\n<h1><span aria-hidden=\"true\">{mark}</span> {heading}</h1>\n{told}</header>\n"
    )
}

/// With an upper-case first letter and a full stop.
pub fn sentence(text: &str) -> String {
    let mut letters = text.chars();
    let first: String = letters.next().map(|c| c.to_uppercase().to_string()).unwrap_or_default();
    let stop = if text.ends_with('.') { "" } else { "." };
    format!("{first}{}{stop}", letters.as_str())
}

pub fn footer() -> String {
    format!(
        "<footer>\n<p>The verdict is the answer of the proved call labrador_verify, and the norms are taken of the transcript's words \
     by the proved calls labrador_rq_norm, labrador_rq_digits and labrador_rq_left. The layout of this page, its sentences, the hashes and the \
     review of the job are made by a program that is not proved. The randomness is taken as it was handed in: a verdict forces nothing \
     where the sender could choose it. Rows, vectors, cells, elements, coefficients and words count from 0. \
     Q is {Q}.</p>\n</footer>\n"
    )
}

//! What the job does not force, the worst first.

use labrador::review::Finding;

use super::html::{escape, section};
use super::Report;
use crate::worth::{listed, Told};

/// So many items are shown, so that the page stays one; how many findings are left out is said.
const SHOWN: usize = 7;

/// The findings in items: the tests that can never fail are one item where they are several. Each with how many it tells.
fn items(job: &Told) -> Vec<(usize, String)> {
    let never = job.never_fail();
    let joined = format!("tests {} can never fail: these limits limit nothing", listed(&never));
    let each = |finding: &Finding| match finding.never_fails() {
        Some(number) if never.len() > 1 => {
            (Some(number) == never.first().copied()).then(|| (never.len(), joined.clone()))
        }
        _ => Some((1, finding.to_string())),
    };
    job.findings.iter().filter_map(each).collect()
}

pub fn list(report: &Report) -> String {
    match report.job {
        Some(job) => of(job),
        None => section("findings", "What the job does not force", "<p>Not reviewed: the job was refused.</p>\n"),
    }
}

/// The findings of a job.
pub fn of(job: &Told) -> String {
    let all = items(job);
    let shown: String = all.iter().take(SHOWN).map(|(_, told)| format!("<li>{}</li>\n", escape(told))).collect();
    let more = match all.iter().skip(SHOWN).map(|(count, _)| count).sum::<usize>() {
        0 => String::new(),
        more => format!("<li>and {more} more: labrador review lists them all</li>\n"),
    };
    let told = format!("<p>{} found, the worst first: what an acceptance leaves open.</p>\n", job.findings.len());
    section("findings", "What the job does not force", &format!("{told}<ul>\n{shown}{more}</ul>\n"))
}

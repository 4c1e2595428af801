//! After a failed check 22, which constant was mistyped.

use labrador::{FailedCheck, Verdict};

use super::html::{escape, section, table, Row};
use super::Report;
use crate::mends::{both, mends, Mend, WARNING};

fn row(mend: &Mend) -> Row {
    let [before, added, after] = [mend.before, mend.added, mend.after].map(both);
    Row { class: "", cells: vec![format!("b0[{}]", mend.index), before, added, after] }
}

fn entries(found: &[Mend]) -> String {
    let caption = "Check 22 would pass if one of these numbers were added to its entry of b0, and nothing else were changed. The smallest size comes \
                   first; of equal sizes a lowered constant. By the proved call labrador_mistyped.";
    let rows: Vec<Row> = found.iter().map(row).collect();
    table("num", caption, &["entry", "is", "add", "would become"], &rows)
}

pub fn list(report: &Report) -> String {
    let Verdict::Failed(FailedCheck::ConstantTerm { .. }) = report.verdict else {
        return String::new();
    };
    let [job, randomness, transcript] = report.slices;
    let body = match mends(job, randomness, transcript) {
        Ok(found) => format!("{}<p><strong>Warning:</strong> {}.</p>\n", entries(&found), escape(WARNING)),
        Err(refusal) => format!("<p>{}. {}</p>\n", escape(&refusal.to_string()), escape(refusal.meaning().follows)),
    };
    section("mistyped", "Which constant was mistyped", &body)
}

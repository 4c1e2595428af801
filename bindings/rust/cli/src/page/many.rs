//! The verdicts on many transcripts of one job as a page: what they are worth together, then each with its files.

use std::path::Path;

use labrador::{Slice, Verdict, Q};

use super::html::{document, escape, part, section, table, Row};
use super::verdict::sentence;
use super::{findings, record, stated, tables};
use crate::commands::many::{Judged, Together};
use crate::filed::Filed;
use crate::stated::Compared;
use crate::worth::{chance_sentence, drawn_sentence, Told};

/// What the page tells of.
pub struct Report<'a> {
    /// The job's file and its words.
    pub job: &'a Path,
    pub words: &'a [u32],
    pub told: &'a Told,
    pub judged: &'a [Judged],
    pub together: &'a Together,
    /// How the job stands to a statement file, where one was handed in.
    pub compared: Option<&'a Compared>,
    pub filed: &'a Filed,
}

impl Report<'_> {
    fn is_other(&self) -> bool {
        self.compared.is_some_and(|compared| !compared.same)
    }

    /// The verdicts in a line.
    fn title(&self) -> String {
        let other = if self.is_other() { "; the job is not that of the statement file" } else { "" };
        format!("{}; {}{other}", self.together.short(self.judged.len()), self.told.things())
    }

    /// The page's colour and mark: green only where all are accepted and worth something.
    fn mark(&self) -> (&'static str, &'static str) {
        let is = |found: fn(&Verdict) -> bool| self.judged.iter().any(|one| found(&one.verdict));
        if is(|verdict| matches!(verdict, Verdict::Refused(_))) {
            return ("refused", "✗");
        }
        if is(|verdict| matches!(verdict, Verdict::Failed(_))) {
            return ("failed", "✗");
        }
        match self.told.worth.certain || self.together.counted == 0 || self.is_other() {
            true => ("refused", "!"),
            false => ("accepted", "✓"),
        }
    }
}

fn header(report: &Report) -> String {
    let (class, mark) = report.mark();
    let warnings = report.together.warnings.iter().map(|warning| format!("warning: {warning}"));
    let worth = format!("{}; {}", chance_sentence(&report.told.worth), drawn_sentence(&report.told.worth));
    let told = warnings.chain(report.together.rests_on()).chain([worth]);
    let told: String = told.map(|text| format!("<p>{}</p>\n", escape(&sentence(&text)))).collect();
    let heading = escape(&report.title());
    format!(
        "<header class=\"{class}\">\n<h1><span aria-hidden=\"true\">{mark}</span> {heading}</h1>\n{told}</header>\n"
    )
}

fn row((number, one): (usize, &Judged)) -> Row {
    let (class, mark) = match one.verdict {
        Verdict::Accepted { .. } => ("passed", "✓"),
        Verdict::Failed(_) | Verdict::Refused(_) => ("failed", "✗"),
    };
    let [randomness, transcript] = [0, 1].map(|k| escape(&one.names[k]));
    let verdict = format!("<span class=\"mark\">{mark}</span> {}", escape(&one.says));
    Row { class, cells: vec![number.to_string(), format!("{transcript}, {randomness}"), verdict] }
}

fn verdicts(report: &Report) -> String {
    let rows: Vec<Row> = (1..).zip(report.judged).map(row).collect();
    let caption = "Each transcript with its randomness, in the order in which they were handed in";
    section("verdicts", "Verdicts", &table("num long", caption, &["no.", "files", "verdict"], &rows))
}

/// What the job states, and how it stands to the statement file.
fn states(report: &Report) -> String {
    let compared = report.compared.map(|compared| format!("<p>{}.</p>\n", escape(&compared.told.join("; "))));
    let body = format!("{}{}", stated::table_of(report.words), compared.unwrap_or_default());
    section("states", "What the job states", &body)
}

/// Under what the page is filed, with the hash of each file.
fn files(report: &Report) -> String {
    let job = record::file(Slice::Job, report.job, report.words);
    let others = report.judged.iter().flat_map(|one| one.records.clone());
    record::list(report.filed, &[job].into_iter().chain(others).collect::<Vec<_>>())
}

fn footer() -> String {
    format!(
        "<footer>\n<p>Each verdict is the answer of the proved call labrador_verify_many, or of labrador_verify where a file has another length than the \
         job fixes. What transcripts share, the layout of this page, its sentences, the hashes and the review of the job are made by a program that \
         is not proved. The randomness is taken as it was handed in: verdicts force nothing where the sender could choose it, knew it before \
         its message, or was let try again. Rows, vectors, cells, elements, coefficients and words count from 0. Q is {Q}.</p>\n</footer>\n"
    )
}

pub fn page(report: &Report) -> String {
    let parts = [
        [header(report), verdicts(report), states(report)].concat(),
        [files(report), record::signature()].concat(),
        [findings::of(report.told), tables::parameters_of(report.words), footer()].concat(),
    ];
    document(&report.title(), &parts.map(|body| part(&body)).concat())
}

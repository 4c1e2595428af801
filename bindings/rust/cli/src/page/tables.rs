//! The parameters, and the sections with their places.

use labrador::section_one::{SectionOne, BOUNDS, PARAMETERS};
use labrador::{expected, Slice};

use super::html::{escape, section, table, Row};
use super::{Report, SLICES};

fn item(name: &str, value: &str, meaning: &str) -> String {
    let meaning = escape(meaning);
    format!("<div><dt>{}</dt> <dd>{value} <small>{meaning}</small></dd></div>\n", escape(name))
}

pub fn parameters(report: &Report) -> String {
    parameters_of(report.slices[0])
}

/// The parameters of a job, as far as its first section is read.
pub fn parameters_of(job: &[u32]) -> String {
    let Some(one) = SectionOne::read(job) else {
        return section("parameters", "Parameters", "<p>Not read: the job's first section is refused.</p>\n");
    };
    let words = PARAMETERS.iter().zip(one.parameters.words());
    let words: String = words.map(|(p, word)| item(p.name, &word.to_string(), p.meaning)).collect();
    let bounds: String = BOUNDS.iter().zip(one.bounds).map(|(b, v)| item(b.name, &v.to_string(), b.meaning)).collect();
    section(
        "parameters",
        "Parameters",
        &format!("<dl class=\"four\">\n{words}</dl>\n<dl class=\"three\">\n{bounds}</dl>\n"),
    )
}

fn sections_of(report: &Report, slice: Slice) -> String {
    let rows = expected(slice, report.slices[0], usize::MAX).into_iter().map(|s| Row {
        class: "",
        cells: vec![escape(s.section.name), s.begin().to_string(), s.section.count().to_string()],
    });
    let caption = format!("Sections of the {}", slice.name());
    table("num", &caption, &["name", "from word", "words"], &rows.collect::<Vec<_>>())
}

pub fn sections(report: &Report) -> String {
    if report.section_one().is_none() {
        return section("sections", "Sections", "<p>Not known: the job's first section is refused.</p>\n");
    }
    let three: String = SLICES.iter().map(|slice| sections_of(report, *slice)).collect();
    section("sections", "Sections", &format!("<div class=\"three\">\n{three}</div>\n"))
}

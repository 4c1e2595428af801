//! Of a refusal, its place with the words around it.

use labrador::{expected, Place, Verdict};

use super::html::{escape, section, table, Row};
use super::Report;

/// So many words are shown before and after.
const AROUND: u64 = 4;

fn row(place: &Place, report: &Report, index: u64) -> Row {
    let words = report.words(place.slice);
    let sections = expected(place.slice, report.slices[0], usize::MAX);
    let at = Place::of(place.slice, words, index, &sections);
    let here = index == place.index;
    let word = at.found.map_or("(the file ends)".to_string(), |word| word.to_string());
    let mark = if here { " ← here" } else { "" };
    Row {
        class: if here { "here" } else { "" },
        cells: vec![index.to_string(), format!("{word}{mark}"), escape(&at.spot.to_string())],
    }
}

pub fn around(report: &Report) -> String {
    let Verdict::Refused(refusal) = report.verdict else {
        return String::new();
    };
    let Some(place) = refusal.word() else {
        return String::new();
    };
    let length = report.words(place.slice).len() as u64;
    let first = place.index.saturating_sub(AROUND);
    let last = (place.index + AROUND).min(length.saturating_sub(1)).max(place.index);
    let rows: Vec<Row> = (first..=last).map(|index| row(place, report, index)).collect();
    let caption = format!("The {}'s words {first} to {last}", place.slice.name());
    let body = table("num", &caption, &["word", "found", "what it is"], &rows);
    section("place", "The place of the refusal", &body)
}

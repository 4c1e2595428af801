//! A file for machines.

use labrador::section_one::{SectionOne, BOUNDS, PARAMETERS};
use labrador::sections::Placed;
use labrador::{expected, Slice};

use super::Read;
use crate::constraints::{constraints, json, total};
use crate::json::Json;

fn sections_json(sections: &[Placed]) -> Json {
    let section = |s: &Placed| {
        Json::Object(vec![
            ("name", Json::text(s.section.name)),
            ("from_word", Json::Number(s.begin())),
            ("words", Json::Number(s.section.count())),
            ("meaning", Json::text(s.section.meaning)),
        ])
    };
    Json::List(sections.iter().map(section).collect())
}

/// The parameters as numbers, the bounds as text.
fn parameters_json(one: &SectionOne) -> Json {
    let words = PARAMETERS.iter().zip(one.parameters.words()).map(|(p, word)| (p.name, Json::Number(word.into())));
    let bounds = BOUNDS.iter().zip(one.bounds).map(|(bound, value)| (bound.name, Json::text(value)));
    Json::Object(words.chain(bounds).collect())
}

pub fn json_of(file: &Read, job: Option<&[u32]>, wrong: Option<&str>) -> Json {
    let text = |text: Option<&str>| text.map_or(Json::Null, Json::text);
    let words = &file.words.words[..];
    let one = SectionOne::read(words).filter(|_| file.kind == Some(Slice::Job));
    let job = if one.is_some() { words } else { job.unwrap_or_default() };
    let sections = file.kind.map(|kind| expected(kind, job, usize::MAX)).unwrap_or_default();
    let stated = if one.is_some() { constraints(words) } else { Vec::new() };
    Json::Object(vec![
        ("file", Json::text(file.path.display())),
        ("kind", text(file.kind.map(Slice::name))),
        ("words", Json::Number(file.words.length)),
        ("sha256", text(file.sha256.as_deref())),
        ("wrong", text(wrong)),
        ("parameters", one.as_ref().map_or(Json::Null, parameters_json)),
        ("sections", sections_json(&sections)),
        ("states", Json::List(stated.iter().map(|stated| Json::text(total(stated))).collect())),
        ("constraints", Json::List(stated.iter().map(json).collect())),
    ])
}

//! A file in words.

use labrador::section_one::{SectionOne, BOUNDS, PARAMETERS};
use labrador::sections::Placed;
use labrador::statement::Stated;
use labrador::{expected, Slice};

use super::Read;
use crate::constraints;
use crate::judge;
use crate::shown;

/// The parameters and bounds by name.
fn parameters(one: &SectionOne) -> String {
    let mut out = "parameters\n".to_string();
    for (p, word) in PARAMETERS.iter().zip(one.parameters.words()) {
        let name = p.name;
        out += &format!("  {name:<14} {word:<30} {} ({} to {})\n", p.meaning, p.least, p.greatest);
    }
    for (bound, value) in BOUNDS.iter().zip(one.bounds) {
        let value = value.to_string();
        out += &format!("  {:<14} {value:<30} {}\n", bound.name, bound.meaning);
    }
    out
}

/// The sections of a slice, as far as it goes.
fn sections(words: &[u32], sections: &[Placed]) -> String {
    let mut out = "sections\n".to_string();
    let mut broken = false;
    for s in sections {
        let (name, count) = (s.section.name, s.section.count());
        let found = judge::count_at(words, s);
        let mark = match found {
            _ if broken => " (not reached)".to_string(),
            None => " (missing)".to_string(),
            Some(found) if found != count => format!(" (the count there is {found})"),
            Some(_) if s.end() > words.len() as u64 => " (cut short)".to_string(),
            Some(_) => String::new(),
        };
        broken = broken || !mark.is_empty();
        out += &format!("  {name:<11} from word {:<9} {count:>9} words  {}{mark}\n", s.begin(), s.section.meaning);
    }
    out
}

/// So many sections of a file of which nothing is known are shown.
const SHOWN: usize = 64;

/// The sections of a file of which nothing is known, by their counts alone; of many the first ones and the number of all.
fn plain_sections(words: &[u32]) -> String {
    let mut out = "sections\n".to_string();
    let (mut at, mut number) = (0, 0);
    while let Some(&count) = words.get(at) {
        number += 1;
        let end = (at as u64) + 1 + u64::from(count);
        let short = end > words.len() as u64;
        if number <= SHOWN || short {
            out += &format!("  section {number:<3} from word {:<9} {count:>9} words", at + 1);
            out += if short { " (passes the end)\n" } else { "\n" };
        }
        at = end as usize;
    }
    if number > SHOWN {
        out += &format!("  there are {number} sections, of which the first {SHOWN} are shown\n");
    }
    out
}

/// What a job states: each constraint, and then its right side and the vectors that it touches.
fn stated(job: &[u32]) -> String {
    let told = |stated: &Stated| {
        let (total, name) = (constraints::total(stated), constraints::name(stated));
        let (right, touched) = (constraints::right(stated), constraints::touched(stated));
        format!("  {total}\n    {name}: {right}; it touches {touched}\n")
    };
    format!("states\n{}", constraints::constraints(job).iter().map(told).collect::<String>())
}

/// What is wrong with a file.
pub fn wrong(file: &Read, job: Option<&[u32]>) -> Option<String> {
    let words = &file.words.words[..];
    let Some(kind) = file.kind else {
        return words.is_empty().then(|| "the file is empty".to_string());
    };
    let job = if kind == Slice::Job { words } else { job.unwrap_or_default() };
    let refusal = judge::refusal(Slice::Job, job, job).or_else(|| judge::refusal(kind, job, words));
    refusal.map(|refusal| refusal.to_string())
}

/// A file in words, with what is wrong with it.
pub fn describe(file: &Read, job: Option<&[u32]>, wrong: Option<&str>) -> String {
    let (words, shown) = (&file.words.words[..], shown::name(&file.path));
    let length = file.words.length;
    let told = wrong.map(|wrong| format!("wrong: {wrong}\n")).unwrap_or_default();
    let hash = match &file.sha256 {
        Some(hash) => format!("SHA-256 {hash}\n"),
        None => "SHA-256 not taken: the file is longer than any slice\n".to_string(),
    };
    let Some(kind) = file.kind else {
        let unknown = format!("{shown}: {length} words, of no kind that is known without its job\n");
        return unknown + &told + &hash + &plain_sections(words);
    };
    let job = if kind == Slice::Job { words } else { job.unwrap_or_default() };
    let mut out = format!("{shown}: {}, {length} words\n{told}{hash}", kind.name());
    let one = SectionOne::read(words).filter(|_| kind == Slice::Job);
    out += &one.as_ref().map(parameters).unwrap_or_default();
    out += &sections(words, &expected(kind, job, usize::MAX));
    if kind == Slice::Job && wrong.is_none() {
        out += &stated(words);
    }
    out
}

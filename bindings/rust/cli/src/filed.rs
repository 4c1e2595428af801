//! What a page or a description is filed by: a reference and a date where they are given, hashes, and what it was made by.

use labrador::{hex, sha256_of_words, ARCHIVE_SHA256};

use crate::args::Args;
use crate::end::{usage, End};
use crate::json::Json;

/// The version of the command line.
const VERSION: &str = env!("CARGO_PKG_VERSION");

/// The reference and the date that were given.
pub struct Filed {
    reference: Option<String>,
    date: Option<String>,
}

/// A line of text.
fn reference(text: &str) -> Result<String, End> {
    match text.is_empty() || text.chars().any(char::is_control) {
        true => Err(usage("--reference is a line of text")),
        false => Ok(text.to_string()),
    }
}

/// The days of a month.
fn days(year: u32, month: u32) -> u32 {
    let is_leap = year.is_multiple_of(4) && (!year.is_multiple_of(100) || year.is_multiple_of(400));
    match month {
        2 if is_leap => 29,
        2 => 28,
        4 | 6 | 9 | 11 => 30,
        _ => 31,
    }
}

/// Whether a text is a day as `YYYY-MM-DD`.
fn is_date(text: &str) -> bool {
    let digits = |part: &str, length| part.len() == length && part.bytes().all(|byte| byte.is_ascii_digit());
    let parts: Vec<&str> = text.split('-').collect();
    let [year, month, day] = parts[..] else {
        return false;
    };
    if !(digits(year, 4) && digits(month, 2) && digits(day, 2)) {
        return false;
    }
    let [year, month, day] = [year, month, day].map(|part| part.parse::<u32>().unwrap_or(0));
    year > 0 && (1..=12).contains(&month) && (1..=days(year, month)).contains(&day)
}

fn date(text: &str) -> Result<String, End> {
    match is_date(text) {
        true => Ok(text.to_string()),
        false => Err(usage(format!("--date is a day as YYYY-MM-DD, not {}", text.escape_debug()))),
    }
}

/// The text that an option gives.
fn text<'a>(args: &'a Args, name: &str) -> Result<Option<&'a str>, End> {
    let given = args.value(name).map(|value| value.to_str().ok_or(usage(format!("{name} is text in UTF-8"))));
    given.transpose()
}

impl Filed {
    /// What `--reference` and `--date` give.
    pub fn of(args: &Args) -> Result<Filed, End> {
        Ok(Filed {
            reference: text(args, "--reference")?.map(reference).transpose()?,
            date: text(args, "--date")?.map(date).transpose()?,
        })
    }

    /// What was given, each by its name.
    pub fn given(&self) -> impl Iterator<Item = (&'static str, &str)> {
        let both = [("reference", &self.reference), ("date", &self.date)];
        both.into_iter().filter_map(|(name, text)| text.as_deref().map(|text| (name, text)))
    }

    /// For machines; what was not given is null.
    pub fn fields(&self) -> Vec<(&'static str, Json)> {
        let given = |text: &Option<String>| text.as_ref().map_or(Json::Null, Json::text);
        vec![
            ("reference", given(&self.reference)),
            ("date", given(&self.date)),
            ("version", Json::text(VERSION)),
            ("archive_sha256", Json::text(ARCHIVE_SHA256)),
        ]
    }
}

/// `labrador 0.1.0`
pub fn version() -> String {
    format!("labrador {VERSION}")
}

/// SHA-256 in hex of the file of these words; none where the reading ended at so many words, since the file may go on.
pub fn sha256_of(words: &[u32], most: u64) -> Option<String> {
    ((words.len() as u64) < most).then(|| hex(&sha256_of_words(words)))
}

#[cfg(test)]
mod tests {
    use super::is_date;

    #[test]
    fn days_of_the_calendar() {
        for date in ["2026-11-17", "2024-02-29", "2000-02-29", "0001-01-01", "9999-12-31", "2026-04-30"] {
            assert!(is_date(date), "{date}");
        }
        let others =
            ["", "2026-11-31", "2026-02-29", "1900-02-29", "2026-00-10", "2026-13-01", "2026-01-00", "0000-01-01"];
        let forms = [
            "2026-1-01",
            "26-01-01",
            "2026-01-01 ",
            "+026-01-01",
            "2026/01/01",
            "2026-01",
            "2026-01-01-01",
            "٢٠٢٦-01-01",
        ];
        for text in others.into_iter().chain(forms) {
            assert!(!is_date(text), "{text}");
        }
    }
}

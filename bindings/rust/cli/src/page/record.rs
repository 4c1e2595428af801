//! What the page is filed by: what was given, the files with their hashes, by what they were judged, and a line to sign on.

use std::path::Path;

use labrador::{Slice, ARCHIVE_SHA256};

use super::html::{escape, section};
use crate::filed::{sha256_of, version, Filed};
use crate::shown;

/// An item with a hash below it, or why there is none.
fn item(name: &str, text: &str, hash: &str) -> String {
    let (name, text) = (escape(name), escape(text));
    format!("<div><dt>{name}</dt> <dd>{text}{hash}</dd></div>\n")
}

fn hashed(hash: &str) -> String {
    format!(" <small>SHA-256 <code>{hash}</code></small>")
}

/// A file that was judged, of which at most one word more was read than the longest fit slice has.
pub fn file(slice: Slice, name: &Path, words: &[u32]) -> String {
    let longest = slice.greatest_length();
    let (length, hash) = match sha256_of(words, longest + 1) {
        Some(hash) => (words.len().to_string(), hashed(&hash)),
        None => (format!("more than {longest}"), " <small>SHA-256 not taken: the file is too long</small>".to_string()),
    };
    item(slice.name(), &format!("{}, {length} words", shown::name(name)), &hash)
}

/// Under what the page is filed, the files that were judged, and by what.
pub fn list(filed: &Filed, files: &[String]) -> String {
    let given: String = filed.given().map(|(name, text)| item(name, text, "")).collect();
    let files = files.concat();
    let by = item("judged by", &format!("{} over the archive of proved calls", version()), &hashed(ARCHIVE_SHA256));
    section("record", "Record", &format!("<dl>\n{given}{files}{by}</dl>\n"))
}

/// A line for a signature.
pub fn signature() -> String {
    let lines = ["Name", "Date", "Signature"].map(|what| format!("<div>{what}</div>\n")).concat();
    section("signature", "Signature", &format!("<div class=\"sign\">\n{lines}</div>\n"))
}

//! Names and texts of others as they are shown: nothing in them steers a terminal.

use std::path::Path;

/// Whether a character steers: a control character, or one that alters the direction of text or ends a line.
pub fn steers(c: char) -> bool {
    let turns = matches!(c, '\u{200e}' | '\u{200f}' | '\u{2028}'..='\u{202e}' | '\u{2066}'..='\u{2069}');
    c.is_control() || turns
}

fn without(text: &str, kept: char) -> String {
    let mut out = String::with_capacity(text.len());
    for c in text.chars() {
        match steers(c) && c != kept {
            true => out.extend(c.escape_default()),
            false => out.push(c),
        }
    }
    out
}

/// A text in one line, its steering characters as `\u{1b}`, `\n` and so on.
pub fn line(text: &str) -> String {
    without(text, ' ')
}

/// Lines of text, so escaped.
pub fn lines(text: &str) -> String {
    without(text, '\n')
}

/// A file's name, so escaped.
pub fn name(path: &Path) -> String {
    line(&path.to_string_lossy())
}

#[cfg(test)]
mod tests {
    use super::{line, lines};

    #[test]
    fn what_steers_is_escaped() {
        assert_eq!(line("b''\\ é\u{1b}[2J\r\n\u{9b}\u{202e}"), "b''\\ é\\u{1b}[2J\\r\\n\\u{9b}\\u{202e}");
        assert_eq!(lines("a\nb\u{7}\n"), "a\nb\\u{7}\n");
    }
}

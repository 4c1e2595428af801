//! A text read line by line and word by word, with each place in lines and columns.

use super::mistake::{Fault, Found, Mistake};

/// A line, and a place in it. `#` starts a comment, which is no part of what is read.
#[derive(Clone)]
pub(super) struct Cursor<'a> {
    pub line: usize,
    text: &'a str,
    /// Where the comment or the line's end stands.
    end: usize,
    at: usize,
    /// The characters that are words of their own.
    symbols: &'static [char],
}

/// A word and where it begins.
#[derive(Clone, Copy)]
pub(super) struct Word<'a> {
    pub text: &'a str,
    pub at: usize,
}

/// The text of a file.
pub fn text_of(bytes: &[u8]) -> Result<&str, Mistake> {
    std::str::from_utf8(bytes).map_err(|error| {
        let before = std::str::from_utf8(&bytes[..error.valid_up_to()]).expect("it is valid so far");
        let place = end_of(before);
        Mistake { found: Found::Byte(bytes[error.valid_up_to()]), fault: Fault::Utf8, ..place }
    })
}

/// The end of a text, as the place of a mistake.
fn end_of(text: &str) -> Mistake {
    let last = text.rsplit('\n').next().unwrap_or_default();
    let (line, column) = (text.matches('\n').count() + 1, last.chars().count() + 1);
    Mistake { line, column, found: Found::FileEnd, fault: Fault::NoTotal }
}

/// A mistake at the file's end.
pub(super) fn at_end(text: &str, fault: Fault) -> Mistake {
    Mistake { fault, ..end_of(text) }
}

/// The lines that say something, each at its first word.
pub(super) fn lines<'a>(text: &'a str, symbols: &'static [char]) -> impl Iterator<Item = Cursor<'a>> {
    let line = move |(k, line): (usize, &'a str)| {
        // a carriage return is passed over before a line feed alone
        let text = line.strip_suffix("\r\n").or(line.strip_suffix('\n')).unwrap_or(line);
        let end = text.find('#').unwrap_or(text.len());
        let mut cursor = Cursor { line: k + 1, text, end, at: 0, symbols };
        cursor.skip_blanks();
        cursor
    };
    text.split_inclusive('\n').enumerate().map(line).filter(|cursor| !cursor.is_done())
}

fn is_blank(c: char) -> bool {
    c == ' ' || c == '\t'
}

impl<'a> Cursor<'a> {
    fn rest(&self) -> &'a str {
        &self.text[self.at..self.end]
    }

    fn skip_blanks(&mut self) {
        let rest = self.rest();
        self.at += rest.len() - rest.trim_start_matches(is_blank).len();
    }

    /// Whether nothing but blanks is left.
    pub fn is_done(&self) -> bool {
        self.rest().trim_start_matches(is_blank).is_empty()
    }

    /// Whether this symbol comes next, which is passed then.
    pub fn takes(&mut self, symbol: char) -> bool {
        self.skip_blanks();
        let takes = self.rest().starts_with(symbol);
        self.at += if takes { symbol.len_utf8() } else { 0 };
        takes
    }

    /// The length of the word at the start of a text.
    fn word_length(&self, text: &str) -> usize {
        text.find(|c| is_blank(c) || self.symbols.contains(&c)).unwrap_or(text.len())
    }

    /// The next word, if no symbol and no end comes first.
    pub fn word(&mut self) -> Option<Word<'a>> {
        self.skip_blanks();
        let length = self.word_length(self.rest());
        let word = Word { text: &self.rest()[..length], at: self.at };
        self.at += length;
        (length > 0).then_some(word)
    }

    /// Whether this symbol stands in what is left of the line.
    pub fn has(&self, symbol: char) -> bool {
        self.rest().contains(symbol)
    }

    /// All that is left of the line.
    pub fn all(&self) -> Word<'a> {
        let rest = self.rest();
        let text = rest.trim_matches(is_blank);
        Word { text, at: self.at + rest.len() - rest.trim_start_matches(is_blank).len() }
    }

    /// Nothing more in the line.
    pub fn done(&self) -> Result<(), Mistake> {
        if self.is_done() {
            return Ok(());
        }
        Err(self.mistake(Fault::Behind))
    }

    /// A mistake at what comes next: a word, or a symbol with the word right behind it.
    pub fn mistake(&self, fault: Fault) -> Mistake {
        let mut here = self.clone();
        here.skip_blanks();
        let rest = here.rest();
        let symbol = rest.chars().next().filter(|c| self.symbols.contains(c)).map_or(0, char::len_utf8);
        let shown = &rest[..symbol + self.word_length(&rest[symbol..])];
        here.mistake_at(Word { text: shown, at: here.at }, fault)
    }

    /// A mistake at a part of the line.
    pub fn mistake_at(&self, word: Word<'_>, fault: Fault) -> Mistake {
        let found = match word.text {
            "" if self.end < self.text.len() => Found::Comment,
            "" => Found::LineEnd,
            text => Found::Text(text.to_string()),
        };
        let column = self.text[..word.at].chars().count() + 1;
        Mistake { line: self.line, column, found, fault }
    }
}

/// A decimal number without sign; one of more than 128 bits is the greatest.
pub(super) fn number(digits: &str) -> Option<u128> {
    let is_number = !digits.is_empty() && digits.bytes().all(|byte| byte.is_ascii_digit());
    is_number.then(|| digits.parse().unwrap_or(u128::MAX))
}

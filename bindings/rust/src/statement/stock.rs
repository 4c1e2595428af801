//! A stock list, and the witness of its numbers.

use super::mistake::{Fault, Mistake, Mistakes};
use super::text::{lines, number, Cursor, Word};
use super::total::{centred, lines_of, word};
use crate::number::HALF;
use crate::section_one::Parameters;
use crate::sections::{words_of, Slice};

const SYMBOLS: [char; 1] = [','];

/// The numbers of all lines of stock, vector after vector, each within ±(Q - 1)/2.
#[derive(Clone, Debug, PartialEq, Eq)]
pub struct Stock {
    numbers: Vec<i64>,
}

/// A stock list as far as it is read.
struct Draft {
    lines: u32,
    numbers: Vec<i64>,
    /// The line of the list that has a line's number; 0 where none has.
    given: Vec<usize>,
    /// How many numbers stood alone.
    alone: usize,
    /// The first line of the list, and whether it is `I,J,NUMBER`.
    form: Option<(usize, bool)>,
}

impl Stock {
    /// The stock of these numbers from line 0 of s0 on; the rest is 0. What is wrong is told at its place in a list of a number a line.
    pub fn new(p: &Parameters, numbers: &[i64]) -> Result<Stock, Mistakes> {
        let list: String = numbers.iter().map(|number| format!("{number}\n")).collect();
        Stock::parse(p, &list)
    }

    /// The stock of a list, for a job of these parameters, or all its mistakes: after one in a line reading goes on in the next, but for
    /// numbers beyond the last line of stock.
    pub fn parse(p: &Parameters, text: &str) -> Result<Stock, Mistakes> {
        let all = (p.r * lines_of(p)) as usize;
        let numbers = vec![0; all];
        let mut draft = Draft { lines: lines_of(p), numbers, given: vec![0; all], alone: 0, form: None };
        let mut mistakes = Vec::new();
        for mut line in lines(text, &SYMBOLS) {
            let line = draft.line(&mut line);
            let is_full = matches!(&line, Err(Mistake { fault: Fault::Full { .. }, .. }));
            if !Mistakes::goes_on(&mut mistakes, line) || is_full {
                break;
            }
        }
        Mistakes::of(mistakes)?;
        Ok(Stock { numbers: draft.numbers })
    }

    /// The stock of a witness, which is fit for a job of these parameters.
    pub fn of_witness(p: &Parameters, witness: &[u32]) -> Stock {
        let words = words_of(Slice::Witness, p, "witness", witness);
        Stock { numbers: words.iter().map(|&word| centred(word)).collect() }
    }

    /// The numbers of all lines.
    pub fn numbers(&self) -> &[i64] {
        &self.numbers
    }

    /// The witness.
    pub fn witness(&self) -> Vec<u32> {
        let count = self.numbers.len() as u32;
        std::iter::once(count).chain(self.numbers.iter().map(|&number| word(number))).collect()
    }
}

/// A number with or without a sign.
fn signed(text: &str) -> Option<i64> {
    let (sign, digits) = match text.strip_prefix('-') {
        Some(digits) => (-1, digits),
        None => (1, text.strip_prefix('+').unwrap_or(text)),
    };
    let size = number(digits).filter(|size| *size <= HALF.into())?;
    Some(sign * size as i64)
}

/// The next word, of which a number is made, or the fault at it.
fn value<T>(line: &mut Cursor, fault: Fault, of: impl Fn(&str) -> Option<T>) -> Result<T, Mistake> {
    let before = line.clone();
    line.word().and_then(|word| of(word.text)).ok_or_else(|| before.mistake(fault))
}

impl Draft {
    fn line(&mut self, line: &mut Cursor) -> Result<(), Mistake> {
        let (first, three) = *self.form.get_or_insert((line.line, line.has(',')));
        if three != line.has(',') {
            let fault = if three { Fault::Three { line: first } } else { Fault::Alone { line: first } };
            return Err(line.mistake_at(line.all(), fault));
        }
        let word = line.all();
        let at = if three { self.place(line)? } else { self.next(line, word)? };
        self.numbers[at] = value(line, Fault::Number, signed)?;
        line.done()?;
        if self.given[at] > 0 {
            let (vector, number) = (at as u32 / self.lines, at as u32 % self.lines);
            return Err(line.mistake_at(word, Fault::Given { vector, line: number, by: self.given[at] }));
        }
        self.given[at] = line.line;
        Ok(())
    }

    /// The place of the next number that stands alone.
    fn next(&mut self, line: &Cursor, word: Word) -> Result<usize, Mistake> {
        let lines = self.numbers.len();
        if self.alone == lines {
            return Err(line.mistake_at(word, Fault::Full { lines: lines as u32 }));
        }
        self.alone += 1;
        Ok(self.alone - 1)
    }

    /// The place that `I,J,` names.
    fn place(&self, line: &mut Cursor) -> Result<usize, Mistake> {
        let below = |limit: u32| move |text: &str| number(text).filter(|n| *n < limit.into()).map(|n| n as u32);
        let vectors = self.numbers.len() as u32 / self.lines;
        let vector = value(line, Fault::Vector { vectors }, below(vectors))?;
        if !line.takes(',') {
            return Err(line.mistake(Fault::Comma));
        }
        let number = value(line, Fault::Line { vector, lines: self.lines }, below(self.lines))?;
        if !line.takes(',') {
            return Err(line.mistake(Fault::Comma));
        }
        Ok((vector * self.lines + number) as usize)
    }
}

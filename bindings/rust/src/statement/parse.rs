//! A statement file, read.

use super::mistake::{Fault, Mistake, Mistakes};
use super::text::{at_end, lines, number, Cursor, Word};
use super::total::{lines_of, Lines, Term, Total};
use super::{Said, Seed, Statement, GREATEST_BOUND, MOST_TOTALS};
use crate::number::HALF;
use crate::section_one::{Parameters, BOUNDS, PARAMETERS};

const SYMBOLS: [char; 4] = ['+', '-', '*', '='];

/// The parameters that a file does not give: K is 0, and l the number of totals.
const NOT_GIVEN: [&str; 2] = ["K", "l"];

/// The names that are given once each: parameters, bounds and the seed.
pub(super) fn names() -> impl Iterator<Item = &'static str> {
    let parameters = PARAMETERS.iter().map(|p| p.name).filter(|name| !NOT_GIVEN.contains(name));
    parameters.chain(BOUNDS.iter().map(|b| b.name)).chain(["seed"])
}

/// What is read so far.
struct Draft {
    /// In the order of section one; those not given, or not rightly, are 0.
    words: [u32; PARAMETERS.len()],
    bounds: [u128; BOUNDS.len()],
    seed: Seed,
    totals: Vec<Total>,
    /// How many totals were begun.
    begun: usize,
    /// The names that are given, with their lines.
    given: Vec<(&'static str, usize)>,
    /// L with its place.
    aggregations: Option<Mistake>,
    needs_bounds: bool,
    /// What is wrong so far.
    mistakes: Vec<Mistake>,
}

/// The statement of a text, or all its mistakes: after one in a line reading goes on in the next, but for the first line. Where bounds are not
/// needed, one that is not given is the greatest.
pub(super) fn parse(text: &str, needs_bounds: bool) -> Result<Statement, Mistakes> {
    let mut draft = Draft {
        words: [0; PARAMETERS.len()],
        bounds: [GREATEST_BOUND; BOUNDS.len()],
        seed: Seed([0; 32]),
        totals: Vec::new(),
        begun: 0,
        given: Vec::new(),
        aggregations: None,
        needs_bounds,
        mistakes: Vec::new(),
    };
    let mut lines = lines(text, &SYMBOLS);
    let Some(mut first) = lines.next() else {
        return Err(at_end(text, Fault::FirstLine).into());
    };
    first_line(&mut first)?;
    draft.given.push(("statement", first.line));
    let is_read = lines.all(|mut line| {
        let line = draft.line(&mut line);
        Mistakes::goes_on(&mut draft.mistakes, line)
    });
    if is_read && draft.begun == 0 {
        let faults = draft.complete().err().into_iter().chain([Fault::NoTotal]);
        draft.mistakes.extend(faults.map(|fault| at_end(text, fault)));
    }
    let Draft { words, bounds, seed, totals, mistakes, .. } = draft;
    Mistakes::of(mistakes)?;
    Ok(Said::new(Parameters::from_words(words), bounds, totals).seeded(seed))
}

/// The lines of a file in which its totals stand.
pub fn total_lines(text: &str) -> Vec<usize> {
    let is_total = |line: &Cursor| line.clone().word().is_some_and(|word| word.text == "total");
    lines(text, &SYMBOLS).filter(is_total).map(|line| line.line).collect()
}

fn first_line(line: &mut Cursor) -> Result<(), Mistake> {
    for word in ["statement", "1"] {
        let before = line.clone();
        if line.word().map(|found| found.text) != Some(word) {
            return Err(before.mistake(Fault::FirstLine));
        }
    }
    line.done()
}

impl Draft {
    fn line(&mut self, line: &mut Cursor) -> Result<(), Mistake> {
        let before = line.clone();
        let word = line.word().ok_or_else(|| before.mistake(Fault::Name))?;
        if word.text == "total" {
            self.total(line, word)?;
            return line.done();
        }
        let given = self.given.iter().find(|(name, _)| *name == word.text);
        if let Some(&(name, by)) = given {
            return Err(line.mistake_at(word, Fault::Twice { name, line: by }));
        }
        let Some(name) = names().find(|name| *name == word.text) else {
            return Err(line.mistake_at(word, Fault::Name));
        };
        self.given.push((name, line.line));
        self.value(name, line)?;
        line.done()
    }

    /// The value of a name that is given once.
    fn value(&mut self, name: &'static str, line: &mut Cursor) -> Result<(), Mistake> {
        if let Some(k) = PARAMETERS.iter().position(|p| p.name == name) {
            return self.parameter(k, line);
        }
        if let Some(k) = BOUNDS.iter().position(|b| b.name == name) {
            self.bounds[k] = limited(line, 0, GREATEST_BOUND, Fault::Bound { name })?;
            return Ok(());
        }
        let before = line.clone();
        let word = line.word().ok_or_else(|| before.mistake(Fault::Seed))?;
        self.seed = word.text.parse().map_err(|fault| line.mistake_at(word, fault))?;
        Ok(())
    }

    fn parameter(&mut self, k: usize, line: &mut Cursor) -> Result<(), Mistake> {
        let p = &PARAMETERS[k];
        let fault = Fault::Parameter { name: p.name, least: p.least, greatest: p.greatest };
        let place = line.mistake(fault.clone());
        self.words[k] = limited(line, p.least.into(), p.greatest.into(), fault)? as u32;
        if p.name == "L" {
            self.aggregations = Some(place);
        }
        if ["L", "log_q"].contains(&p.name) {
            self.mistakes.extend(self.few_aggregations());
        }
        Ok(())
    }

    /// L below its least, where both it and log_q are known.
    fn few_aggregations(&self) -> Option<Mistake> {
        let p = Parameters::from_words(self.words);
        let (log_q, least) = (p.log_q, p.least_aggregations());
        let place = self.aggregations.clone().filter(|_| log_q > 0 && p.L < least)?;
        Some(Mistake { fault: Fault::Aggregations { least, log_q }, ..place })
    }

    /// The parameters, those that are not known the greatest: so much is wrong in any case.
    fn known(&self) -> Parameters {
        let each = |k: usize| if self.words[k] == 0 { PARAMETERS[k].greatest } else { self.words[k] };
        Parameters::from_words(std::array::from_fn(each))
    }

    /// That each name is given that must be.
    fn complete(&self) -> Result<(), Fault> {
        let is_needed = |name: &&str| self.needs_bounds || BOUNDS.iter().all(|bound| bound.name != *name);
        let is_given = |name: &&str| self.given.iter().any(|(given, _)| given == name);
        let missing: Vec<&'static str> = names().filter(|name| is_needed(name) && !is_given(name)).collect();
        if missing.is_empty() {
            return Ok(());
        }
        Err(Fault::Missing { names: missing })
    }

    fn total(&mut self, line: &mut Cursor, total: Word) -> Result<(), Mistake> {
        self.begun += 1;
        // told once each, whatever stands in the line
        let first = self.complete().err().filter(|_| self.begun == 1);
        let many = (self.begun == MOST_TOTALS + 1).then_some(Fault::ManyTotals);
        self.mistakes.extend(first.into_iter().chain(many).map(|fault| line.mistake_at(total, fault)));
        let before = line.clone();
        let sign = if line.takes('-') { -1 } else { 1 };
        let right = limited(line, 0, HALF.into(), Fault::Right);
        let right = sign * right.map_err(|_| before.mistake(Fault::Right))? as i64;
        if !line.takes('=') {
            return Err(line.mistake(Fault::Equals));
        }
        let terms = terms(line, &self.known())?;
        self.totals.push(Total { right, terms });
        Ok(())
    }
}

/// The number that comes next, within its limits.
fn limited(line: &mut Cursor, least: u128, greatest: u128, fault: Fault) -> Result<u128, Mistake> {
    let before = line.clone();
    let value = line.word().and_then(|word| number(word.text));
    let within = value.filter(|value| (least..=greatest).contains(value));
    within.ok_or_else(|| before.mistake(fault))
}

/// The terms up to the line's end.
fn terms(line: &mut Cursor, p: &Parameters) -> Result<Vec<Term>, Mistake> {
    let mut terms = Vec::new();
    while terms.is_empty() || !line.is_done() {
        let negative = line.takes('-');
        if !negative && !line.takes('+') && !terms.is_empty() {
            return Err(line.mistake(Fault::Sign));
        }
        let Term { factor, lines } = term(line, p)?;
        terms.push(Term { factor: if negative { -factor } else { factor }, lines });
    }
    Ok(terms)
}

/// A term without its sign.
fn term(line: &mut Cursor, p: &Parameters) -> Result<Term, Mistake> {
    let before = line.clone();
    let mut word = line.word().ok_or_else(|| before.mistake(Fault::Term))?;
    let mut factor = 1;
    if word.text.starts_with(|c: char| c.is_ascii_digit()) {
        let value = number(word.text).filter(|value| *value <= HALF.into());
        factor = value.ok_or_else(|| line.mistake_at(word, Fault::Factor))? as i64;
        if !line.takes('*') {
            return Err(line.mistake(Fault::Times));
        }
        let before = line.clone();
        word = line.word().ok_or_else(|| before.mistake(Fault::Run))?;
    }
    Ok(Term { factor, lines: run(line, word, p)? })
}

/// The lines that a word names.
fn run(line: &Cursor, word: Word, p: &Parameters) -> Result<Lines, Mistake> {
    let unknown = || line.mistake_at(word, Fault::Run);
    let value = |text: &str| number(text).ok_or_else(unknown);
    let rest = word.text.strip_prefix('s').ok_or_else(unknown)?;
    let (vector, within) = match rest.split_once('[') {
        Some((vector, within)) => (vector, Some(within.strip_suffix(']').ok_or_else(unknown)?)),
        None => (rest, None),
    };
    let is_there = value(vector)? < p.r.into();
    let run = within.map(|within| (within, within.split_once("..")));
    if let Some((within, parted)) = run {
        let (first, end) = parted.unwrap_or((within, "0"));
        value(first).and(value(end))?;
    }
    if !is_there {
        return Err(line.mistake_at(word, Fault::Vector { vectors: p.r }));
    }
    let at = word.at + "s[".len() + vector.len();
    let vector = value(vector)? as u32;
    match run {
        None => Ok(Lines::All { vector }),
        Some((within, None)) => {
            let first = line_number(line, Word { text: within, at }, vector, p)?;
            Ok(Lines::Run { vector, first, end: first + 1 })
        }
        Some((_, Some((first, end)))) => {
            let end = Word { text: end, at: at + first.len() + "..".len() };
            let first = line_number(line, Word { text: first, at }, vector, p)?;
            Ok(Lines::Run { vector, first, end: run_end(line, end, first, p)? })
        }
    }
}

/// The number of a line of a vector.
fn line_number(line: &Cursor, word: Word, vector: u32, p: &Parameters) -> Result<u32, Mistake> {
    let lines = lines_of(p);
    let there = number(word.text).filter(|value| *value < lines.into());
    there.map(|value| value as u32).ok_or_else(|| line.mistake_at(word, Fault::Line { vector, lines }))
}

/// Where a run from this line ends.
fn run_end(line: &Cursor, word: Word, first: u32, p: &Parameters) -> Result<u32, Mistake> {
    let lines = lines_of(p);
    let there = number(word.text).filter(|value| *value > first.into() && *value <= lines.into());
    there.map(|value| value as u32).ok_or_else(|| line.mistake_at(word, Fault::RunEnd { first, lines }))
}

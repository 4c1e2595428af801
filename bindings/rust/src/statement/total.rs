//! A total: terms of lines with factors, as a file says it and as the words of phi'.

use std::fmt;

use crate::number::{HALF, Q};
use crate::section_one::Parameters;

/// Lines of one witness vector, counted from 0.
#[derive(Clone, Copy, Debug, PartialEq, Eq)]
pub enum Lines {
    /// `sI`
    All { vector: u32 },
    /// `sI[J]` or `sI[J..E]`: from `first` up to but not including `end`.
    Run { vector: u32, first: u32, end: u32 },
}

/// The sum of lines, times a factor within ±(Q - 1)/2.
#[derive(Clone, Copy, Debug, PartialEq, Eq)]
pub struct Term {
    pub factor: i64,
    pub lines: Lines,
}

/// A pledged total: the sum of the terms is `right`, modulo Q.
#[derive(Clone, Debug, PartialEq, Eq)]
pub struct Total {
    pub right: i64,
    pub terms: Vec<Term>,
}

/// The lines of a witness vector: 64·n.
pub(super) fn lines_of(p: &Parameters) -> u32 {
    64 * p.n
}

/// The word of a number.
pub(super) fn word(number: i64) -> u32 {
    number.rem_euclid(i64::from(Q)) as u32
}

/// The number of a word, within ±(Q - 1)/2.
pub(super) fn centred(word: u32) -> i64 {
    if word > HALF {
        i64::from(word) - i64::from(Q)
    } else {
        i64::from(word)
    }
}

fn negated(word: u32) -> u32 {
    if word == 0 {
        0
    } else {
        Q - word
    }
}

/// The elements whose products with a vector have these sums as constant coefficients, and back: conj of each 64 words. Coefficient 0 stays,
/// and minus coefficient 64 - c stands at c.
fn conj(words: &[u32]) -> impl Iterator<Item = u32> + '_ {
    words.chunks_exact(64).flat_map(|e| (0..64).map(|c| if c == 0 { e[0] } else { negated(e[64 - c]) }))
}

/// The factor of each line, as a word, of words of phi'.
pub(super) fn factors_of(phi: &[u32]) -> impl Iterator<Item = u32> + '_ {
    conj(phi)
}

impl Lines {
    /// The places of the lines among all lines of the witness.
    fn places(self, lines: u32) -> (usize, usize) {
        let (vector, first, end) = match self {
            Lines::All { vector } => (vector, 0, lines),
            Lines::Run { vector, first, end } => (vector, first, end),
        };
        ((vector * lines + first) as usize, (vector * lines + end) as usize)
    }
}

impl Total {
    /// The factor of each line, as a word: what the terms that name it add up to.
    fn factors(&self, p: &Parameters) -> Vec<u32> {
        let (q, lines) = (i64::from(Q), lines_of(p));
        // what the factor grows by from the line before
        let mut grows = vec![0i64; (p.r * lines) as usize + 1];
        for term in &self.terms {
            let (begin, end) = term.lines.places(lines);
            grows[begin] = (grows[begin] + term.factor) % q;
            grows[end] = (grows[end] - term.factor) % q;
        }
        let mut factor = 0;
        let grown = |by: &i64| {
            factor = (factor + by).rem_euclid(q);
            factor as u32
        };
        grows[..(p.r * lines) as usize].iter().map(grown).collect()
    }

    /// The words of phi'.
    pub(super) fn phi(&self, p: &Parameters) -> Vec<u32> {
        conj(&self.factors(p)).collect()
    }

    /// The total of words of phi' and of b0, its terms joined into runs as far as they go.
    pub(super) fn of_words(p: &Parameters, phi: &[u32], right: u32) -> Total {
        let factors: Vec<u32> = factors_of(phi).collect();
        let mut terms: Vec<Term> = Vec::new();
        for (vector, factors) in (0..).zip(factors.chunks_exact(lines_of(p) as usize)) {
            terms.extend(joined(vector, factors));
        }
        if terms.is_empty() {
            terms.push(Term { factor: 0, lines: Lines::All { vector: 0 } });
        }
        Total { right: centred(right), terms }
    }

    /// The total in its words, with so many terms at most.
    pub fn cut(&self, most: usize) -> String {
        let total = Total { terms: self.terms.iter().take(most).copied().collect(), ..*self };
        match self.terms.len().saturating_sub(most) {
            0 => total.to_string(),
            1 => format!("{total} … and 1 term more"),
            more => format!("{total} … and {more} terms more"),
        }
    }
}

/// The terms of one vector's factors: a run for each stretch of equal ones, none where they are 0.
fn joined(vector: u32, factors: &[u32]) -> Vec<Term> {
    let mut terms = Vec::new();
    let mut first = 0;
    for stretch in factors.chunk_by(|a, b| a == b) {
        let end = first + stretch.len() as u32;
        let whole = stretch.len() == factors.len();
        let lines = if whole { Lines::All { vector } } else { Lines::Run { vector, first, end } };
        if stretch[0] != 0 {
            terms.push(Term { factor: centred(stretch[0]), lines });
        }
        first = end;
    }
    terms
}

impl fmt::Display for Lines {
    fn fmt(&self, f: &mut fmt::Formatter<'_>) -> fmt::Result {
        match self {
            Lines::All { vector } => write!(f, "s{vector}"),
            Lines::Run { vector, first, end } if u64::from(*end) == u64::from(*first) + 1 => {
                write!(f, "s{vector}[{first}]")
            }
            Lines::Run { vector, first, end } => write!(f, "s{vector}[{first}..{end}]"),
        }
    }
}

impl fmt::Display for Total {
    fn fmt(&self, f: &mut fmt::Formatter<'_>) -> fmt::Result {
        write!(f, "total {} =", self.right)?;
        for (k, Term { factor, lines }) in self.terms.iter().enumerate() {
            let sign = match (k, *factor < 0) {
                (0, false) => "",
                (_, false) => "+ ",
                (_, true) => "- ",
            };
            let size = factor.unsigned_abs();
            let times = if size == 1 { String::new() } else { format!("{size} * ") };
            write!(f, " {sign}{times}{lines}")?;
        }
        Ok(())
    }
}

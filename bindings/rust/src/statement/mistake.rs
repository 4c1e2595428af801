//! What is wrong in a statement file or a stock list, with its place, what stands there and what may stand there.

use std::error::Error;
use std::fmt;

use super::parse::names;
use super::{GREATEST_BOUND, MOST_TOTALS};
use crate::number::HALF;

/// So many mistakes of a text are told; reading stops at the next one.
const MOST_TOLD: usize = 1000;

/// All mistakes of a text, in the order of their places: at least one, and of a line the first.
#[derive(Clone, Debug, PartialEq, Eq)]
pub struct Mistakes(Vec<Mistake>);

/// A mistake at a place of a text.
#[derive(Clone, Debug, PartialEq, Eq)]
pub struct Mistake {
    /// From 1.
    pub line: usize,
    /// In characters, from 1; a tab is one.
    pub column: usize,
    /// What stands there.
    pub found: Found,
    /// What may stand there.
    pub fault: Fault,
}

/// What stands at a place of a text.
#[derive(Clone, Debug, PartialEq, Eq)]
pub enum Found {
    Text(String),
    Byte(u8),
    Comment,
    LineEnd,
    FileEnd,
}

/// What may stand at a place, where something else does.
#[derive(Clone, Debug, PartialEq, Eq)]
pub enum Fault {
    /// The text is no UTF-8.
    Utf8,
    /// The first line that says something is another.
    FirstLine,
    /// A line begins with no name that is known.
    Name,
    /// A name is given a second time.
    Twice {
        name: &'static str,
        line: usize,
    },
    /// At the first total, or at the file's end: what is not given.
    Missing {
        names: Vec<&'static str>,
    },
    /// A parameter outside its limits, or no number.
    Parameter {
        name: &'static str,
        least: u32,
        greatest: u32,
    },
    /// L below 128 divided by log_q, rounded up.
    Aggregations {
        least: u32,
        log_q: u32,
    },
    /// A bound outside its limits, or no number.
    Bound {
        name: &'static str,
    },
    Seed,
    /// Something behind the last word of a line.
    Behind,
    /// A total's own number.
    Right,
    Equals,
    Term,
    Factor,
    Times,
    Run,
    /// Between two terms.
    Sign,
    Vector {
        vectors: u32,
    },
    Line {
        vector: u32,
        lines: u32,
    },
    RunEnd {
        first: u32,
        lines: u32,
    },
    NoTotal,
    ManyTotals,
    /// Of a stock list: a number of a line of stock.
    Number,
    /// A line of another form than the first one's, which is a number alone.
    Alone {
        line: usize,
    },
    /// A line of another form than the first one's, which is `I,J,NUMBER`.
    Three {
        line: usize,
    },
    Comma,
    /// More numbers than lines of stock.
    Full {
        lines: u32,
    },
    /// A line of stock that has its number.
    Given {
        vector: u32,
        line: u32,
        by: usize,
    },
    /// After so many mistakes the rest is not read.
    Many {
        told: usize,
    },
}

impl fmt::Display for Found {
    fn fmt(&self, f: &mut fmt::Formatter<'_>) -> fmt::Result {
        /// So many characters are shown.
        const SHOWN: usize = 40;
        match self {
            Found::Text(text) => {
                for c in text.chars().take(SHOWN) {
                    let plain = c.is_ascii_graphic() || c.is_alphanumeric();
                    if plain { write!(f, "{c}") } else { write!(f, "U+{:04X}", c as u32) }?;
                }
                f.write_str(if text.chars().nth(SHOWN).is_some() { "…" } else { "" })
            }
            Found::Byte(byte) => write!(f, "the byte {byte:02x}"),
            Found::Comment => f.write_str("a comment"),
            Found::LineEnd => f.write_str("the line's end"),
            Found::FileEnd => f.write_str("the file's end"),
        }
    }
}

/// `a, b and c`.
fn listed(names: &[&'static str], last: &str) -> String {
    match names {
        [] => String::new(),
        [one] => one.to_string(),
        [first @ .., end] => format!("{} {last} {end}", first.join(", ")),
    }
}

impl fmt::Display for Fault {
    fn fmt(&self, f: &mut fmt::Formatter<'_>) -> fmt::Result {
        match self {
            Fault::Utf8 => f.write_str("the file is text in UTF-8"),
            Fault::FirstLine => f.write_str("the first line is: statement 1"),
            Fault::Name => {
                write!(f, "a line begins with {}", listed(&names().chain(["total"]).collect::<Vec<_>>(), "or"))
            }
            Fault::Twice { name, line } => write!(f, "{name} is given once, in line {line}"),
            Fault::Missing { names } => write!(f, "before the first total stands also {}", listed(names, "and")),
            Fault::Parameter { name, least, greatest } => write!(f, "{name} is a number from {least} to {greatest}"),
            Fault::Aggregations { least, log_q } => write!(f, "L is at least {least} where log_q is {log_q}"),
            Fault::Bound { name } => write!(f, "{name} is a number from 0 to {GREATEST_BOUND}"),
            Fault::Seed => f.write_str("a seed is 64 hex digits"),
            Fault::Behind => f.write_str("the line ends here"),
            Fault::Right => write!(f, "a total is a number from -{HALF} to {HALF}"),
            Fault::Equals => f.write_str("behind the total stands ="),
            Fault::Term => f.write_str("a term is sI, sI[J] or sI[J..E], or NUMBER * and one of these"),
            Fault::Factor => write!(f, "a factor is a number from 0 to {HALF}"),
            Fault::Times => f.write_str("behind a factor stands *"),
            Fault::Run => f.write_str("a run of lines is sI, sI[J] or sI[J..E]"),
            Fault::Sign => f.write_str("before each further term stands + or -"),
            Fault::Vector { vectors: 1 } => f.write_str("the only vector is s0"),
            Fault::Vector { vectors } => write!(f, "the vectors are s0 to s{}", vectors - 1),
            Fault::Line { vector, lines } => write!(f, "the lines of s{vector} are 0 to {}", lines - 1),
            Fault::RunEnd { first, lines } => {
                write!(f, "a run from line {first} has an end from {} to {lines}, which is not in it", first + 1)
            }
            Fault::NoTotal => write!(f, "a statement has 1 to {MOST_TOTALS} totals"),
            Fault::ManyTotals => write!(f, "a statement has at most {MOST_TOTALS} totals"),
            Fault::Number => write!(f, "a line of stock has a number from -{HALF} to {HALF}"),
            Fault::Alone { line } => write!(f, "a number alone stands in every line, as in line {line}"),
            Fault::Three { line } => write!(f, "I,J,NUMBER stands in every line, as in line {line}"),
            Fault::Comma => f.write_str("vector, line and number are parted by commas"),
            Fault::Full { lines } => write!(f, "the stock has {lines} lines, and each has its number"),
            Fault::Given { vector, line, by } => write!(f, "s{vector}[{line}] has its number in line {by}"),
            Fault::Many { told } => write!(f, "{told} mistakes are told before, and the rest is not read"),
        }
    }
}

impl fmt::Display for Mistake {
    fn fmt(&self, f: &mut fmt::Formatter<'_>) -> fmt::Result {
        let Mistake { line, column, found, fault } = self;
        write!(f, "line {line}, column {column}: {found} stands there; {fault}")
    }
}

impl Error for Mistake {}

impl Mistakes {
    /// Those that were found, if any were.
    pub(super) fn of(mut found: Vec<Mistake>) -> Result<(), Mistakes> {
        if found.is_empty() {
            return Ok(());
        }
        found.sort_by_key(|mistake| (mistake.line, mistake.column));
        Err(Mistakes(found))
    }

    /// Adds what is found in a line; whether reading goes on.
    pub(super) fn goes_on(found: &mut Vec<Mistake>, line: Result<(), Mistake>) -> bool {
        let Err(mistake) = line else {
            return true;
        };
        let is_full = found.len() >= MOST_TOLD;
        found.push(if is_full { Mistake { fault: Fault::Many { told: MOST_TOLD }, ..mistake } } else { mistake });
        !is_full
    }

    /// In the order of their places.
    pub fn all(&self) -> &[Mistake] {
        &self.0
    }

    pub fn first(&self) -> &Mistake {
        &self.0[0]
    }
}

impl From<Mistake> for Mistakes {
    fn from(mistake: Mistake) -> Mistakes {
        Mistakes(vec![mistake])
    }
}

/// A line each.
impl fmt::Display for Mistakes {
    fn fmt(&self, f: &mut fmt::Formatter<'_>) -> fmt::Result {
        for (k, mistake) in self.0.iter().enumerate() {
            write!(f, "{}{mistake}", if k == 0 { "" } else { "\n" })?;
        }
        Ok(())
    }
}

impl Error for Mistakes {}

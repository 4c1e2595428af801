//! Statements of pledged totals: a text that a store writes, the job that it stands for, and a job told in its words.
//!
//! ```
//! use labrador::statement::Statement;
//!
//! let wrong = Statement::parse("statement 1\nn 65\nr 17\n").unwrap_err();
//! assert_eq!(wrong.first().to_string(), "line 2, column 3: 65 stands there; n is a number from 1 to 64");
//! let places: Vec<_> = wrong.all().iter().map(|mistake| (mistake.line, mistake.column)).collect();
//! // at the file's end other names and a total are still missing
//! assert_eq!(places, [(2, 3), (3, 3), (4, 1), (4, 1)]);
//! ```

use std::fmt;

use crate::section_one::{Parameters, BOUNDS, PARAMETERS};

mod bounds;
mod check;
mod job;
mod mistake;
mod parse;
mod seed;
mod stated;
mod stock;
mod text;
mod total;

pub use bounds::{fit, sessions, Fit};
pub use check::{check, Checked, Side};
pub use job::{totals, NoStatement, NoTotal};
pub use mistake::{Fault, Found, Mistake, Mistakes};
pub use parse::total_lines;
pub use seed::{Seed, MATRICES};
pub use stated::{stated, Stated, Touched};
pub use stock::Stock;
pub use text::text_of;
pub use total::{Lines, Term, Total};

/// The greatest bound: three words.
pub const GREATEST_BOUND: u128 = (1 << 96) - 1;

/// So many totals a statement has at most: as many as a job has constraints of a kind.
pub const MOST_TOTALS: usize = 64;

/// What a statement says: all but the seed of its matrices.
#[derive(Clone, Debug, PartialEq, Eq)]
pub struct Said {
    parameters: Parameters,
    bounds: [u128; BOUNDS.len()],
    totals: Vec<Total>,
}

/// A statement: parameters, bounds, totals, and the seed of A to D. It is within all limits.
#[derive(Clone, Debug, PartialEq, Eq)]
pub struct Statement {
    said: Said,
    seed: Seed,
}

impl Said {
    /// K is 0 and l the number of totals.
    fn new(parameters: Parameters, bounds: [u128; BOUNDS.len()], totals: Vec<Total>) -> Said {
        let parameters = Parameters { K: 0, l: totals.len() as u32, ..parameters };
        Said { parameters, bounds, totals }
    }

    /// The statement with this seed.
    pub fn seeded(self, seed: Seed) -> Statement {
        Statement { said: self, seed }
    }

    pub fn parameters(&self) -> &Parameters {
        &self.parameters
    }

    /// In the order of [`BOUNDS`].
    pub fn bounds(&self) -> &[u128; BOUNDS.len()] {
        &self.bounds
    }

    pub fn totals(&self) -> &[Total] {
        &self.totals
    }

    fn write(&self, f: &mut fmt::Formatter<'_>, seed: Option<&Seed>) -> fmt::Result {
        writeln!(f, "statement 1")?;
        for (p, word) in PARAMETERS.iter().zip(self.parameters.words()) {
            if parse::names().any(|name| name == p.name) {
                writeln!(f, "{} {word}", p.name)?;
            }
        }
        BOUNDS.iter().zip(self.bounds).try_for_each(|(bound, value)| writeln!(f, "{} {value}", bound.name))?;
        match seed {
            Some(seed) => writeln!(f, "seed {seed}")?,
            None => writeln!(f, "# the seed is not known: A to D are not made from this file")?,
        }
        self.totals.iter().try_for_each(|total| writeln!(f, "{total}"))
    }
}

impl Statement {
    /// The statement of these parts; K and l of the parameters are not read. What is wrong is told at its place in the text of the
    /// statement as it is printed.
    pub fn new(
        parameters: Parameters,
        bounds: [u128; BOUNDS.len()],
        totals: Vec<Total>,
        seed: Seed,
    ) -> Result<Statement, Mistakes> {
        Statement::parse(&Said::new(parameters, bounds, totals).seeded(seed).to_string())
    }

    /// The statement of a text, or all its mistakes.
    pub fn parse(text: &str) -> Result<Statement, Mistakes> {
        parse::parse(text, true)
    }

    /// The statement of a text that may lack bounds: one that is not given is [`GREATEST_BOUND`].
    pub fn parse_without_bounds(text: &str) -> Result<Statement, Mistakes> {
        parse::parse(text, false)
    }

    /// The same statement with other bounds; one above [`GREATEST_BOUND`] is that.
    pub fn with_bounds(&self, bounds: [u128; BOUNDS.len()]) -> Statement {
        Statement { said: Said { bounds: bounds.map(|bound| bound.min(GREATEST_BOUND)), ..self.said.clone() }, ..*self }
    }

    pub fn parameters(&self) -> &Parameters {
        &self.said.parameters
    }

    /// In the order of [`BOUNDS`].
    pub fn bounds(&self) -> &[u128; BOUNDS.len()] {
        &self.said.bounds
    }

    pub fn totals(&self) -> &[Total] {
        &self.said.totals
    }

    pub fn seed(&self) -> Seed {
        self.seed
    }
}

/// The text with a comment in the seed's place.
impl fmt::Display for Said {
    fn fmt(&self, f: &mut fmt::Formatter<'_>) -> fmt::Result {
        self.write(f, None)
    }
}

/// The text of the statement, which is read as the same statement.
impl fmt::Display for Statement {
    fn fmt(&self, f: &mut fmt::Formatter<'_>) -> fmt::Result {
        self.said.write(f, Some(&self.seed))
    }
}

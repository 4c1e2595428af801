//! What a job does not force: faults that are no refusals, found before a transcript is judged under it.

use std::cmp::Reverse;
use std::fmt;

use crate::needs::output_need;
use crate::refusal::Refusal;
use crate::section_one::SectionOne;
use crate::worth::Fraction;

mod chances;
mod constraints;
mod limits;
mod ratio;
mod rows;
mod severity;
mod words;

pub use ratio::Ratio;
pub use severity::Severity;

/// The two kinds of constraints.
#[derive(Clone, Copy, Debug, PartialEq, Eq)]
pub enum Kind {
    ConstantTerm,
    Ring,
}

impl fmt::Display for Kind {
    fn fmt(&self, f: &mut fmt::Formatter<'_>) -> fmt::Result {
        f.write_str(match self {
            Kind::ConstantTerm => "constant-term constraint",
            Kind::Ring => "ring constraint",
        })
    }
}

/// Something that a job does not force. `at` is the index of the first word that it is about.
#[derive(Clone, Debug, PartialEq, Eq)]
pub enum Finding {
    /// Check 23 can never fail, or has room for a z of any size (that sum and the limit), bound_D has room for a cell of h of any size, and n
    /// is at least 2·kappa + 2: any statement passes, without a witness.
    AnythingPasses { n: u32, kappa: u32, room: Option<(u128, u128)>, at: u64 },
    /// A limit at or above the greatest norm there is, so that its check or refusal can never fail.
    Unreachable { number: u32, name: &'static str, limit: u128, greatest: u128, at: u64 },
    /// A is zero.
    ZeroA { at: u64 },
    /// A has one row, or all its rows are multiples of one row, and n is at least 2.
    RankOne { rows: u64, at: u64 },
    /// A column of A that is zero.
    ZeroColumn { column: u64, at: u64 },
    /// A row of a matrix that is zero.
    ZeroRow { matrix: &'static str, row: u64, at: u64 },
    /// A row of a matrix that is the same as an earlier one.
    RepeatedRow { matrix: &'static str, row: u64, of: u64, at: u64 },
    /// A row of A that is a multiple of one row with an earlier one.
    MultipleRow { row: u64, of: u64, at: u64 },
    /// beta_sq is so great that p can be sent modulo a divisor of q, with the chance that a witness beyond beta_sq passes.
    NormNotForced { divisor: u32, chance: Fraction, at: u64 },
    /// beta is above q/125; the greatest beta_sq that is not.
    BetaTooGreat { most: u128, at: u64 },
    /// A wrong total passes: the multiples by which it is wrong, with the chance of each.
    Totals { passes: Vec<(u32, Fraction)>, at: u64 },
    /// A constraint with no coefficient at all; no witness meets it unless its right side is zero.
    NoCoefficient { kind: Kind, index: u64, met: bool, at: u64 },
    /// A constraint without a coefficient modulo a prime of Q, and with a right side that is not 0 there.
    NoCoefficientModulo { kind: Kind, index: u64, modulo: u32, at: u64 },
    /// A constraint that another implies: it has the same words, or is a multiple of it by a number.
    Repeated { kind: Kind, index: u64, of_kind: Kind, of: u64, multiple: bool, at: u64 },
    /// A constraint that no witness meets together with another: the left sides stand to each other in a ratio that the right sides have not.
    Contradicts { kind: Kind, index: u64, of_kind: Kind, of: u64, ratio: Ratio, at: u64 },
    /// A witness vector that no constraint touches.
    Untouched { vector: u64 },
    /// Digits that can lose something: fewer parts than the base needs.
    FewParts { name: &'static str, parts: u32, needed: u32, base: u32, cells: &'static str, at: u64 },
    /// All six bounds are 0.
    NoRoom { at: u64 },
    /// bound_A is no limit of the verifier's.
    ProverAlone { at: u64 },
}

/// All findings of a job, the worst first, or its refusal. There is no job of which nothing is found.
pub fn review(job: &[u32]) -> Result<Vec<Finding>, Refusal> {
    output_need(job)?;
    let one = SectionOne::read(job).expect("the job is fit");
    let mut found = chances::review(&one);
    found.extend(constraints::review(&one.parameters, job));
    found.extend(limits::review(&one));
    found.extend(rows::review(&one.parameters, job));
    found.extend(limits::few_parts(&one.parameters)?);
    // those of one severity and of one chance stay in the order in which they were found
    found.sort_by_key(|finding| (finding.severity(), Reverse(finding.chance().cloned())));
    Ok(found)
}

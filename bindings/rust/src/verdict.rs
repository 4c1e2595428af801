//! The verifier's verdict.

use std::error::Error;
use std::fmt;

use crate::meaning::{meaning, Meaning};
use crate::refusal::Refusal;

/// What the verifier says of a transcript.
#[derive(Clone, Debug, PartialEq, Eq)]
pub enum Verdict {
    /// Every check passed; [`crate::worth`] says what that is worth. `cells_left` cells of t, g and h together have a coefficient with something left after its
    /// digits.
    Accepted { cells_left: u64 },
    /// The input is unfit.
    Refused(Refusal),
    /// A check failed, the first in the verifier's order.
    Failed(FailedCheck),
}

/// The first check that failed, with its figures.
#[derive(Clone, Copy, Debug, PartialEq, Eq)]
pub enum FailedCheck {
    /// 21
    ProjectionNorm { norm: u128, limit: u128 },
    /// 22: the lowest such row.
    ConstantTerm { row: u32, sent: u128, worked_out: u128 },
    /// 23
    NormSum { sum: u128, limit: u128 },
    /// 24
    Az,
    /// 25
    ZInner,
    /// 26
    Phi,
    /// 27
    Relation,
    /// 28
    FirstCommitment,
    /// 29
    SecondCommitment,
}

impl FailedCheck {
    pub fn number(&self) -> u32 {
        match self {
            FailedCheck::ProjectionNorm { .. } => 21,
            FailedCheck::ConstantTerm { .. } => 22,
            FailedCheck::NormSum { .. } => 23,
            FailedCheck::Az => 24,
            FailedCheck::ZInner => 25,
            FailedCheck::Phi => 26,
            FailedCheck::Relation => 27,
            FailedCheck::FirstCommitment => 28,
            FailedCheck::SecondCommitment => 29,
        }
    }

    /// Its row of the table.
    pub fn meaning(&self) -> &'static Meaning {
        meaning(self.number()).expect("each check has a row")
    }
}

impl fmt::Display for FailedCheck {
    fn fmt(&self, f: &mut fmt::Formatter<'_>) -> fmt::Result {
        write!(f, "check {} failed: {}", self.number(), self.meaning().short)?;
        match self {
            FailedCheck::ProjectionNorm { norm, limit } => write!(f, " (norm {norm}, limit {limit})"),
            FailedCheck::ConstantTerm { row, sent, worked_out } => {
                write!(f, " (row {row}: sent {sent}, worked out {worked_out})")
            }
            FailedCheck::NormSum { sum, limit } => write!(f, " (sum {sum}, limit {limit})"),
            _ => Ok(()),
        }
    }
}

impl Error for FailedCheck {}

impl Verdict {
    /// 0 where it is accepted, else the refusal's or the check's number.
    pub fn number(&self) -> u32 {
        match self {
            Verdict::Accepted { .. } => 0,
            Verdict::Refused(refusal) => refusal.number(),
            Verdict::Failed(check) => check.number(),
        }
    }

    pub fn is_accepted(&self) -> bool {
        matches!(self, Verdict::Accepted { .. })
    }
}

impl fmt::Display for Verdict {
    fn fmt(&self, f: &mut fmt::Formatter<'_>) -> fmt::Result {
        match self {
            Verdict::Accepted { cells_left: 1 } => write!(f, "accepted, 1 cell with something left"),
            Verdict::Accepted { cells_left } => write!(f, "accepted, {cells_left} cells with something left"),
            Verdict::Refused(refusal) => refusal.fmt(f),
            Verdict::Failed(check) => check.fmt(f),
        }
    }
}

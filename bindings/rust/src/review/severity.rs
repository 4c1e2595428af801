//! How bad a finding is: the one order of all findings.

use super::Finding;
use crate::meaning::CHECKS;
use crate::worth::Fraction;

/// The worst first.
#[derive(Clone, Copy, Debug, PartialEq, Eq, PartialOrd, Ord)]
pub enum Severity {
    /// Anything passes.
    Anything,
    /// A test of the verifier can never fail.
    NeverFails,
    /// A matrix binds less than its size says.
    Binding,
    /// A false statement has a chance that the statement itself leaves it; the greatest chance first.
    Chance,
    /// A constraint says nothing, or nothing of a vector.
    Constraint,
    /// Digits can lose something.
    Digits,
    /// Nobody can prove it, or only a witness of zeros.
    Unprovable,
    /// A limit that the prover alone tests.
    Prover,
}

impl Finding {
    pub fn severity(&self) -> Severity {
        match self {
            Finding::AnythingPasses { .. } => Severity::Anything,
            Finding::Unreachable { .. } if self.never_fails().is_some() => Severity::NeverFails,
            Finding::ZeroA { .. }
            | Finding::RankOne { .. }
            | Finding::ZeroColumn { .. }
            | Finding::ZeroRow { .. }
            | Finding::RepeatedRow { .. }
            | Finding::MultipleRow { .. } => Severity::Binding,
            Finding::NormNotForced { .. } | Finding::BetaTooGreat { .. } | Finding::Totals { .. } => Severity::Chance,
            Finding::NoCoefficient { met: true, .. } | Finding::Repeated { .. } | Finding::Untouched { .. } => {
                Severity::Constraint
            }
            Finding::FewParts { .. } => Severity::Digits,
            Finding::NoCoefficient { .. }
            | Finding::NoCoefficientModulo { .. }
            | Finding::Contradicts { .. }
            | Finding::NoRoom { .. } => Severity::Unprovable,
            Finding::Unreachable { .. } | Finding::ProverAlone { .. } => Severity::Prover,
        }
    }

    /// The greatest chance that it tells of.
    pub fn chance(&self) -> Option<&Fraction> {
        match self {
            Finding::NormNotForced { chance, .. } => Some(chance),
            Finding::Totals { passes, .. } => passes.iter().map(|(_, chance)| chance).max(),
            _ => None,
        }
    }

    /// The number of the verifier's test that it says can never fail.
    pub fn never_fails(&self) -> Option<u32> {
        match self {
            Finding::Unreachable { number, .. } if CHECKS.iter().any(|check| check.number == *number) => Some(*number),
            _ => None,
        }
    }

    /// Whether it holds of every job, or of every one with constant-term constraints, whatever its words are.
    pub fn holds_of_every_job(&self) -> bool {
        matches!(self, Finding::Totals { .. } | Finding::ProverAlone { .. })
    }
}

//! A finding in words.

use std::fmt;

use super::{Finding, Ratio};
use crate::meaning::meaning;
use crate::worth::Fraction;

/// `1 in 86`; from a thousand on with its power of two, `1 in 1.9 million (2^-20.8)`.
fn chance(chance: &Fraction) -> String {
    match chance.one_in() {
        0..=999 => chance.to_string(),
        _ => format!("{chance} (2^-{:.1})", chance.bits()),
    }
}

/// `check 23` or `the test of refusal 14`.
fn test(number: u32) -> String {
    let title = meaning(number).map_or_else(String::new, |m| m.title());
    match number {
        21.. => title,
        _ => format!("the test of {title}"),
    }
}

fn totals(passes: &[(u32, Fraction)]) -> String {
    let least = passes.first().map_or(0, |(multiple, _)| *multiple);
    let each = |(k, (multiple, c)): (usize, &(u32, Fraction))| match k {
        0 => format!("by a multiple of {multiple} passes one transcript with at least {}", chance(c)),
        _ => format!("by a multiple of {multiple} with {}", chance(c)),
    };
    let each: Vec<String> = passes.iter().enumerate().map(each).collect();
    format!("totals are forced modulo {least} only: one that is wrong {}", each.join(", "))
}

/// How the sides of two constraints stand to each other that contradict.
fn sides(ratio: &Ratio) -> String {
    let number = "the left sides are the same up to a number, the right sides are not by that number";
    match ratio {
        Ratio::Same => "the left sides are the same, the right sides are not".to_string(),
        Ratio::Multiple => number.to_string(),
        Ratio::Modulo(divisor) => format!("modulo {divisor}, which divides Q, {number}"),
    }
}

impl Finding {
    /// The sentence without its place.
    fn sentence(&self) -> String {
        match self {
            Finding::AnythingPasses { n, kappa, room, .. } => format!(
                "any statement is accepted for certain, without a witness: check 23 {}, and n is {n}, at least 2·kappa + 2 = {}",
                room.map_or("can never fail".to_string(), |(sum, limit)| format!(
                    "has room for a z of any size, whose sum is {sum} on the average where beta_prime_sq is {limit}"
                )),
                2 * kappa + 2
            ),
            Finding::Unreachable { number, name, limit, greatest, .. } => format!(
                "{} can never fail: this limit limits nothing, since no norm is above {greatest}, and {name} is {limit}",
                test(*number)
            ),
            Finding::NormNotForced { divisor, chance: c, .. } => format!(
                "norms are not forced by check 21: p can be sent modulo {divisor}, since beta_sq reaches a sixth of its square, and a witness \
                 beyond beta_sq passes one transcript with at least {}",
                chance(c)
            ),
            Finding::BetaTooGreat { most, .. } => {
                format!("beta is above q/125, and the paper's lemma on check 21 needs one that is not: a beta_sq of at most {most}")
            }
            Finding::Totals { passes, .. } => totals(passes),
            Finding::FewParts { name, parts, needed, base, cells, .. } => {
                format!("{name} is {parts}, and base {base} needs {needed}: digits of {cells} can lose something")
            }
            Finding::NoRoom { .. } => {
                "all six bounds are 0: nothing can be proved, since only a witness of zeros meets them".to_string()
            }
            Finding::ProverAlone { .. } => {
                "bound_A is tested by the prover alone: no check of the verifier holds a witness vector to it".to_string()
            }
            _ => self.sentence_of_words(),
        }
    }

    /// The sentence of a finding among the words of the constraints and matrices.
    fn sentence_of_words(&self) -> String {
        match self {
            Finding::NoCoefficient { kind, index, met: true, .. } => {
                format!("{kind} {index} has no coefficient at all: every witness meets it")
            }
            Finding::NoCoefficient { kind, index, .. } => {
                format!("{kind} {index} has no coefficient at all and a right side that is not 0: no witness meets it")
            }
            Finding::NoCoefficientModulo { kind, index, modulo, .. } => format!(
                "{kind} {index} has no coefficient modulo {modulo}, which divides Q, and a right side that is not 0 there: no witness meets it"
            ),
            Finding::Repeated { kind, index, of_kind, of, multiple, .. } => {
                let times = if *multiple { ": both its sides are that one's, times a number" } else { "" };
                format!("{kind} {index} repeats {of_kind} {of}{times}")
            }
            Finding::Contradicts { kind, index, of_kind, of, ratio, .. } => format!(
                "{kind} {index} contradicts {of_kind} {of}: {}, and no witness meets both",
                sides(ratio)
            ),
            Finding::Untouched { vector } => format!("witness vector {vector} is in no constraint"),
            Finding::ZeroA { .. } => "A is zero: t says nothing of the witness".to_string(),
            Finding::RankOne { rows: 1, .. } => "A has rank 1: it has one row".to_string(),
            Finding::RankOne { rows, .. } => format!("A has rank 1: its {rows} rows are multiples of one row"),
            Finding::ZeroColumn { column, .. } => {
                format!("column {column} of A is zero: t says nothing of element {column} of a vector")
            }
            Finding::ZeroRow { matrix, row, .. } => format!("row {row} of {matrix} is zero"),
            Finding::RepeatedRow { matrix, row, of, .. } => format!("row {row} of {matrix} repeats row {of}"),
            Finding::MultipleRow { row, of, .. } => format!("rows {of} and {row} of A are multiples of one row"),
            _ => unreachable!("the other findings are of section one"),
        }
    }

    /// The first word that it is about; a vector's words stand in many places.
    pub fn place(&self) -> Option<u64> {
        match self {
            Finding::Untouched { .. } => None,
            Finding::AnythingPasses { at, .. }
            | Finding::Unreachable { at, .. }
            | Finding::ZeroA { at }
            | Finding::RankOne { at, .. }
            | Finding::ZeroColumn { at, .. }
            | Finding::ZeroRow { at, .. }
            | Finding::RepeatedRow { at, .. }
            | Finding::MultipleRow { at, .. }
            | Finding::NormNotForced { at, .. }
            | Finding::BetaTooGreat { at, .. }
            | Finding::Totals { at, .. }
            | Finding::NoCoefficient { at, .. }
            | Finding::NoCoefficientModulo { at, .. }
            | Finding::Repeated { at, .. }
            | Finding::Contradicts { at, .. }
            | Finding::FewParts { at, .. }
            | Finding::NoRoom { at }
            | Finding::ProverAlone { at } => Some(*at),
        }
    }
}

impl fmt::Display for Finding {
    fn fmt(&self, f: &mut fmt::Formatter<'_>) -> fmt::Result {
        f.write_str(&self.sentence())?;
        match self.place() {
            Some(at) => write!(f, " (from word {at})"),
            None => Ok(()),
        }
    }
}

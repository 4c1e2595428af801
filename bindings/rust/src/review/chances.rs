//! What a false statement's chance rests on: no witness at all, norms beyond their bound, wrong totals.

use super::Finding;
use crate::reach::{bound_at, never_fails, room_for_any_z};
use crate::section_one::SectionOne;
use crate::sections::{placed, Slice};
use crate::worth::{passes_without_witness, Worth};

pub(super) fn review(one: &SectionOne) -> Vec<Finding> {
    let worth = Worth::of(one);
    [anything(one), norm(one, &worth), beta(one, &worth), totals(one, &worth)].into_iter().flatten().collect()
}

fn anything(one: &SectionOne) -> Option<Finding> {
    let p = &one.parameters;
    let at = bound_at("beta_prime_sq");
    let limit = one.bound("beta_prime_sq");
    let room = room_for_any_z(one).filter(|_| !never_fails(one, 23)).map(|sum| (sum, limit));
    passes_without_witness(one).then_some(Finding::AnythingPasses { n: p.n, kappa: p.kappa, room, at })
}

/// The greatest divisor M of q for which p modulo M is within the limit of 21, 128·beta_sq: its 256 entries have M²/12 each on the
/// average, so beta_sq reaches M²/6, a half above a whole number: it is told from that number on.
fn norm(one: &SectionOne, worth: &Worth) -> Option<Finding> {
    let beta_sq = one.bound("beta_sq");
    let reached = |number: u32| beta_sq >= u128::from(number).pow(2) / 6;
    let divisor = worth.modulus.divisors().into_iter().rfind(|divisor| reached(divisor.number))?;
    let chance = worth.in_slots(&divisor.slots);
    Some(Finding::NormNotForced { divisor: divisor.number, chance, at: bound_at("beta_sq") })
}

/// beta above q/125, in squares.
fn beta(one: &SectionOne, worth: &Worth) -> Option<Finding> {
    let beta_sq = one.bound("beta_sq");
    let q_sq = u128::from(worth.modulus.q).pow(2);
    let finding = Finding::BetaTooGreat { most: q_sq / (125 * 125), at: bound_at("beta_sq") };
    (125 * 125 * beta_sq > q_sq).then_some(finding)
}

/// Where q has slots: its divisors, and psi's where its chance is greater than theirs.
fn totals(one: &SectionOne, worth: &Worth) -> Option<Finding> {
    let divisors = worth.modulus.divisors().into_iter();
    let mut passes: Vec<_> = divisors.map(|d| (d.number, worth.in_slots(&d.slots))).collect();
    let by_psi = worth.by_psi().filter(|_| !passes.is_empty())?;
    if passes.iter().all(|(_, chance)| *chance < by_psi) {
        passes.push((worth.modulus.q / worth.modulus.least_prime(), by_psi));
    }
    let sections = placed(Slice::Job, &one.parameters);
    let at = sections.iter().find(|s| s.section.name == "b0").expect("a section of the job").begin();
    Some(Finding::Totals { passes, at })
}

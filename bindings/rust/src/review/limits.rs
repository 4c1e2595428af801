//! Limits that no norm can pass, limits of 0, and parts too few for the base.

use super::Finding;
use crate::number::parts_needed;
use crate::reach::{bound_at, limits};
use crate::refusal::Refusal;
use crate::section_one::{Parameters, SectionOne, BOUNDS, PARAMETERS};

pub(super) fn review(one: &SectionOne) -> Vec<Finding> {
    let unreachable = limits(one).into_iter().filter(|limit| limit.limits_nothing()).map(|limit| {
        let (number, name, greatest, at) = (limit.number, limit.name, limit.greatest, limit.at);
        Finding::Unreachable { number, name, limit: limit.limit, greatest, at }
    });
    let no_room = one.bounds.iter().all(|&bound| bound == 0);
    let no_room = no_room.then_some(Finding::NoRoom { at: bound_at(BOUNDS[0].name) });
    unreachable.chain(no_room).chain([Finding::ProverAlone { at: bound_at("bound_A") }]).collect()
}

pub(super) fn few_parts(p: &Parameters) -> Result<Vec<Finding>, Refusal> {
    let needed = parts_needed(p.b)?;
    let place = |name: &str| PARAMETERS.iter().position(|q| q.name == name).map_or(0, |k| 1 + k as u64);
    let finding = |(name, parts, cells)| Finding::FewParts { name, parts, needed, base: p.b, cells, at: place(name) };
    let both = [("t_1", p.t_1, "t and h"), ("t_2", p.t_2, "g")];
    Ok(both.into_iter().filter(|(_, parts, _)| *parts < needed).map(finding).collect())
}

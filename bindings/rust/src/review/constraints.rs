//! Constraints that say nothing, repeat another or contradict it, and vectors that none touches.

use super::ratio::{Ratio, Sides, Words};
use super::{Finding, Kind};
use crate::constraints::{zero, Constraints};
use crate::section_one::Parameters;

impl Constraints<'_> {
    /// Whether some constraint has a coefficient of vector i.
    fn touches(&self, p: &Parameters, i: usize) -> bool {
        (0..self.count).any(|k| !zero(self.linear(p, k, i)) || self.quadratic(p, k, i).any(|cell| !zero(cell)))
    }
}

/// A constraint, held against others.
struct Held<'a> {
    kind: Kind,
    index: u64,
    at: u64,
    sides: Sides<'a>,
}

impl<'a> Held<'a> {
    fn of(constraints: &Constraints<'a>, k: usize) -> Held<'a> {
        let [a, phi, right] = constraints.parts(k);
        let sides = Sides::of(Words { a, phi, right });
        Held { kind: constraints.kind, index: k as u64, at: constraints.begin(k), sides }
    }

    fn no_coefficient(&self) -> Option<Finding> {
        let (kind, index, at) = (self.kind, self.index, self.at);
        let met = zero(self.sides.words.right);
        self.sides.words.has_no_coefficient().then_some(Finding::NoCoefficient { kind, index, met, at })
    }

    fn repeated(&self, of: &Held) -> Finding {
        let (kind, index, at) = (self.kind, self.index, self.at);
        let multiple = self.sides.ratio(&of.sides) != Some(Ratio::Same);
        Finding::Repeated { kind, index, of_kind: of.kind, of: of.index, multiple, at }
    }

    fn contradicts(&self, of: &Held) -> Option<Finding> {
        let (kind, index, at) = (self.kind, self.index, self.at);
        let ratio = self.sides.contradicts(&of.sides)?;
        Some(Finding::Contradicts { kind, index, of_kind: of.kind, of: of.index, ratio, at })
    }

    /// What is wrong with it, held against the constraints before it of its kind, and against those that say more than one of its
    /// kind: the constant term of a ring constraint is a constant-term constraint.
    fn findings(&self, before: &[Held], more: &[Held]) -> Vec<Finding> {
        if let Some(finding) = self.no_coefficient() {
            return vec![finding];
        }
        let others: Vec<&Held> =
            before.iter().chain(more).filter(|other| !other.sides.words.has_no_coefficient()).collect();
        if let Some(of) = others.iter().find(|other| other.sides.implies(&self.sides)) {
            return vec![self.repeated(of)];
        }
        let weaker = others.iter().find(|other| self.sides.implies(&other.sides)).map(|other| other.repeated(self));
        let contradicts = others.iter().find_map(|other| self.contradicts(other));
        let (kind, index, at) = (self.kind, self.index, self.at);
        let unmet = || self.sides.unmet().map(|modulo| Finding::NoCoefficientModulo { kind, index, modulo, at });
        weaker.into_iter().chain(contradicts.or_else(unmet)).collect()
    }
}

pub(super) fn review(p: &Parameters, job: &[u32]) -> Vec<Finding> {
    let kinds = Constraints::both(p, job);
    let [constant_terms, rings] = [0, 1].map(|k: usize| {
        let all = (0..kinds[k].count).map(|constraint| Held::of(&kinds[k], constraint));
        all.collect::<Vec<_>>()
    });
    let mut found: Vec<Finding> = Vec::new();
    for (held, more) in [(&constant_terms, &rings[..]), (&rings, &[])] {
        found.extend((0..held.len()).flat_map(|k| held[k].findings(&held[..k], more)));
    }
    let untouched = (0..p.r as usize).filter(|&i| kinds.iter().all(|c| !c.touches(p, i)));
    found.extend(untouched.map(|i| Finding::Untouched { vector: i as u64 }));
    found
}

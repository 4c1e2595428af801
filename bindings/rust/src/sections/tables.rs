//! Which sections each slice has, in their order, with their axes.

use super::{Axis, Section};
use crate::section_one::{self, Parameters};

/// An axis over the cells of a triangle.
pub(super) const CELL: &str = "cell";
/// An axis over the words of section one.
pub(super) const FIELD: &str = "field";

fn section(name: &'static str, meaning: &'static str, axes: &[(&'static str, u64)]) -> Section {
    let axes = axes.iter().map(|&(name, length)| Axis { name, length }).collect();
    Section { name, meaning, axes }
}

const COEFFICIENT: (&str, u64) = ("coefficient", 64);

fn vectors(p: &Parameters) -> [(&'static str, u64); 3] {
    [("vector", p.r.into()), ("element", p.n.into()), COEFFICIENT]
}

/// Rows of a matrix.
fn matrix(rows: u32, columns: u64) -> [(&'static str, u64); 3] {
    [("row", rows.into()), ("column", columns), COEFFICIENT]
}

pub(super) fn job(p: &Parameters) -> Vec<Section> {
    let (constant_terms, rings) = (("constraint", u64::from(p.l)), ("constraint", u64::from(p.K)));
    let cells = (CELL, p.triangle());
    let phi = |kind| [&[kind], &vectors(p)[..]].concat();
    let (t_1, t_2, t_cells) = (u64::from(p.t_1), u64::from(p.t_2), u64::from(p.r) * u64::from(p.kappa));
    vec![
        section("parameters", "section one: the parameters and the bounds", &[(FIELD, section_one::COUNT as u64)]),
        section("a'", "quadratic coefficients of the constant-term constraints", &[constant_terms, cells, COEFFICIENT]),
        section("phi'", "linear coefficients of the constant-term constraints", &phi(constant_terms)),
        section("b0", "right sides of the constant-term constraints", &[constant_terms]),
        section("a", "quadratic coefficients of the ring constraints", &[rings, cells, COEFFICIENT]),
        section("phi", "linear coefficients of the ring constraints", &phi(rings)),
        section("b", "right sides of the ring constraints", &[rings, COEFFICIENT]),
        section("A", "commits to the witness vectors", &matrix(p.kappa, p.n.into())),
        section("B", "commits to the digits of t", &matrix(p.kappa_1, t_cells * t_1)),
        section("C", "commits to the digits of g", &matrix(p.kappa_1, p.triangle() * t_2)),
        section("D", "commits to the digits of h", &matrix(p.kappa_2, p.triangle() * t_1)),
    ]
}

pub(super) fn randomness(p: &Parameters) -> Vec<Section> {
    let aggregations = ("row", u64::from(p.L));
    let challenges = ("challenge", u64::from(p.r));
    let projection = [("vector", p.r.into()), ("row", 256), ("element", p.n.into()), COEFFICIENT];
    vec![
        section("projection", "words of the projection matrices", &projection),
        section("psi", "weights of the constant-term constraints", &[aggregations, ("constraint", p.l.into())]),
        section("omega", "weights of the projection's entries", &[aggregations, ("entry", 256)]),
        section("alpha", "weights of the ring constraints", &[("constraint", p.K.into()), COEFFICIENT]),
        section("beta", "weights of the aggregated constraints", &[aggregations, COEFFICIENT]),
        section("signs", "sign words of the challenges", &[challenges, ("sign", 41)]),
        section("shuffle", "shuffle words of the challenges", &[challenges, ("word", 63)]),
    ]
}

pub(super) fn witness(p: &Parameters) -> Vec<Section> {
    vec![section("witness", "the witness vectors", &vectors(p))]
}

pub(super) fn transcript(p: &Parameters) -> Vec<Section> {
    let elements = |count: u32| [("element", u64::from(count)), COEFFICIENT];
    let cells = [(CELL, p.triangle()), COEFFICIENT];
    let rows = [("vector", u64::from(p.r)), ("row", p.kappa.into()), COEFFICIENT];
    vec![
        section("u1", "commitment to the digits of t and g", &elements(p.kappa_1)),
        section("p", "projection of the witness", &[("entry", 256)]),
        section("b''", "right sides of the aggregated constraints", &[("row", p.L.into()), COEFFICIENT]),
        section("u2", "commitment to the digits of h", &elements(p.kappa_2)),
        section("z", "witness vectors summed with the challenges", &elements(p.n)),
        section("t", "A times each witness vector", &rows),
        section("g", "inner products of the witness vectors", &cells),
        section("h", "inner products of phi and the witness vectors", &cells),
    ]
}

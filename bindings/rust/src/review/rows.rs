//! Rows of the matrices that are zero or repeat another, rows of A that are multiples of one row, and zero columns of A.

use super::Finding;
use crate::constraints::zero;
use crate::element::Element;
use crate::norms::elements;
use crate::section_one::Parameters;
use crate::sections::{placed, Placed, Slice};

/// The matrices of a job by name, with how many rows each has.
fn matrices(p: &Parameters) -> Vec<(Placed, usize)> {
    let rows = [("A", p.kappa), ("B", p.kappa_1), ("C", p.kappa_1), ("D", p.kappa_2)];
    let matrix = |s: Placed| rows.iter().find(|(name, _)| *name == s.section.name).map(|&(_, rows)| (s, rows as usize));
    placed(Slice::Job, p).into_iter().filter_map(matrix).collect()
}

/// Rows and columns of A, and rows of the other matrices. Where A is zero that alone is told of it.
pub(super) fn review(p: &Parameters, job: &[u32]) -> Vec<Finding> {
    let section = a_of(p);
    let is_zero = zero(section.words(job));
    let mut found = if is_zero { vec![Finding::ZeroA { at: section.begin() }] } else { zero_columns(p, job) };
    for (section, rows) in matrices(p).into_iter().filter(|(s, _)| !is_zero || s.section.name != "A") {
        let (matrix, words) = (section.section.name, section.words(job));
        let length = words.len() / rows;
        let row = |k: usize| &words[k * length..(k + 1) * length];
        for k in 0..rows {
            let at = section.begin() + (k * length) as u64;
            if zero(row(k)) {
                let row = k as u64;
                found.push(Finding::ZeroRow { matrix, row, at });
            } else if let Some(of) = (0..k).find(|&j| row(j) == row(k)) {
                let (row, of) = (k as u64, of as u64);
                found.push(Finding::RepeatedRow { matrix, row, of, at });
            }
        }
    }
    if !is_zero {
        found.extend(multiples(p, job));
    }
    found
}

fn a_of(p: &Parameters) -> Placed {
    let all = placed(Slice::Job, p);
    all.into_iter().find(|s| s.section.name == "A").expect("A is a matrix of the job")
}

/// Whether two rows are multiples of one row: modulo each prime of q the ring is a product of fields, so that is where every minor of two
/// columns is 0.
fn multiples_of_one(row: &[Element], other: &[Element]) -> bool {
    let product = |a: &Element, b: &Element| a.mul_fast(b).expect("the job's words are below Q");
    let columns = 0..row.len();
    columns
        .clone()
        .all(|i| columns.clone().skip(i + 1).all(|j| product(&row[i], &other[j]) == product(&row[j], &other[i])))
}

/// Rows of A that are multiples of one row; where all are, that alone. Of one column the rank 1 is the greatest there is, and one row that is
/// not zero binds as many as all.
fn multiples(p: &Parameters, job: &[u32]) -> Vec<Finding> {
    let section = a_of(p);
    let (rows, columns) = (p.kappa as usize, p.n as usize);
    if columns == 1 {
        return Vec::new();
    }
    let entries: Vec<Element> = elements(section.words(job)).collect();
    let row = |k: usize| &entries[k * columns..(k + 1) * columns];
    let of_one = |j: usize, k: usize| multiples_of_one(row(j), row(k));
    if (0..rows).all(|k| (0..k).all(|j| of_one(j, k))) {
        return vec![Finding::RankOne { rows: rows as u64, at: section.begin() }];
    }
    // rows that are zero or equal are told as that
    let is_zero = |k: usize| row(k).iter().all(|element| *element == Element::ZERO);
    let is_apart = |j: usize, k: usize| !is_zero(j) && !is_zero(k) && row(j) != row(k);
    let finding = |k: usize| {
        let of = (0..k).find(|&j| is_apart(j, k) && of_one(j, k))? as u64;
        Some(Finding::MultipleRow { row: k as u64, of, at: section.begin() + 64 * (k * columns) as u64 })
    };
    (0..rows).filter_map(finding).collect()
}

fn zero_columns(p: &Parameters, job: &[u32]) -> Vec<Finding> {
    let section = a_of(p);
    let (words, rows, columns) = (section.words(job), p.kappa as usize, p.n as usize);
    let element = |row: usize, column: usize| &words[64 * (row * columns + column)..][..64];
    let empty = (0..columns).filter(|&column| (0..rows).all(|row| zero(element(row, column))));
    let finding =
        |column: usize| Finding::ZeroColumn { column: column as u64, at: section.begin() + 64 * column as u64 };
    empty.map(finding).collect()
}

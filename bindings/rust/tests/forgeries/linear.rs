//! Linear equations over the ring, solved modulo a prime, and elements joined from their residues.

use labrador::{Element, Q};

use crate::modular::{inverse, primes};
use crate::ring::{mul, ONE};

/// u with Σ_m rows[k][m]·u_m = right[k] for each k, modulo a prime; nothing where elimination finds none.
pub fn solve(rows: &[Vec<Element>], right: &[Element], prime: u64) -> Option<Vec<Element>> {
    let unknowns = 64 * rows[0].len();
    let mut equations: Vec<Vec<u64>> = Vec::new();
    for (row, right) in rows.iter().zip(right) {
        equations.extend((0..64).map(|j| equation(row, right, j, prime)));
    }
    let pivots = eliminate(&mut equations, unknowns, prime);
    if equations[pivots.len()..].iter().any(|equation| equation[unknowns] != 0) {
        return None;
    }
    let mut solution = vec![Element::ZERO; rows[0].len()];
    for (equation, pivot) in equations.iter().zip(pivots) {
        solution[pivot / 64].coeffs[pivot % 64] = equation[unknowns] as u32;
    }
    Some(solution)
}

/// Coefficient j of Σ row_m·u_m = right, over the coefficients of u: that of a·X^i is a_(j-i), or -a_(64+j-i) where i is above j.
fn equation(row: &[Element], right: &Element, j: usize, prime: u64) -> Vec<u64> {
    let weight = |a: &Element, i: usize| match j.checked_sub(i) {
        Some(k) => u64::from(a.coeffs[k]) % prime,
        None => (prime - u64::from(a.coeffs[64 + j - i]) % prime) % prime,
    };
    let mut equation: Vec<u64> = row.iter().flat_map(|a| (0..64).map(move |i| weight(a, i))).collect();
    equation.push(u64::from(right.coeffs[j]) % prime);
    equation
}

/// Brings equations into reduced form and gives the column of each one's leading 1.
fn eliminate(equations: &mut [Vec<u64>], unknowns: usize, prime: u64) -> Vec<usize> {
    let mut pivots = Vec::new();
    for column in 0..unknowns {
        let done = pivots.len();
        let Some(found) = (done..equations.len()).find(|&k| equations[k][column] != 0) else { continue };
        equations.swap(done, found);
        let factor = inverse(equations[done][column], prime);
        equations[done].iter_mut().for_each(|word| *word = *word * factor % prime);
        let pivot = equations[done].clone();
        for (_, other) in equations.iter_mut().enumerate().filter(|(k, other)| *k != done && other[column] != 0) {
            let factor = prime - other[column];
            other.iter_mut().zip(&pivot).for_each(|(word, p)| *word = (*word + factor * p) % prime);
        }
        pivots.push(column);
    }
    pivots
}

/// The inverse of an element modulo a prime, where it has one.
pub fn inverse_modulo(a: &Element, prime: u64) -> Option<Element> {
    solve(&[vec![*a]], &[ONE], prime).map(|solution| solution[0])
}

/// The inverse of an element, where it is a unit.
pub fn inverse_of(a: &Element) -> Option<Element> {
    let modulo = |prime| Some((prime, vec![inverse_modulo(a, prime)?]));
    let inverse = joined(&primes().into_iter().map(modulo).collect::<Option<Vec<_>>>()?)[0];
    assert_eq!(mul(a, &inverse), ONE);
    Some(inverse)
}

/// The elements modulo Q that have these residues modulo its primes.
pub fn joined(residues: &[(u64, Vec<Element>)]) -> Vec<Element> {
    let q = u64::from(Q);
    let mut sum = vec![[0u64; 64]; residues[0].1.len()];
    for (prime, elements) in residues {
        let others = q / prime;
        // 1 modulo this prime and 0 modulo the others
        let one = others * inverse(others, *prime) % q;
        for (sum, element) in sum.iter_mut().zip(elements) {
            sum.iter_mut().zip(element.coeffs).for_each(|(sum, c)| *sum = (*sum + u64::from(c) * one) % q);
        }
    }
    sum.into_iter().map(|coeffs| Element { coeffs: coeffs.map(|c| c as u32) }).collect()
}

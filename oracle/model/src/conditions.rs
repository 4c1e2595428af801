//! Demand 3's four conditions, of job, randomness and witness alone.

use crate::checks::{norm_sum, projection_limit, row_values};
use crate::formulas::*;
use crate::leaves::*;
use crate::words::*;
use crate::Answer;

/// The first of the four conditions that fails, as 21, 22, 23 or 27 with its figures; else an acceptance with its number.
pub fn first_breach(job: &Job, x: &Randomness, s: &[Vec<Element>]) -> Answer {
    let p = &job.parameters;
    let of_projection = projection(&x.projection, s);
    let size = norm(&of_projection);
    if size > projection_limit(p) {
        return Answer::over(21, size, projection_limit(p));
    }

    let g = garbage_g(s);
    let constant_errors: Vec<u32> =
        job.constant.iter().zip(&job.b0).map(|(c, &b0)| sub(left_side(c, s, &g)[0], b0)).collect();
    let rows = aggregated_rows(job, x);
    for k in 0..x.psi.len() {
        let row_sum = x.psi[k].iter().zip(&constant_errors).fold(0, |sum, (&psi, &error)| add(sum, mul(psi, error)));
        if row_sum != 0 {
            let b2: Vec<Element> = rows.iter().map(|row| left_side(row, s, &g)).collect();
            let (first, second) = row_values(job, x, k, &b2, &of_projection);
            assert_eq!(sub(first, second), row_sum, "the first value less the second is that row's sum modulo Q");
            return Answer { number: 22, index: k as u32, first: first.into(), second: second.into(), ..Answer::FINE };
        }
    }

    let t: Vec<Vec<Element>> = s.iter().map(|s| apply(&job.matrices[0], s)).collect();
    let h = garbage_h(&aggregated(job, x, &rows).phi, s);
    let sum = norm_sum(p, &amortized(x, p.n, s), &t, &g, &h);
    if sum > p.beta_prime_sq {
        return Answer::over(23, sum, p.beta_prime_sq);
    }

    let ring_errors: Vec<Element> = job.ring.iter().zip(&job.b).map(|(c, b)| rsub(&left_side(c, s, &g), b)).collect();
    if dot(&ring_errors, &x.alpha) != ZERO {
        return Answer::failed(27);
    }
    Answer::accepted(cells_left(p, &t, &g, &h))
}

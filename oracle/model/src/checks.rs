//! Document 01, "The verifier's checks, in order".

use crate::formulas::*;
use crate::leaves::*;
use crate::words::*;
use crate::Answer;

/// Both values of check 22 for row k: the constant coefficient of b''_k, and Σ psi[k][l]·b0[l] + Σ omega[k][j]·p[j].
pub fn row_values(job: &Job, x: &Randomness, k: usize, b2: &[Element], p: &[u32]) -> (u32, u32) {
    let weighted =
        |weights: &[u32], values: &[u32]| weights.iter().zip(values).fold(0, |sum, (&w, &v)| add(sum, mul(w, v)));
    let computed = add(weighted(&x.psi[k], &job.b0), weighted(&x.omega[k], p));
    (b2[k][0], computed)
}

/// Document 02, Item 9: the two parts of each element of z, its digit 0 and the whole rest.
pub fn two_parts(base: u32, z: &[Element]) -> Vec<Element> {
    let parts = |e: &Element| [rdigits(base, 1, e)[0], element(|k| rest(base, e[k]))];
    z.iter().flat_map(parts).collect()
}

/// Whether nothing is left of z after two digits.
pub fn is_two_digits(base: u32, z: &[Element]) -> bool {
    z.iter().flatten().all(|&a| left(base, 2, a) == 0)
}

/// The sum of check 23: z in its two parts, t, g and h in digits.
pub fn norm_sum(p: &Parameters, z: &[Element], t: &[Vec<Element>], g: &[Element], h: &[Element]) -> u128 {
    elements_norm(&two_parts(p.b, z)) + digits_norms(p, t, g, h).iter().sum::<u128>()
}

/// The limit of check 21.
pub fn projection_limit(p: &Parameters) -> u128 {
    128 * p.beta_sq
}

/// Σ x_ij·c_i·c_j over all pairs.
fn with_challenges(x: &[Element], c: &[Element]) -> Element {
    over_pairs(c.len(), x, &triangle(c.len(), |i, j| rmul(&c[i], &c[j])))
}

fn twice(a: &Element) -> Element {
    rscale(a, 2)
}

/// The verdict on a transcript.
pub fn verdict(job: &Job, x: &Randomness, sent: &Transcript) -> Answer {
    let p = &job.parameters;
    let size = norm(&sent.p);
    if size > projection_limit(p) {
        return Answer::over(21, size, projection_limit(p));
    }
    // "check 22 runs over L" (document 02, Item 6)
    for k in 0..p.aggregations {
        let (value, computed) = row_values(job, x, k, &sent.b2, &sent.p);
        if value != computed {
            return Answer {
                number: 22,
                index: k as u32,
                first: value.into(),
                second: computed.into(),
                ..Answer::FINE
            };
        }
    }
    let sum = norm_sum(p, &sent.z, &sent.t, &sent.g, &sent.h);
    if sum > p.beta_prime_sq {
        return Answer::over(23, sum, p.beta_prime_sq);
    }
    // the columns of t are combined with the challenges
    let combined: Vec<Element> = (0..p.kappa)
        .map(|k| {
            let column: Vec<Element> = sent.t.iter().map(|row| row[k]).collect();
            dot(&column, &x.challenges)
        })
        .collect();
    if apply(&job.matrices[0], &sent.z) != combined {
        return Answer::failed(24);
    }
    if dot(&sent.z, &sent.z) != with_challenges(&sent.g, &x.challenges) {
        return Answer::failed(25);
    }
    let rows = aggregated_rows(job, x);
    let whole = aggregated(job, x, &rows);
    let phi_z: Vec<Element> = whole.phi.iter().map(|phi| dot(phi, &sent.z)).collect();
    if twice(&dot(&phi_z, &x.challenges)) != with_challenges(&sent.h, &x.challenges) {
        return Answer::failed(26);
    }
    let b_whole = radd(&dot(&job.b, &x.alpha), &dot(&sent.b2, &x.beta));
    let diagonal = (0..p.r).fold(ZERO, |sum, i| radd(&sum, &sent.h[cell(i, i)]));
    if radd(&twice(&over_pairs(p.r, &whole.a, &sent.g)), &diagonal) != twice(&b_whole) {
        return Answer::failed(27);
    }
    let norms = digits_norms(p, &sent.t, &sent.g, &sent.h);
    if norms[0] > p.bounds[1] {
        return Answer::refused(14, 0);
    }
    if norms[1] > p.bounds[2] {
        return Answer::refused(15, 0);
    }
    if sent.u1 != outer_u1(job, &sent.t, &sent.g) {
        return Answer::failed(28);
    }
    if norms[2] > p.bounds[3] {
        return Answer::refused(16, 0);
    }
    if sent.u2 != outer_u2(job, &sent.h) {
        return Answer::failed(29);
    }
    Answer::accepted(cells_left(p, &sent.t, &sent.g, &sent.h))
}

//! Document 01, "What the prover works out".

use crate::leaves::*;
use crate::words::*;
use crate::{Answer, Call};

/// A matrix times a vector.
pub fn apply(rows: &[Vec<Element>], vector: &[Element]) -> Vec<Element> {
    rows.iter().map(|row| dot(row, vector)).collect()
}

/// The digits of each cell, lowest first, cell after cell.
pub fn cell_digits(base: u32, parts: usize, cells: &[Element]) -> Vec<Element> {
    cells.iter().flat_map(|cell| rdigits(base, parts, cell)).collect()
}

pub fn elements_norm(elements: &[Element]) -> u128 {
    elements.iter().map(|e| norm(e)).sum()
}

fn vector_add(a: &[Element], b: &[Element]) -> Vec<Element> {
    a.iter().zip(b).map(|(x, y)| radd(x, y)).collect()
}

fn vector_times(a: &[Element], c: &Element) -> Vec<Element> {
    a.iter().map(|x| rmul(x, c)).collect()
}

fn vector_scale(a: &[Element], c: u32) -> Vec<Element> {
    a.iter().map(|x| rscale(x, c)).collect()
}

/// The sum of the vectors that a run of indexes gives.
fn vector_sum(length: usize, terms: impl Iterator<Item = Vec<Element>>) -> Vec<Element> {
    terms.fold(vec![ZERO; length], |sum, term| vector_add(&sum, &term))
}

/// Σ a_ij·x_ij over all pairs, both triangles mirrored.
pub fn over_pairs(r: usize, a: &[Element], x: &[Element]) -> Element {
    let mut sum = ZERO;
    for i in 0..r {
        for j in 0..r {
            sum = radd(&sum, &rmul(&a[cell(i, j)], &x[cell(i, j)]));
        }
    }
    sum
}

/// The triangle of f(i, j).
pub fn triangle(r: usize, f: impl Fn(usize, usize) -> Element) -> Vec<Element> {
    let f = &f;
    (0..r).flat_map(|i| (0..=i).map(move |j| f(i, j))).collect()
}

/// Σ a_ij·g_ij + Σ⟨φ_i, s_i⟩, where g_ij = ⟨s_i, s_j⟩.
pub fn left_side(c: &Constraint, s: &[Vec<Element>], g: &[Element]) -> Element {
    c.phi.iter().zip(s).fold(over_pairs(s.len(), &c.a, g), |sum, (phi, s)| radd(&sum, &dot(phi, s)))
}

/// g_ij = ⟨s_i, s_j⟩.
pub fn garbage_g(s: &[Vec<Element>]) -> Vec<Element> {
    triangle(s.len(), |i, j| dot(&s[i], &s[j]))
}

/// p = Σ Π_i·s_i over coefficients, of all vectors or of a run of them.
pub fn projection(pi: &Projection, s: &[Vec<Element>]) -> Vec<u32> {
    (0..ROWS)
        .map(|j| {
            let mut sum: i128 = 0;
            for (rows, s) in pi.iter().zip(s) {
                for (entry, word) in rows[j].iter().zip(s.iter().flatten()) {
                    sum += i128::from(*entry) * i128::from(*word);
                }
            }
            sum.rem_euclid(i128::from(Q)) as u32
        })
        .collect()
}

/// Row k of the constant-term constraints under psi and omega: a''_k and φ''_k.
pub fn aggregated_row(job: &Job, x: &Randomness, k: usize) -> Constraint {
    let p = &job.parameters;
    let weighted = |f: &dyn Fn(&Constraint) -> Vec<Element>, length: usize| {
        vector_sum(length, job.constant.iter().zip(&x.psi[k]).map(|(c, &psi)| vector_scale(&f(c), psi)))
    };
    Constraint {
        a: weighted(&|c| c.a.clone(), p.cells()),
        phi: (0..p.r)
            .map(|i| {
                let of_projection: Vec<Element> = (0..p.n)
                    .map(|m| {
                        // Σ omega[k][j]·(row j of Π_i), coefficient by coefficient, then conjugated
                        let row_sum = element(|c| {
                            let sum: i128 = (0..ROWS)
                                .map(|j| i128::from(x.projection[i][j][m * DEGREE + c]) * i128::from(x.omega[k][j]))
                                .sum();
                            sum.rem_euclid(i128::from(Q)) as u32
                        });
                        rconj(&row_sum)
                    })
                    .collect();
                vector_add(&weighted(&|c| c.phi[i].clone(), p.n), &of_projection)
            })
            .collect(),
    }
}

/// All rows under psi and omega.
pub fn aggregated_rows(job: &Job, x: &Randomness) -> Vec<Constraint> {
    (0..job.parameters.aggregations).map(|k| aggregated_row(job, x, k)).collect()
}

/// The ring constraints under alpha and the aggregated rows under beta: a and φ.
pub fn aggregated(job: &Job, x: &Randomness, rows: &[Constraint]) -> Constraint {
    let p = &job.parameters;
    let weighted = |f: &dyn Fn(&Constraint) -> Vec<Element>, length: usize| {
        let ring = job.ring.iter().zip(&x.alpha);
        let doubled = rows.iter().zip(&x.beta);
        vector_sum(length, ring.chain(doubled).map(|(c, w)| vector_times(&f(c), w)))
    };
    Constraint {
        a: weighted(&|c| c.a.clone(), p.cells()),
        phi: (0..p.r).map(|i| weighted(&|c| c.phi[i].clone(), p.n)).collect(),
    }
}

/// h_ij = ⟨φ_i, s_j⟩ + ⟨φ_j, s_i⟩.
pub fn garbage_h(phi: &[Vec<Element>], s: &[Vec<Element>]) -> Vec<Element> {
    triangle(s.len(), |i, j| radd(&dot(&phi[i], &s[j]), &dot(&phi[j], &s[i])))
}

/// z = Σ s_i·c_i.
pub fn amortized(x: &Randomness, n: usize, s: &[Vec<Element>]) -> Vec<Element> {
    vector_sum(n, s.iter().zip(&x.challenges).map(|(s, c)| vector_times(s, c)))
}

/// u1 = B·digits(t) + C·digits(g).
pub fn outer_u1(job: &Job, t: &[Vec<Element>], g: &[Element]) -> Vec<Element> {
    let p = &job.parameters;
    vector_add(
        &apply(&job.matrices[1], &cell_digits(p.b, p.t1, &t.concat())),
        &apply(&job.matrices[2], &cell_digits(p.b, p.t2, g)),
    )
}

/// u2 = D·digits(h).
pub fn outer_u2(job: &Job, h: &[Element]) -> Vec<Element> {
    let p = &job.parameters;
    apply(&job.matrices[3], &cell_digits(p.b, p.t1, h))
}

/// The norms of the digits of t, of g and of h.
pub fn digits_norms(p: &Parameters, t: &[Vec<Element>], g: &[Element], h: &[Element]) -> [u128; 3] {
    [
        elements_norm(&cell_digits(p.b, p.t1, &t.concat())),
        elements_norm(&cell_digits(p.b, p.t2, g)),
        elements_norm(&cell_digits(p.b, p.t1, h)),
    ]
}

/// Document 02, Item 5: "how many cells of t, g and h together have a coefficient with something left". A triangle has
/// each cell once.
pub fn cells_left(p: &Parameters, t: &[Vec<Element>], g: &[Element], h: &[Element]) -> usize {
    let count = |parts: usize, cells: &[Element]| cells.iter().filter(|e| rleft(p.b, parts, e) != ZERO).count();
    count(p.t1, &t.concat()) + count(p.t2, g) + count(p.t1, h)
}

/// Everything that the prover works out, and its refusal 13 to 16 if there is one.
pub fn transcript(job: &Job, x: &Randomness, s: &[Vec<Element>]) -> (Transcript, Answer) {
    let p = &job.parameters;
    let t: Vec<Vec<Element>> = s.iter().map(|s| apply(&job.matrices[0], s)).collect();
    let g = garbage_g(s);
    let rows = aggregated_rows(job, x);
    let h = garbage_h(&aggregated(job, x, &rows).phi, s);
    let norms = digits_norms(p, &t, &g, &h);
    let answer = if let Some(i) = s.iter().position(|s| elements_norm(s) > p.bounds[0]) {
        Answer::refused(13, i)
    } else if let Some(k) = (0..3).find(|&k| norms[k] > p.bounds[1 + k]) {
        Answer::refused(14 + k as u32, 0)
    } else {
        Answer::FINE
    };
    let made = Transcript {
        u1: outer_u1(job, &t, &g),
        p: projection(&x.projection, s),
        b2: rows.iter().map(|row| left_side(row, s, &g)).collect(),
        u2: outer_u2(job, &h),
        z: amortized(x, p.n, s),
        t,
        g,
        h,
    };
    (made, answer)
}

/// The answer of a call and the words of its output, from the whole prover's: a round refuses what the whole call
/// refuses up to that point.
pub fn part(call: Call, made: &Transcript, answer: Answer) -> (Answer, Vec<u32>) {
    let (first, past) = call.output_sections();
    let words = join(&made.sections()[first..past]);
    let reached = match call {
        Call::Round(1..=3) => 15,
        _ => 16,
    };
    if answer.number > 0 && answer.number <= reached {
        (answer, vec![0; words.len()])
    } else {
        (Answer::FINE, words)
    }
}

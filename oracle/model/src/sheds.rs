//! Document 02, Item 10: "a run of witness vectors, from index first up to but not including end".

use crate::formulas::{apply, elements_norm, projection};
use crate::leaves::{add, below, Q};
use crate::refusals::{fine, job, layout};
use crate::words::*;
use crate::Answer;

/// What a run call is handed; the projection words only where it takes them.
#[derive(Clone, Copy)]
pub struct Run<'a> {
    pub job: &'a [u32],
    pub first: u32,
    pub end: u32,
    pub projection: Option<&'a [u32]>,
    pub vectors: &'a [u32],
    pub scratch: usize,
    pub output: usize,
}

/// An answer and, where the work was reached, the first words of the output; scratch is then zero to the length needed.
pub type Made = (Answer, Option<Vec<u32>>);

/// One section after its count, refused by a number where its layout is wrong and by the next where a word is at or above Q.
fn section(number: u32, words: &[u32], count: usize) -> Result<(), Answer> {
    layout(number, words, &[count])?;
    fine(below(Q, number + 1, 0, words))
}

fn lent(number: u32, length: usize, need: usize) -> Result<(), Answer> {
    if length < need {
        Err(Answer::refused(number, need))
    } else {
        Ok(())
    }
}

/// The parameters and the length of the run, or the refusal: 34 "after the job's refusals; then come 7 and 8 […], 11 and 12
/// on its vectors, 1, 2".
fn fit(run: Run, output: impl Fn(&Parameters, usize) -> usize) -> Result<(Parameters, usize), Answer> {
    let p = job(run.job)?;
    if run.end <= run.first || run.end as usize > p.r {
        return Err(Answer::refused(34, run.first as usize));
    }
    let length = (run.end - run.first) as usize;
    if let Some(words) = run.projection {
        section(7, words, 16384 * p.n * length)?;
    }
    section(11, run.vectors, 64 * p.n * length)?;
    lent(1, run.scratch, p.scratch_need())?;
    lent(2, run.output, output(&p, length))?;
    Ok((p, length))
}

/// "gives that run's p".
pub fn shed_projection(run: Run) -> Made {
    let p = match fit(run, |_, _| 257) {
        Ok((p, _)) => p,
        Err(answer) => return (answer, None),
    };
    let words = run.projection.expect("the call takes projection words");
    let made = projection(&read_projection(&p, &words[1..]), &read_witness(&p, run.vectors));
    (Answer::FINE, Some(join(&[made])))
}

/// The run's rows of t; "for t also 13, its i counted over the whole job".
pub fn shed_rows(run: Run) -> Made {
    let (p, length) = match fit(run, |p, length| 1 + 64 * p.kappa * length) {
        Ok(fit) => fit,
        Err(answer) => return (answer, None),
    };
    let s = read_witness(&p, run.vectors);
    if let Some(i) = s.iter().position(|s| elements_norm(s) > p.bounds[0]) {
        let zeros = vec![0; 1 + 64 * p.kappa * length];
        return (Answer::refused(13, run.first as usize + i), Some(zeros));
    }
    let matrices = Job::read(run.job).matrices;
    let rows: Vec<u32> = s.iter().flat_map(|s| flat(&apply(&matrices[0], s))).collect();
    (Answer::FINE, Some(join(&[rows])))
}

/// "another adds two such p", refusing "by 9 and 10, the first p before the second, then by 2". It has no scratch.
pub fn add_projections(p: &[u32], other: &[u32], output: usize) -> Made {
    let fit = || {
        section(9, p, ROWS)?;
        section(9, other, ROWS)?;
        lent(2, output, 1 + ROWS)
    };
    if let Err(answer) = fit() {
        return (answer, None);
    }
    let sum = p[1..].iter().zip(&other[1..]).map(|(&a, &b)| add(a, b)).collect();
    (Answer::FINE, Some(join(&[sum])))
}

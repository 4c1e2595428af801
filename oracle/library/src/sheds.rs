//! The calls on a run of witness vectors.

use crate::ffi;
use model::Answer;

/// What a run call is handed; the projection words only where it takes them.
pub struct Run<'a> {
    pub job: &'a [u32],
    pub first: u32,
    pub end: u32,
    pub projection: Option<&'a [u32]>,
    pub vectors: &'a [u32],
    pub scratch: &'a mut [u32],
    pub output: &'a mut [u32],
}

/// The run's p, or its rows of t where it is handed no projection words.
pub fn run(run: Run) -> Answer {
    ffi::shed(run.job, [run.first, run.end], run.projection, run.vectors, run.scratch, run.output).into()
}

pub fn add(p: &[u32], other: &[u32], output: &mut [u32]) -> Answer {
    ffi::add_projections(p, other, output).into()
}

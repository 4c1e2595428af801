//! A run of witness vectors: what one shed's machine is handed and gives, and two p added.

use crate::ffi;
use crate::handed::Handed;
use crate::needs::{buffer, scratch_need};
use crate::refusal::Refusal;
use crate::rounds::{round_into, Round};
use crate::section_one::SectionOne;
use crate::sections::Placed;

/// The words of a p, its count included.
pub const PROJECTION_NEED: u64 = 257;

/// A run of witness vectors, from index `first` up to but not including `end`, counted from 0.
#[derive(Clone, Copy, Debug, PartialEq, Eq)]
pub struct Run {
    pub first: u32,
    pub end: u32,
}

/// What a run takes of a whole randomness and a whole witness: one section each, after its count.
#[derive(Clone, Debug, PartialEq, Eq)]
pub struct RunParts {
    pub projection: Vec<u32>,
    pub vectors: Vec<u32>,
}

impl Run {
    /// How many vectors it has; 0 where its end is at or below its first index.
    fn length(self) -> u32 {
        self.end.saturating_sub(self.first)
    }

    /// The sections of a whole slice as a run has them: its own vectors, counted from the run's first.
    pub(crate) fn sections(self, whole: Vec<Placed>) -> Vec<Placed> {
        let of_run = |mut placed: Placed| {
            for axis in placed.section.axes.iter_mut().filter(|axis| axis.name == "vector") {
                axis.name = "vector of the run";
                axis.length = self.length().into();
            }
            placed
        };
        whole.into_iter().map(of_run).collect()
    }

    /// The run's projection words and vectors, taken out of a whole randomness and a whole witness. Refused as round 2 is,
    /// then with 34.
    pub fn parts(self, job: &[u32], randomness: &[u32], witness: &[u32]) -> Result<RunParts, Refusal> {
        let projection = Round::Two.randomness(randomness);
        // no scratch is lent, so round 2 ends with its refusal 1 where the slices are fit
        match round_into(Round::Two, job, projection, witness, &mut [], &mut []) {
            Err(Refusal::Scratch { .. }) => {}
            Err(refusal) => return Err(refusal),
            Ok(()) => unreachable!("a round needs scratch"),
        }
        self.inside(job)?;
        let part = |words: &[u32]| {
            let r = SectionOne::read(job).expect("the job is fit").parameters.r as usize;
            let each = (words.len() - 1) / r;
            let words = &words[1 + each * self.first as usize..1 + each * self.end as usize];
            [&[words.len() as u32], words].concat()
        };
        Ok(RunParts { projection: part(projection), vectors: part(witness) })
    }

    /// 34, or the job's refusal.
    fn inside(self, job: &[u32]) -> Result<(), Refusal> {
        let answer = ffi::shed(job, [self.first, self.end], None, &[], &mut [], &mut []);
        match answer.number {
            // no vectors are handed in, which comes after 34
            11 => Ok(()),
            number => Err(Handed { job, run: Some(self), ..Handed::default() }.refusal(number, answer.place)),
        }
    }

    /// The words of output that the run's rows of t need with this job, or the refusal of the job or of the run.
    pub fn rows_need(self, job: &[u32]) -> Result<u64, Refusal> {
        self.inside(job)?;
        let p = SectionOne::read(job).expect("the job is fit").parameters;
        Ok(1 + 64 * u64::from(p.kappa) * u64::from(self.length()))
    }
}

fn call(
    job: &[u32],
    run: Run,
    projection: Option<&[u32]>,
    vectors: &[u32],
    scratch: &mut [u32],
    output: &mut [u32],
) -> Result<(), Refusal> {
    let answer = ffi::shed(job, [run.first, run.end], projection, vectors, scratch, output);
    let handed = Handed {
        job,
        randomness: projection.unwrap_or_default(),
        randomness_sections: 1,
        witness: vectors,
        run: Some(run),
        scratch: scratch.len(),
        output: output.len(),
        ..Handed::default()
    };
    match answer.number {
        0 => Ok(()),
        number => Err(handed.refusal(number, answer.place)),
    }
}

/// The run's p into the first [`PROJECTION_NEED`] words of `output`, by [`scratch_need`] words of lent scratch.
pub fn shed_projection_into(
    job: &[u32],
    run: Run,
    projection: &[u32],
    vectors: &[u32],
    scratch: &mut [u32],
    output: &mut [u32],
) -> Result<(), Refusal> {
    call(job, run, Some(projection), vectors, scratch, output)
}

/// The run's p. The p of runs that part 0 to r, added in any order, are round 2's output.
///
/// ```
/// use labrador::{add_projections, load, round, shed_projection, Parameters, Round, Run};
///
/// let load = load(&Parameters::SMALL, 1)?;
/// let of_run = |first, end| {
///     let run = Run { first, end };
///     let parts = run.parts(&load.job, &load.randomness, &load.witness)?;
///     shed_projection(&load.job, run, &parts.projection, &parts.vectors)
/// };
/// let sum = add_projections(&of_run(2, 3)?, &of_run(0, 2)?)?;
/// assert_eq!(sum, round(Round::Two, &load.job, Round::Two.randomness(&load.randomness), &load.witness)?);
/// # Ok::<(), labrador::Refusal>(())
/// ```
pub fn shed_projection(job: &[u32], run: Run, projection: &[u32], vectors: &[u32]) -> Result<Vec<u32>, Refusal> {
    let mut scratch = buffer(scratch_need(job)?);
    let mut output = buffer(PROJECTION_NEED);
    shed_projection_into(job, run, projection, vectors, &mut scratch, &mut output)?;
    Ok(output)
}

/// The run's rows of t into the first [`Run::rows_need`] words of `output`, by [`scratch_need`] words of lent scratch.
pub fn shed_rows_into(
    job: &[u32],
    run: Run,
    vectors: &[u32],
    scratch: &mut [u32],
    output: &mut [u32],
) -> Result<(), Refusal> {
    call(job, run, None, vectors, scratch, output)
}

/// The run's rows of t. The rows of runs that part 0 to r, without their counts, by rising index, are section t's words.
pub fn shed_rows(job: &[u32], run: Run, vectors: &[u32]) -> Result<Vec<u32>, Refusal> {
    let mut scratch = buffer(scratch_need(job)?);
    let mut output = buffer(run.rows_need(job)?);
    shed_rows_into(job, run, vectors, &mut scratch, &mut output)?;
    Ok(output)
}

/// The sum of two p into the first [`PROJECTION_NEED`] words of `output`.
pub fn add_projections_into(p: &[u32], other: &[u32], output: &mut [u32]) -> Result<(), Refusal> {
    let answer = ffi::add_projections(p, other, output);
    match answer.number {
        0 => Ok(()),
        2 => Err(Refusal::Output { buffer: "output", needed: answer.place, lent: output.len() as u64 }),
        number => {
            // the answer does not tell which: with itself and no output, a fit p is a 2
            let first_is_fit = ffi::add_projections(p, p, &mut []).number == 2;
            let (which, words) = if first_is_fit { ("second", other) } else { ("first", p) };
            let found = usize::try_from(answer.place).ok().and_then(|k| words.get(k)).copied();
            Err(Refusal::Projection { number, which, place: answer.place, length: words.len() as u64, found })
        }
    }
}

/// The sum of two p.
pub fn add_projections(p: &[u32], other: &[u32]) -> Result<Vec<u32>, Refusal> {
    let mut output = buffer(PROJECTION_NEED);
    add_projections_into(p, other, &mut output)?;
    Ok(output)
}

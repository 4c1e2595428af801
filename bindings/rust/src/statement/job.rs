//! The job of a statement, and what a job states in words.

use std::error::Error;
use std::fmt;

use super::seed::MATRICES;
use super::total::{word, Total};
use super::{Said, Seed, Statement};
use crate::needs::output_need;
use crate::place::{expected, Place};
use crate::refusal::Refusal;
use crate::review::Kind;
use crate::section_one::{SectionOne, COUNT};
use crate::sections::{placed, words_of, Slice};

impl Statement {
    /// The job: a' is zero, and a, phi and b are empty.
    pub fn job(&self) -> Vec<u32> {
        let p = self.parameters();
        let mut job = Vec::with_capacity(Slice::Job.length(p) as usize);
        let mut drawn = self.seed().words();
        for section in Slice::Job.sections(p) {
            let count = section.count() as usize;
            job.push(count as u32);
            match section.name {
                "parameters" => job.extend(self.section_one()),
                "phi'" => self.totals().iter().for_each(|total| job.extend(total.phi(p))),
                "b0" => job.extend(self.totals().iter().map(|total| word(total.right))),
                name if MATRICES.contains(&name) => job.extend(drawn.by_ref().take(count)),
                _ => job.resize(job.len() + count, 0),
            }
        }
        job
    }

    fn section_one(&self) -> [u32; COUNT] {
        let bounds = self.bounds().iter().flat_map(|bound| (0..3).map(move |k| (bound >> (32 * k)) as u32));
        let mut words = self.parameters().words().into_iter().chain(bounds);
        std::array::from_fn(|_| words.next().expect("section one has its words"))
    }
}

/// A constraint that is no total.
#[derive(Clone, Copy, Debug, PartialEq, Eq)]
pub struct NoTotal {
    pub kind: Kind,
    pub index: u64,
    /// The first word that makes it none.
    pub at: u64,
}

/// Why a job is no statement.
#[derive(Clone, Debug, PartialEq, Eq)]
pub enum NoStatement {
    Refused(Refusal),
    /// Constraints that are no totals.
    Constraints(Vec<NoTotal>),
    /// The first word of A to D that is not the seed's.
    Matrices(Place),
}

/// What each constraint of a job says: a total, or why it is none. Those on constant terms come first.
pub fn totals(job: &[u32]) -> Result<Vec<Result<Total, NoTotal>>, Refusal> {
    output_need(job)?;
    let p = SectionOne::read(job).expect("the job is fit").parameters;
    let sections = placed(Slice::Job, &p);
    let begin = |name: &str| sections.iter().find(|s| s.section.name == name).map_or(0, |s| s.begin());
    let [a, phi, b_0] = ["a'", "phi'", "b0"].map(|name| words_of(Slice::Job, &p, name, job));
    let constant_term = |k: usize| {
        let (cells, lines) = (64 * p.triangle() as usize, (64 * p.r * p.n) as usize);
        match a[k * cells..(k + 1) * cells].iter().position(|&word| word != 0) {
            Some(at) => {
                let at = begin("a'") + (k * cells + at) as u64;
                Err(NoTotal { kind: Kind::ConstantTerm, index: k as u64, at })
            }
            None => Ok(Total::of_words(&p, &phi[k * lines..(k + 1) * lines], b_0[k])),
        }
    };
    let ring = |k: u64| {
        let at = begin("a") + k * 64 * p.triangle();
        Err(NoTotal { kind: Kind::Ring, index: k, at })
    };
    Ok((0..p.l as usize).map(constant_term).chain((0..u64::from(p.K)).map(ring)).collect())
}

impl Said {
    /// What a job states, where every constraint is a total.
    pub fn of_job(job: &[u32]) -> Result<Said, NoStatement> {
        let (mut all, mut none) = (Vec::new(), Vec::new());
        for constraint in totals(job).map_err(NoStatement::Refused)? {
            match constraint {
                Ok(total) => all.push(total),
                Err(no_total) => none.push(no_total),
            }
        }
        if !none.is_empty() {
            return Err(NoStatement::Constraints(none));
        }
        let one = SectionOne::read(job).expect("the job is fit");
        Ok(Said::new(one.parameters, one.bounds, all))
    }
}

impl Statement {
    /// The statement of a job whose matrices are those of this seed. Its job is the same, word for word.
    pub fn of_job(job: &[u32], seed: Seed) -> Result<Statement, NoStatement> {
        let said = Said::of_job(job)?;
        match seed.first_difference(&said.parameters, job) {
            Some(at) => {
                let sections = expected(Slice::Job, job, usize::MAX);
                Err(NoStatement::Matrices(Place::of(Slice::Job, job, at, &sections)))
            }
            None => Ok(said.seeded(seed)),
        }
    }
}

impl fmt::Display for NoTotal {
    fn fmt(&self, f: &mut fmt::Formatter<'_>) -> fmt::Result {
        let NoTotal { kind, index, at } = self;
        match kind {
            Kind::ConstantTerm => {
                write!(f, "{kind} {index} is no total: it has quadratic coefficients (from word {at})")
            }
            Kind::Ring => write!(f, "{kind} {index} is no total (from word {at})"),
        }
    }
}

impl fmt::Display for NoStatement {
    fn fmt(&self, f: &mut fmt::Formatter<'_>) -> fmt::Result {
        match self {
            NoStatement::Refused(refusal) => refusal.fmt(f),
            NoStatement::Constraints(none) => {
                let told: Vec<String> = none.iter().map(NoTotal::to_string).collect();
                f.write_str(&told.join("; "))
            }
            NoStatement::Matrices(place) => {
                write!(f, "A to D are not those of the seed: word {} is another ({})", place.index, place.spot)
            }
        }
    }
}

impl Error for NoStatement {}

//! Whether a job is that of a statement file.

use std::path::Path;

use labrador::section_one::SectionOne;
use labrador::statement::Statement;
use labrador::{expected, Place, Slice};

use crate::end::End;
use crate::shown;
use crate::texts;

/// A statement with the name of its file.
pub struct Given<'a> {
    pub path: &'a Path,
    pub statement: Statement,
}

/// How a job stands to a statement, in sentences; the last is of the whole job.
pub struct Compared {
    /// Whether the job is the statement's, word for word.
    pub same: bool,
    pub told: Vec<String>,
}

/// Where two jobs differ first.
fn first_difference(job: &[u32], other: &[u32]) -> Option<usize> {
    let at = job.iter().zip(other).position(|(word, other)| word != other);
    at.or((job.len() != other.len()).then_some(job.len().min(other.len())))
}

impl Given<'_> {
    pub fn read(path: &Path) -> Result<Given<'_>, End> {
        Ok(Given { path, statement: texts::statement(path)? })
    }

    /// How a fit job stands to the statement.
    pub fn compared(&self, job: &[u32]) -> Compared {
        let sections = expected(Slice::Job, job, usize::MAX);
        let spot = |at: u64| Place::of(Slice::Job, job, at, &sections).spot;
        let p = SectionOne::read(job).expect("the job is fit").parameters;
        let matrices = match self.statement.seed().first_difference(&p, job) {
            None => "A to D are those of the seed".to_string(),
            Some(at) => format!("A to D are not those of the seed: word {at} is another ({})", spot(at)),
        };
        let difference = first_difference(job, &self.statement.job());
        let (shown, same) = (shown::name(self.path), difference.is_none());
        let whole = match difference {
            None => format!("the job is that of {shown}"),
            Some(at) => format!("the job is not that of {shown}: word {at} is another ({})", spot(at as u64)),
        };
        Compared { same, told: vec![matrices, whole] }
    }
}

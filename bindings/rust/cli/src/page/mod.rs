//! The verdict as a page to file: one file, no scripts, nothing from elsewhere, no clock. It reads printed on A4, without colour, on a
//! small screen and aloud.

use std::path::Path;

use labrador::section_one::SectionOne;
use labrador::{Slice, Verdict};

use crate::filed::Filed;
use crate::stated::Compared;
use crate::worth::Told;

mod checks;
mod findings;
mod html;
pub mod many;
mod mistyped;
mod norms;
mod place;
pub mod record;
mod stated;
mod style;
mod tables;
mod verdict;

/// What the page tells of.
pub struct Report<'a> {
    /// The files of the job, the randomness and the transcript.
    pub names: [&'a Path; 3],
    pub slices: [&'a [u32]; 3],
    pub verdict: &'a Verdict,
    /// What is said of the job, where it is fit.
    pub job: Option<&'a Told>,
    /// What is to be told of the randomness.
    pub warnings: &'a [String],
    /// How the job stands to a statement file, where one was handed in.
    pub compared: Option<&'a Compared>,
    pub filed: &'a Filed,
}

/// The slices in the order of a report.
pub const SLICES: [Slice; 3] = [Slice::Job, Slice::Randomness, Slice::Transcript];

impl Report<'_> {
    /// The refusal's number where nothing was worked out: the slices were unfit.
    fn before_work(&self) -> bool {
        matches!(self.verdict.number(), 1..=12)
    }

    /// Whether a statement file was handed in whose job is another.
    fn is_other(&self) -> bool {
        self.compared.is_some_and(|compared| !compared.same)
    }

    /// Section one, where its words are within their limits.
    fn section_one(&self) -> Option<SectionOne> {
        SectionOne::read(self.slices[0]).filter(|one| one.parameters.within_limits())
    }

    fn words(&self, slice: Slice) -> &[u32] {
        let at = SLICES.iter().position(|s| *s == slice);
        at.map_or(&[], |k| self.slices[k])
    }
}

/// The parts of the page, each begun on a sheet of its own in print: what is filed and signed, how it was judged, and what it was judged by.
fn parts(report: &Report) -> [String; 3] {
    let beside = [place::around(report), norms::bars(report), findings::list(report)].concat();
    let files = [0, 1, 2].map(|k| record::file(SLICES[k], report.names[k], report.slices[k]));
    [
        [
            verdict::header(report),
            stated::list(report),
            mistyped::list(report),
            record::list(report.filed, &files),
            record::signature(),
        ]
        .concat(),
        html::pair(&checks::list(report), &beside),
        [tables::parameters(report), tables::sections(report), verdict::footer()].concat(),
    ]
}

pub fn page(report: &Report) -> String {
    html::document(&verdict::title(report), &parts(report).map(|part| html::part(&part)).concat())
}

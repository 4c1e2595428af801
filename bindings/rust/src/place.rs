//! Where in a slice a refusal points, told as a person would: section, constraint, vector, element, coefficient.

use std::fmt;

use crate::section_one::{self, Parameters, SectionOne};
use crate::sections::{placed, Placed, Slice};

/// A place in a slice.
#[derive(Clone, Debug, PartialEq, Eq)]
pub struct Place {
    pub slice: Slice,
    /// The word's index, from 0; the slice's length where it ends early.
    pub index: u64,
    /// The word there, if there is one.
    pub found: Option<u32>,
    pub spot: Spot,
}

/// What stands, or should stand, at a place.
#[derive(Clone, Debug, PartialEq, Eq)]
pub enum Spot {
    /// The count of a section.
    Count { section: &'static str, expected: u64 },
    /// A word of a section, by its axes: `constraint 2`, `vector 1`, `element 0`, `coefficient 17`.
    Word { section: &'static str, axes: Vec<(&'static str, String)> },
    /// Behind the last section.
    Surplus { last: Option<&'static str> },
    /// Nothing is known of it: the job's parameters are unfit.
    Unknown,
}

/// The sections that a slice should have, as far as the job tells: section one alone where its words are unfit.
pub fn expected(slice: Slice, job: &[u32], sections: usize) -> Vec<Placed> {
    let known = SectionOne::read(job).map(|one| one.parameters);
    match known.filter(Parameters::within_limits) {
        Some(p) => placed(slice, &p).into_iter().take(sections).collect(),
        None if slice == Slice::Job => placed(slice, &Parameters::SMALL).into_iter().take(1).collect(),
        None => Vec::new(),
    }
}

impl Place {
    /// Word `index` of a slice whose sections should be these.
    pub fn of(slice: Slice, words: &[u32], index: u64, sections: &[Placed]) -> Place {
        let found = usize::try_from(index).ok().and_then(|k| words.get(k)).copied();
        let spot = match sections.iter().find(|s| index < s.end()) {
            Some(s) if index == s.count_at => Spot::Count { section: s.section.name, expected: s.section.count() },
            Some(s) => Spot::Word { section: s.section.name, axes: s.section.told(index - s.begin()) },
            None if sections.is_empty() && slice != Slice::Randomness => Spot::Unknown,
            None => Spot::Surplus { last: sections.last().map(|s| s.section.name) },
        };
        Place { slice, index, found, spot }
    }

    /// The name of the parameter at a place of section one.
    pub fn parameter(&self) -> Option<&'static section_one::Parameter> {
        let index = usize::try_from(self.index).ok()?;
        section_one::PARAMETERS.get(index.checked_sub(1)?)
    }

    /// What is wrong with the layout at this place.
    pub(crate) fn layout_fault(&self) -> String {
        let slice = self.slice.name();
        match (&self.spot, self.found) {
            (Spot::Count { section, expected }, Some(found)) => {
                let index = self.index;
                format!("the {slice}'s word {index} is {found}, and the count of section {section} is {expected}")
            }
            (Spot::Count { section, .. }, None) => {
                format!("the {slice} ends after {} words, before the count of section {section}", self.index)
            }
            (Spot::Word { section, .. }, _) => {
                format!("the {slice} ends after {} words, within section {section}", self.index)
            }
            (Spot::Surplus { last }, _) => {
                let behind = match last {
                    Some(last) => format!("behind its last section, {last}"),
                    None => "and should have no words".to_string(),
                };
                format!("the {slice} goes on at word {}, {behind}", self.index)
            }
            (Spot::Unknown, _) => format!("the {slice}'s word {}", self.index),
        }
    }

    /// What is wrong with the word at this place.
    pub(crate) fn word_fault(&self, fault: &str) -> String {
        let slice = self.slice.name();
        let found = self.found.map_or_else(String::new, |word| format!(" is {word},"));
        format!("the {slice}'s word {}{found} {fault} ({})", self.index, self.spot)
    }
}

impl fmt::Display for Spot {
    fn fmt(&self, f: &mut fmt::Formatter<'_>) -> fmt::Result {
        match self {
            Spot::Count { section, expected } => write!(f, "count of section {section}, {expected}"),
            Spot::Word { section, axes } => {
                write!(f, "section {section}")?;
                axes.iter().try_for_each(|(axis, number)| write!(f, ", {axis} {number}"))
            }
            Spot::Surplus { .. } => write!(f, "behind the last section"),
            Spot::Unknown => write!(f, "the sections are not known"),
        }
    }
}

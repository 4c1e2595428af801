//! The sections of the four slices: their names, what stands in them, and their counts.

use crate::section_one::{self, Parameters};

mod tables;

/// A slice of words that a call is handed.
#[derive(Clone, Copy, Debug, PartialEq, Eq)]
pub enum Slice {
    Job,
    Randomness,
    Witness,
    Transcript,
}

impl Slice {
    pub const ALL: [Slice; 4] = [Slice::Job, Slice::Randomness, Slice::Witness, Slice::Transcript];

    pub fn name(self) -> &'static str {
        match self {
            Slice::Job => "job",
            Slice::Randomness => "randomness",
            Slice::Witness => "witness",
            Slice::Transcript => "transcript",
        }
    }

    /// Its sections in a job of these parameters, which are within their limits.
    pub fn sections(self, p: &Parameters) -> Vec<Section> {
        match self {
            Slice::Job => tables::job(p),
            Slice::Randomness => tables::randomness(p),
            Slice::Witness => tables::witness(p),
            Slice::Transcript => tables::transcript(p),
        }
    }

    /// Its length in words, counts included.
    pub fn length(self, p: &Parameters) -> u64 {
        self.sections(p).iter().map(|s| 1 + s.count()).sum()
    }

    /// The most words that it has in any job.
    pub fn greatest_length(self) -> u64 {
        self.length(&Parameters::from_words(section_one::PARAMETERS.map(|p| p.greatest)))
    }
}

/// What counts a part of a section: constraints, vectors, elements, coefficients.
#[derive(Clone, Copy, Debug, PartialEq, Eq)]
pub struct Axis {
    pub name: &'static str,
    pub length: u64,
}

/// A section of a slice.
#[derive(Clone, Debug, PartialEq, Eq)]
pub struct Section {
    pub name: &'static str,
    pub meaning: &'static str,
    /// Outermost first; their lengths multiply to the count.
    pub axes: Vec<Axis>,
}

impl Section {
    pub fn count(&self) -> u64 {
        self.axes.iter().map(|a| a.length).product()
    }

    /// What word `index` of the section is: `constraint 2, vector 1, element 0, coefficient 17`.
    pub fn told(&self, index: u64) -> Vec<(&'static str, String)> {
        let mut rest = index;
        let mut told = Vec::new();
        for axis in self.axes.iter().rev().filter(|a| a.length > 0) {
            told.push((axis.name, axis_number(axis.name, rest % axis.length)));
            rest /= axis.length;
        }
        told.reverse();
        told
    }
}

/// A number on an axis: a cell of a triangle by row and column, a word of section one by its name, others as they are.
fn axis_number(axis: &str, k: u64) -> String {
    match axis {
        tables::CELL => {
            let row = (0..).take_while(|i| i * (i + 1) / 2 <= k).last().unwrap_or(0);
            format!("({row},{})", k - row * (row + 1) / 2)
        }
        tables::FIELD => section_one::name_of(k as usize + 1).unwrap_or_default(),
        _ => k.to_string(),
    }
}

/// A section in its place.
#[derive(Clone, Debug, PartialEq, Eq)]
pub struct Placed {
    pub section: Section,
    /// Where its count stands; its words follow.
    pub count_at: u64,
}

impl Placed {
    /// Where its words begin.
    pub fn begin(&self) -> u64 {
        self.count_at + 1
    }

    /// Where its words end: the place after the last.
    pub fn end(&self) -> u64 {
        self.begin() + self.section.count()
    }

    /// The section's words in a slice of the right layout.
    pub fn words<'a>(&self, slice: &'a [u32]) -> &'a [u32] {
        &slice[self.begin() as usize..self.end() as usize]
    }
}

/// The sections of a slice with their places.
pub fn placed(slice: Slice, p: &Parameters) -> Vec<Placed> {
    let mut count_at = 0;
    let place = |section: Section| {
        let placed = Placed { section, count_at };
        count_at = placed.end();
        placed
    };
    slice.sections(p).into_iter().map(place).collect()
}

/// The words of the section of this name in a slice of the right layout.
pub fn words_of<'a>(slice: Slice, p: &Parameters, name: &str, words: &'a [u32]) -> &'a [u32] {
    let all = placed(slice, p);
    let found = all.iter().find(|s| s.section.name == name).expect("a section of the slice");
    found.words(words)
}

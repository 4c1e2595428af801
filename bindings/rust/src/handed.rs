//! What a call was handed, by which a refusal's number and place are told.

use crate::norms;
use crate::place::{expected, Place};
use crate::refusal::Refusal;
use crate::section_one::SectionOne;
use crate::sections::{words_of, Slice};
use crate::sheds::Run;

/// The slices and the lent lengths of a call; what it does not take is empty.
#[derive(Clone, Copy, Default)]
pub(crate) struct Handed<'a> {
    pub job: &'a [u32],
    pub randomness: &'a [u32],
    /// The sections of the randomness that the call takes.
    pub randomness_sections: usize,
    pub witness: &'a [u32],
    /// Of a call on a run: its projection words stand in the randomness's place, its vectors in the witness's.
    pub run: Option<Run>,
    pub transcript: &'a [u32],
    pub scratch: usize,
    pub output: usize,
}

impl Handed<'_> {
    /// The refusal of this number and place.
    pub fn refusal(&self, number: u32, place: u64) -> Refusal {
        match number {
            1 => Refusal::Scratch { needed: place, lent: self.scratch as u64 },
            2 => Refusal::Output { buffer: "output", needed: place, lent: self.output as u64 },
            3 => Refusal::JobLayout(self.place(Slice::Job, place)),
            4 => Refusal::Parameter(self.place(Slice::Job, place)),
            5 => Refusal::Aggregations {
                place: self.place(Slice::Job, place),
                parameters: self.section_one().parameters,
            },
            6 => Refusal::JobWord(self.place(Slice::Job, place)),
            7 => Refusal::RandomnessLayout(self.place(Slice::Randomness, place)),
            8 => Refusal::RandomnessWord(self.place(Slice::Randomness, place)),
            9 => Refusal::TranscriptLayout(self.place(Slice::Transcript, place)),
            10 => Refusal::TranscriptWord(self.place(Slice::Transcript, place)),
            11 => Refusal::WitnessLayout(self.place(Slice::Witness, place)),
            12 => Refusal::WitnessWord(self.place(Slice::Witness, place)),
            13 => self.witness_norm(place),
            14 => Refusal::DigitsOfT,
            15 => Refusal::DigitsOfG,
            16 => Refusal::DigitsOfH,
            34 => self.outside_run(),
            _ => unreachable!("the calls on whole slices refuse with 1 to 16, and those on a run with 34"),
        }
    }

    fn section_one(&self) -> SectionOne {
        SectionOne::read(self.job).expect("section one was read by the call")
    }

    fn place(&self, slice: Slice, index: u64) -> Place {
        let (words, sections) = match slice {
            Slice::Job => (self.job, usize::MAX),
            Slice::Randomness => (self.randomness, self.randomness_sections),
            Slice::Witness => (self.witness, usize::MAX),
            Slice::Transcript => (self.transcript, usize::MAX),
        };
        let whole = expected(slice, self.job, sections);
        let sections = match self.run {
            Some(run) if slice != Slice::Job => run.sections(whole),
            _ => whole,
        };
        Place::of(slice, words, index, &sections)
    }

    fn outside_run(&self) -> Refusal {
        let run = self.run.expect("34 is of a call on a run");
        Refusal::OutsideRun { run, vectors: self.section_one().parameters.r }
    }

    fn witness_norm(&self, vector: u64) -> Refusal {
        let one = self.section_one();
        let length = 64 * one.parameters.n as usize;
        let (words, first) = match self.run {
            Some(run) => (&self.witness[1..], run.first),
            None => (words_of(Slice::Witness, &one.parameters, "witness", self.witness), 0),
        };
        let begin = (vector as usize - first as usize) * length;
        let norm = norms::norm_of(&words[begin..begin + length]).unwrap_or_default();
        Refusal::WitnessNorm { vector, norm, bound: one.bound("bound_A") }
    }
}

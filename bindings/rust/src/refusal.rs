//! Refusals: unfit input, with the place told in words.

use std::error::Error;
use std::fmt;

use crate::meaning::{meaning, Meaning};
use crate::number::{not_below, HALF, Q};
use crate::place::Place;
use crate::section_one::Parameters;
use crate::sheds::Run;

/// A refusal of a call, one case for each number of document 01's and document 02's lists.
#[derive(Clone, Debug, PartialEq, Eq)]
pub enum Refusal {
    /// 1
    Scratch { needed: u64, lent: u64 },
    /// 2: of the output, or of a load's job, witness or randomness.
    Output { buffer: &'static str, needed: u64, lent: u64 },
    /// 3
    JobLayout(Place),
    /// 4
    Parameter(Place),
    /// 5
    Aggregations { place: Place, parameters: Parameters },
    /// 6
    JobWord(Place),
    /// 7
    RandomnessLayout(Place),
    /// 8
    RandomnessWord(Place),
    /// 9
    TranscriptLayout(Place),
    /// 10
    TranscriptWord(Place),
    /// 11
    WitnessLayout(Place),
    /// 12
    WitnessWord(Place),
    /// 13: the first such vector, its norm, and A's bound.
    WitnessNorm { vector: u64, norm: u128, bound: u128 },
    /// 14
    DigitsOfT,
    /// 15
    DigitsOfG,
    /// 16
    DigitsOfH,
    /// 4, 6, 8 or 31 of a call on numbers, an element or a challenge: the place among its operands' words.
    Operand { number: u32, place: u64, found: u32 },
    /// 11 of the call on ranges: a list of another length than 64·r·n.
    RangesLength { list: &'static str, place: u64, found: u64, expected: u64 },
    /// 32 of the call on mistyped constants: the verdict is no failed check 22.
    NotCheck22,
    /// 33: no constant alone mends check 22.
    NothingMends,
    /// 34: a run that is empty or goes past the job's vectors.
    OutsideRun { run: Run, vectors: u32 },
    /// 35: a number of transcripts outside 1 to 8.
    TranscriptCount { count: u64 },
    /// 9 or 10 of the call that adds two p: which of them, its length, and the word at the place.
    Projection { number: u32, which: &'static str, place: u64, length: u64, found: Option<u32> },
    /// 36: the first pair whose low is above its high.
    Crossed { pair: u64, low: i64, high: i64 },
    /// 37: the first pair with a number beyond ±[`HALF`].
    Beyond { pair: u64, low: i64, high: i64 },
}

impl Refusal {
    pub fn number(&self) -> u32 {
        match self {
            Refusal::Scratch { .. } => 1,
            Refusal::Output { .. } => 2,
            Refusal::JobLayout(_) => 3,
            Refusal::Parameter(_) => 4,
            Refusal::Aggregations { .. } => 5,
            Refusal::JobWord(_) => 6,
            Refusal::RandomnessLayout(_) => 7,
            Refusal::RandomnessWord(_) => 8,
            Refusal::TranscriptLayout(_) => 9,
            Refusal::TranscriptWord(_) => 10,
            Refusal::WitnessLayout(_) | Refusal::RangesLength { .. } => 11,
            Refusal::WitnessWord(_) => 12,
            Refusal::WitnessNorm { .. } => 13,
            Refusal::DigitsOfT => 14,
            Refusal::DigitsOfG => 15,
            Refusal::DigitsOfH => 16,
            Refusal::Operand { number, .. } => *number,
            Refusal::NotCheck22 => 32,
            Refusal::NothingMends => 33,
            Refusal::OutsideRun { .. } => 34,
            Refusal::TranscriptCount { .. } => 35,
            Refusal::Projection { number, .. } => *number,
            Refusal::Crossed { .. } => 36,
            Refusal::Beyond { .. } => 37,
        }
    }

    /// The place as the call gives it: a word's index, a length needed, a vector's, a run's or a pair's index, or 0.
    pub fn place(&self) -> u64 {
        match self {
            Refusal::Scratch { needed, .. } | Refusal::Output { needed, .. } => *needed,
            Refusal::WitnessNorm { vector, .. } => *vector,
            Refusal::DigitsOfT | Refusal::DigitsOfG | Refusal::DigitsOfH => 0,
            Refusal::NotCheck22 | Refusal::NothingMends | Refusal::TranscriptCount { .. } => 0,
            Refusal::OutsideRun { run, .. } => run.first.into(),
            Refusal::Operand { place, .. } | Refusal::RangesLength { place, .. } => *place,
            Refusal::Projection { place, .. } => *place,
            Refusal::Crossed { pair, .. } | Refusal::Beyond { pair, .. } => *pair,
            _ => self.word().map_or(0, |place| place.index),
        }
    }

    /// The place in a slice, of the refusals that have one.
    pub fn word(&self) -> Option<&Place> {
        match self {
            Refusal::JobLayout(place)
            | Refusal::Parameter(place)
            | Refusal::Aggregations { place, .. }
            | Refusal::JobWord(place)
            | Refusal::RandomnessLayout(place)
            | Refusal::RandomnessWord(place)
            | Refusal::TranscriptLayout(place)
            | Refusal::TranscriptWord(place)
            | Refusal::WitnessLayout(place)
            | Refusal::WitnessWord(place) => Some(place),
            _ => None,
        }
    }

    /// Its row of the table.
    pub fn meaning(&self) -> &'static Meaning {
        meaning(self.number()).expect("each refusal has a row")
    }

    /// What was found, with its figures.
    fn told(&self) -> String {
        match self {
            Refusal::Scratch { needed, lent } => format!("the scratch has {lent} words, and {needed} are needed"),
            Refusal::Output { buffer, needed, lent } => {
                format!("the {buffer} has {lent} words, and {needed} are needed")
            }
            Refusal::JobLayout(place)
            | Refusal::RandomnessLayout(place)
            | Refusal::TranscriptLayout(place)
            | Refusal::WitnessLayout(place) => place.layout_fault(),
            Refusal::Parameter(place) => parameter_fault(place),
            Refusal::Aggregations { place, parameters } => aggregations_fault(place, parameters),
            Refusal::RandomnessWord(place) => place.word_fault(randomness_fault(place)),
            Refusal::JobWord(place) | Refusal::TranscriptWord(place) | Refusal::WitnessWord(place) => {
                place.word_fault(not_below(place.found))
            }
            Refusal::WitnessNorm { vector, norm, bound } => {
                format!("the norm of witness vector {vector} is {norm}, above A's bound {bound}")
            }
            Refusal::Operand { number, place, found } => operand_fault(*number, *place, *found),
            Refusal::RangesLength { list, found, expected, .. } => {
                format!("there are {found} {list}, and 64·r·n is {expected}")
            }
            Refusal::OutsideRun { run: Run { first, end }, vectors } => {
                format!("the run goes from {first} up to {end}, and the job's vectors from 0 up to {vectors}")
            }
            Refusal::TranscriptCount { count } => format!("there are {count} transcripts, and a call takes 1 to 8"),
            Refusal::Projection { which, place, length, found, .. } => projection_fault(which, *place, *length, *found),
            Refusal::Crossed { pair, low, high } => format!("pair {pair} goes from {low} to {high}, which is below"),
            Refusal::Beyond { pair, low, high } => {
                format!("pair {pair} goes from {low} to {high}, beyond ±{HALF}")
            }
            Refusal::DigitsOfT
            | Refusal::DigitsOfG
            | Refusal::DigitsOfH
            | Refusal::NotCheck22
            | Refusal::NothingMends => self.meaning().short.to_string(),
        }
    }
}

fn parameter_fault(place: &Place) -> String {
    let found = place.found.unwrap_or(0);
    let Some(parameter) = place.parameter() else {
        return format!("the job's word {} is {found}", place.index);
    };
    let name = parameter.name;
    if (parameter.least..=parameter.greatest).contains(&found) {
        return format!("the job's word {} is {found}: {name} and K are not both 0", place.index);
    }
    let (least, greatest) = (parameter.least, parameter.greatest);
    format!("the job's word {} is {found}: {name} is from {least} to {greatest}", place.index)
}

fn aggregations_fault(place: &Place, parameters: &Parameters) -> String {
    let (found, least, log_q) = (place.found.unwrap_or(0), parameters.least_aggregations(), parameters.log_q);
    format!("the job's word {} is {found}: L is at least {least} where log_q is {log_q}", place.index)
}

fn randomness_fault(place: &Place) -> &'static str {
    match &place.spot {
        crate::place::Spot::Word { section: "signs", .. } => "neither 0 nor 1",
        _ => not_below(place.found),
    }
}

fn operand_fault(number: u32, place: u64, found: u32) -> String {
    match (number, place) {
        (4 | 31, 0) => format!("the base is {found}, not from 2 to {}", Q - 1),
        (4, _) => format!("the number of parts is {found}, not from 1 to 32"),
        (31, _) => format!("the number of digits is {found}, not from 1 to 32"),
        (8, _) => format!("sign word {place} is {found}, neither 0 nor 1"),
        _ => format!("word {place} of the operands is {found}, {}", not_below(Some(found))),
    }
}

/// What is wrong with one of two p.
fn projection_fault(which: &str, place: u64, length: u64, found: Option<u32>) -> String {
    match found {
        _ if place == 257 => format!("the {which} p goes on at word 257, behind its 256 entries"),
        Some(word) if place > 0 => {
            format!("word {place} of the {which} p is {word}, {} (entry {})", not_below(Some(word)), place - 1)
        }
        Some(word) => format!("word 0 of the {which} p is {word}, and its count is 256"),
        None => format!("the {which} p ends after {length} words, and has 257 with its count"),
    }
}

impl fmt::Display for Refusal {
    fn fmt(&self, f: &mut fmt::Formatter<'_>) -> fmt::Result {
        write!(f, "refusal {}: {}", self.number(), self.told())
    }
}

impl Error for Refusal {}

//! Inputs that are refused before the work: each fault alone and in pairs.

use crate::cases::{Case, Context, Expected};
use crate::instances::{Instance, ABOVE};
use crate::random::Random;
use crate::whole::modelled;
use model::refusals::{output_need, LIMITS};
use model::words::{join, Parameters, PARAMETERS};
use model::{Answer, Call};

/// A fault of the input.
struct Fault {
    /// When it is looked for: the tests of document 01's order, numbered.
    stage: usize,
    /// The number and the place of its refusal.
    aim: (u32, usize),
    kind: Kind,
}

#[derive(Clone, Copy)]
enum Kind {
    /// A word of a slice takes a value.
    Word(Slice, usize, u32),
    /// A word of a slice goes up by this, modulo 2^32.
    Change(Slice, usize, u32),
    /// A slice ends at this length.
    Cut(Slice, usize),
    /// A slice has a word too many.
    Surplus(Slice),
    Scratch(usize),
    Output(usize),
    /// K and l are 0.
    NoConstraint,
}

#[derive(Clone, Copy, PartialEq, Eq)]
enum Slice {
    Job,
    Randomness,
    Third,
}

impl Slice {
    fn of(self, case: &mut Case) -> &mut Vec<u32> {
        match self {
            Slice::Job => &mut case.job,
            Slice::Randomness => &mut case.randomness,
            Slice::Third => &mut case.third,
        }
    }
}

impl Fault {
    fn make(&self, case: &mut Case) {
        match self.kind {
            Kind::Word(slice, at, word) => slice.of(case)[at] = word,
            Kind::Change(slice, at, by) => {
                let word = &mut slice.of(case)[at];
                *word = word.wrapping_add(by);
            }
            Kind::Cut(slice, length) => slice.of(case).truncate(length),
            Kind::Surplus(slice) => slice.of(case).push(0),
            Kind::Scratch(length) => case.scratch = length,
            Kind::Output(length) => case.output = length,
            Kind::NoConstraint => case.job[6..8].fill(0),
        }
    }

    /// The word that it sets.
    fn word(&self) -> Option<(Slice, usize)> {
        match self.kind {
            Kind::Word(slice, at, _) | Kind::Change(slice, at, _) => Some((slice, at)),
            _ => None,
        }
    }

    /// Whether it shortens a slice, and so comes after a fault that sets a word.
    fn is_cut(&self) -> bool {
        matches!(self.kind, Kind::Cut(..))
    }
}

/// Where each section's count stands, and the slice's length.
fn starts(counts: &[usize]) -> (Vec<usize>, usize) {
    let mut at = 0;
    let starts = counts
        .iter()
        .map(|count| {
            at += 1 + count;
            at - 1 - count
        })
        .collect();
    (starts, at)
}

/// The faults of a slice from one of its sections on: a count one off; the slice ending before and after a count and
/// before a section's last word; a word too many.
fn layout_faults(slice: Slice, stage: usize, number: u32, counts: &[usize], from: usize) -> Vec<Fault> {
    let (starts, length) = starts(counts);
    let fault = |place: usize, kind: Kind| Fault { stage, aim: (number, place), kind };
    let mut faults = vec![fault(length, Kind::Surplus(slice))];
    for (&at, count) in starts.iter().zip(counts).skip(from) {
        faults.push(fault(at, Kind::Change(slice, at, 1)));
        faults.push(fault(at, Kind::Change(slice, at, u32::MAX)));
        for length in [at, at + 1, at + count] {
            faults.push(fault(length, Kind::Cut(slice, length)));
        }
    }
    faults
}

/// The first and the last word of a section out of range.
fn word_faults(slice: Slice, stage: usize, number: u32, start: usize, count: usize, words: &[u32]) -> Vec<Fault> {
    let ends = if count > 0 { vec![start + 1, start + count] } else { vec![] };
    let fault = |at: usize, word: u32| Fault { stage, aim: (number, at), kind: Kind::Word(slice, at, word) };
    words.iter().flat_map(|&word| ends.iter().map(move |&at| fault(at, word))).collect()
}

/// The stage of a fault that is made alone.
const ALONE: usize = usize::MAX;

/// Every fault of a call on a fit input, by stages in document 01's order.
fn faults(p: &Parameters, call: Call) -> Vec<Fault> {
    let mut faults = vec![];
    // 0: section one's layout; 1: a parameter outside its limits; 2: L below the least
    faults.extend(layout_faults(Slice::Job, 0, 3, &[PARAMETERS], 0).into_iter().skip(1));
    for (k, (least, greatest)) in LIMITS.iter().enumerate() {
        for word in [least.wrapping_sub(1), greatest + 1, 0, u32::MAX] {
            if (least..=greatest).contains(&&word) {
                // 0 constraints of one kind: not refused where there are some of the other
                continue;
            }
            faults.push(Fault { stage: 1, aim: (4, 1 + k), kind: Kind::Word(Slice::Job, 1 + k, word) });
        }
    }
    // both kinds empty: no stage of its own, so that no other fault sets these words
    faults.push(Fault { stage: ALONE, aim: (4, 7), kind: Kind::NoConstraint });
    for aggregations in [p.least_aggregations() - 1, 1] {
        faults.push(Fault { stage: 2, aim: (5, 12), kind: Kind::Word(Slice::Job, 12, aggregations as u32) });
    }
    // 3: the other sections' layout; 4: their words
    let counts = p.job_counts();
    faults.extend(layout_faults(Slice::Job, 3, 3, &counts, 1));
    let (at, _) = starts(&counts);
    for k in 1..counts.len() {
        faults.extend(word_faults(Slice::Job, 4, 6, at[k], counts[k], ABOVE));
    }
    // 5: the randomness's layout; 6: its words
    let counts = &p.randomness_counts()[..call.randomness_sections()];
    faults.extend(layout_faults(Slice::Randomness, 5, 7, counts, 0));
    let (at, _) = starts(counts);
    for k in 0..counts.len().min(5) {
        faults.extend(word_faults(Slice::Randomness, 6, 8, at[k], counts[k], ABOVE));
    }
    if counts.len() > 5 {
        faults.extend(word_faults(Slice::Randomness, 6, 8, at[5], counts[5], &[2, u32::MAX]));
    }
    // 7: the third slice's layout; 8: its words
    let (number, counts) = match call {
        Call::Verify => (9, p.transcript_counts()),
        _ => (11, p.witness_counts()),
    };
    faults.extend(layout_faults(Slice::Third, 7, number, &counts, 0));
    let (at, _) = starts(&counts);
    for k in 0..counts.len() {
        faults.extend(word_faults(Slice::Third, 8, number + 1, at[k], counts[k], ABOVE));
    }
    // 9: scratch; 10: output
    let need = p.scratch_need();
    for length in [need - 1, 0] {
        faults.push(Fault { stage: 9, aim: (1, need), kind: Kind::Scratch(length) });
    }
    if call != Call::Verify {
        let need = output_need(p, call);
        for length in [need - 1, 0] {
            faults.push(Fault { stage: 10, aim: (2, need), kind: Kind::Output(length) });
        }
    }
    faults
}

/// Unfit inputs of a call: each fault alone; then pairs of faults, for every pair of stages as often as asked. The
/// earlier stage answers, and within a stage the lower place.
pub fn unfit(context: &mut Context, random: &mut Random, instance: &Instance, call: Call, pairs: usize) {
    let p = &instance.parameters;
    let third = match call {
        Call::Verify => join(&modelled(instance).sections()),
        _ => instance.witness_words(),
    };
    let job = instance.job_words();
    let randomness = join(&instance.randomness[..call.randomness_sections()]);
    let case = |purpose: &'static str| Case {
        purpose,
        call,
        job: job.clone(),
        randomness: randomness.clone(),
        third: third.clone(),
        scratch: p.scratch_need(),
        output: output_need(p, call),
        expected: Expected { answer: Answer::FINE, worked: None },
    };
    let faults = faults(p, call);
    for fault in &faults {
        let mut case = case("one fault in the input");
        fault.make(&mut case);
        context.unfit(case, fault.aim);
    }
    let stages: Vec<Vec<&Fault>> = (0..=10).map(|stage| faults.iter().filter(|f| f.stage == stage).collect()).collect();
    for (k, earlier) in stages.iter().enumerate() {
        for later in &stages[k..] {
            if earlier.is_empty() || later.is_empty() {
                continue;
            }
            for _ in 0..pairs {
                let mut two = [random.pick(earlier), random.pick(later)];
                if two[0].word().is_some() && two[0].word() == two[1].word() {
                    // the second would undo the first
                    continue;
                }
                let first = two.iter().min_by_key(|f| (f.stage, f.aim.1)).expect("two faults");
                let aim = first.aim;
                two.sort_by_key(|f| f.is_cut());
                let mut case = case("two faults in the input");
                for fault in two {
                    fault.make(&mut case);
                }
                context.unfit(case, aim);
            }
        }
    }
}

//! A case of a call on whole slices, with the answer that is expected of it.

use crate::instances::Instance;
use crate::leaves::Leaves;
use crate::record::Recorder;
use crate::rust;
use crate::tally::Tally;
use crate::whole::BROKEN;
use model::checks::is_two_digits;
use model::refusals::{fit, output_need, Handed};
use model::words::{join, read_witness, Job, Parameters, Randomness, Transcript, PARAMETERS};
use model::{checks, conditions, formulas, Answer, Call};

pub struct Case {
    /// What the case is for.
    pub purpose: &'static str,
    pub call: Call,
    pub job: Vec<u32>,
    pub randomness: Vec<u32>,
    /// The verifier's transcript, the witness of any other call.
    pub third: Vec<u32>,
    /// The lengths of the lent buffers.
    pub scratch: usize,
    pub output: usize,
    pub expected: Expected,
}

#[derive(Clone, Debug, PartialEq, Eq)]
pub struct Expected {
    pub answer: Answer,
    /// None where the buffers are left alone; else scratch is zero to the length needed, and these are the first
    /// words of the output.
    pub worked: Option<Vec<u32>>,
}

impl Case {
    /// Parameters and purpose, for a difference.
    pub fn describe(&self) -> String {
        let parameters = self.job.get(1..1 + PARAMETERS).map(Parameters::read);
        format!("{} ({}) {parameters:?}", self.call.name(), self.purpose)
    }

    /// The parameters of a case that is refused nothing before the work.
    fn parameters(&self) -> Parameters {
        Parameters::read(&self.job[1..1 + PARAMETERS])
    }

    /// The scratch that the work needs.
    pub fn scratch_need(&self) -> usize {
        self.parameters().scratch_need()
    }
}

/// Headings of the tally.
pub const CALLS: &str = "answers of the calls";
pub const CONDITIONS: &str = "demand 3's conditions";
pub const PURPOSES: &str = "purposes";
pub const LEFT: &str = "23 with something left of z, by the Rust";
pub const OF_CELLS: &str = "cells of t, g and h with something left, of acceptances";
pub const SIZES: &str = "κ and L of the prover's calls";

/// How κ and L lie to each other and to the least L.
const KAPPA_AND_L: [&str; 6] =
    ["κ below L", "κ above L", "κ equal to L", "L at the quotient", "L above the quotient", "L 32"];

/// The comparisons of calls on whole slices.
pub const PLANTED: &str = "model: refusals 1 to 12 with the fault planted";
pub const PROVER: &str = "model: the prover's answer with the Rust's";
pub const TRANSCRIPT: &str = "model: the prover's transcript with the Rust's";
pub const VERIFIER: &str = "model: the verifier's answer with the Rust's";
pub const FOUR: &str = "model: the four conditions with the Rust's verdict";
pub const FOUR_OURS: &str = "library: prove then verify with the four conditions";
pub const WORKED: &str = "library: calls on whole slices with the Rust's";
/// Where the Rust panics: statements of one kind only.
pub const MODELLED: &str = "library: calls on whole slices with the model's, constraints of one kind only";
pub const FOUR_MODELLED: &str = "model: the four conditions with its verdict, constraints of one kind only";
/// Where the Rust is no oracle: κ is not L, or L is above 128 divided by log_q (document 02, Item 6).
pub const APART: &str = "library: calls on whole slices with the model's, κ and L apart";
pub const FOUR_APART: &str = "model: the four conditions with its verdict, κ and L apart";
/// Where the Rust's sum of check 23 is another: something is left of z after two digits, and 23 fails.
pub const LARGE: &str = "library: calls on whole slices with the model's, 23 with something left of z";
pub const FOUR_LARGE: &str = "model: the four conditions with its verdict, 23 with something left of z";
pub const SMALLER: &str = "model: 23 with something left of z, the Rust's sum smaller or within the limit";
pub const REFUSED: &str = "library: refusals 1 to 12 with the model's";
/// Of every verdict in the work: the Rust has no such number (document 02, Item 5).
pub const CELLS: &str = "library: cells with something left with the model's";
pub const FOUR_CELLS: &str = "model: cells with something left by the formulas with those of its verdict";
pub const JUDGED: &str = "library: the tests before the work with the model's";

/// Whose answer is expected of a call that reaches the work.
#[derive(Clone, Copy, PartialEq, Eq)]
enum Source {
    Rust,
    /// The model's: constraints of one kind only.
    OneKind,
    /// The model's: κ is not L, or L is above 128 divided by log_q (document 02, Item 6).
    Apart,
    /// The model's: 23 fails, and something is left of z after two digits (document 02, Item 9).
    LargeZ,
}

impl Source {
    fn of(call: Call, p: &Parameters, third: &[u32], answer: &Answer) -> Source {
        if !p.has_both_kinds() {
            Source::OneKind
        } else if !p.is_of_the_rust() {
            Source::Apart
        } else if call == Call::Verify && answer.number == 23 && !is_two_digits(p.b, &Transcript::read(p, third).z) {
            Source::LargeZ
        } else {
            Source::Rust
        }
    }
}

pub struct Context {
    pub tally: Tally,
    pub recorder: Option<Recorder>,
}

impl Context {
    /// The answers that a call can give.
    fn answers(call: Call) -> Vec<u32> {
        match call {
            Call::Prove | Call::Round(4 | 5) => [(0..=8).collect::<Vec<u32>>(), (11..=16).collect()].concat(),
            Call::Round(1) => [(0..=7).collect::<Vec<u32>>(), (11..=15).collect()].concat(),
            Call::Round(_) => [(0..=8).collect::<Vec<u32>>(), (11..=15).collect()].concat(),
            Call::Verify => [vec![0, 1], (3..=10).collect(), (14..=16).collect(), (21..=29).collect()].concat(),
        }
    }

    pub fn new(recorder: Option<Recorder>) -> Self {
        let mut tally = Tally::default();
        for call in Call::ALL {
            for number in Context::answers(call) {
                tally.must_occur(CALLS, row(call, number));
            }
        }
        for number in [0, 13, 14, 15, 16, 21, 22, 23, 27] {
            tally.must_occur(CONDITIONS, format!("{number:>2}"));
        }
        tally.must_compare(&[PLANTED, PROVER, TRANSCRIPT, VERIFIER, FOUR, FOUR_OURS, WORKED, REFUSED]);
        tally.must_compare(&[BROKEN, JUDGED, MODELLED, FOUR_MODELLED, LARGE, FOUR_LARGE, SMALLER]);
        tally.must_compare(&[CELLS, FOUR_CELLS]);
        for row in [NONE, ONE, SOME, ALL] {
            tally.must_occur(OF_CELLS, row);
        }
        tally.must_compare(&[APART, FOUR_APART]);
        for row in KAPPA_AND_L {
            tally.must_occur(SIZES, row);
        }
        for row in [FAILED, PASSED] {
            tally.must_occur(LEFT, row);
        }
        Leaves::must_occur(&mut tally);
        Context { tally, recorder }
    }

    pub fn leaves(&mut self) -> Leaves<'_> {
        Leaves { tally: &mut self.tally, recorder: &mut self.recorder }
    }

    /// Counts a case, compares the library's answer with the expected one, and records it.
    pub fn take(&mut self, case: Case) {
        self.tally.occurred(CALLS, row(case.call, case.expected.answer.number));
        self.tally.occurred(PURPOSES, case.purpose);
        self.tally.library(&case);
        if let Some(recorder) = &mut self.recorder {
            recorder.case(&case);
        }
    }

    /// A case that is refused before the work, with the number and the place that it is made for.
    pub fn unfit(&mut self, case: Case, aim: (u32, usize)) {
        let handed = Handed {
            job: &case.job,
            randomness: &case.randomness,
            third: &case.third,
            scratch: case.scratch,
            output: case.output,
        };
        let answer = fit(case.call, handed).err().unwrap_or_default();
        self.tally.compare(PLANTED, &answer, &Answer::refused(aim.0, aim.1), || case.describe());
        let expected = Expected { answer, worked: None };
        self.take(Case { expected, ..case });
    }

    /// The prover's whole call and its rounds on an instance, by one run of the Rust, or by the model where the Rust
    /// is no oracle. Gives the transcript back where it is made.
    pub fn prover(&mut self, purpose: &'static str, instance: &Instance, spare: usize) -> Option<Vec<u32>> {
        let p = &instance.parameters;
        self.sizes(p);
        let job = instance.job_words();
        let randomness = instance.randomness_words();
        let witness = instance.witness_words();
        let described = || format!("prove ({purpose}) {p:?}");
        let values = Job::read(&job);
        let drawn = Randomness::read(p, &randomness);
        let s = read_witness(p, &witness);
        let (made, modelled) = formulas::transcript(&values, &drawn, &s);
        let (answer, sections) = if p.has_both_kinds() && p.is_of_the_rust() {
            let (answer, sections) = by_the_rust(&job, &randomness, &witness);
            self.tally.compare(PROVER, &modelled, &answer, described);
            if !sections.is_empty() {
                self.tally.compare(TRANSCRIPT, &made.sections(), &sections, described);
            }
            (answer, sections)
        } else {
            (modelled, made.sections())
        };

        for call in Call::ALL {
            let (Call::Prove | Call::Round(_)) = call else {
                continue;
            };
            let need = output_need(p, call);
            let reached = !matches!(call, Call::Round(1..=3));
            let refused = answer.number > 0 && (reached || answer.number < 16);
            let (first, past) = call.output_sections();
            let expected = Expected {
                answer: if refused { answer } else { Answer::FINE },
                worked: Some(if refused { vec![0; need] } else { join(&sections[first..past]) }),
            };
            self.take(Case {
                purpose,
                call,
                job: job.clone(),
                randomness: join(&instance.randomness[..call.randomness_sections()]),
                third: witness.clone(),
                scratch: p.scratch_need() + spare,
                output: need + spare,
                expected,
            });
        }

        if answer.number > 0 {
            self.tally.occurred(CONDITIONS, format!("{:>2}", answer.number));
            return None;
        }
        // demand 3: the verdict on the prover's own transcript is that of the four conditions
        let transcript = join(&sections);
        let verdict = self.verifier(purpose, instance, &transcript, spare);
        let breach = conditions::first_breach(&values, &drawn, &s);
        let kind = match Source::of(Call::Verify, p, &transcript, &verdict) {
            Source::Rust => FOUR,
            Source::OneKind => FOUR_MODELLED,
            Source::Apart => FOUR_APART,
            Source::LargeZ => FOUR_LARGE,
        };
        self.tally.compare(kind, &without_cells(breach), &without_cells(verdict), described);
        self.tally.compare(FOUR_CELLS, &breach.cells_left, &verdict.cells_left, described);
        let ours = prove_then_verify(&job, &randomness, &witness, p.scratch_need(), transcript.len());
        self.tally.compare(FOUR_OURS, &ours, &breach, described);
        self.tally.occurred(CONDITIONS, format!("{:>2}", breach.number));
        Some(transcript)
    }

    /// The verifier on a transcript: the Rust's verdict, or the model's where the Rust is no oracle or its sum of check
    /// 23 is another.
    pub fn verifier(&mut self, purpose: &'static str, instance: &Instance, transcript: &[u32], spare: usize) -> Answer {
        let p = &instance.parameters;
        let job = instance.job_words();
        let randomness = instance.randomness_words();
        let modelled =
            checks::verdict(&Job::read(&job), &Randomness::read(p, &randomness), &Transcript::read(p, transcript));
        let described = || format!("verify ({purpose}) {p:?}");
        let by_the_rust = || rust::verify(&rust::Job::new(&job), &randomness, transcript);
        let answer = match Source::of(Call::Verify, p, transcript, &modelled) {
            Source::Rust => {
                let answer = by_the_rust();
                self.tally.compare(VERIFIER, &without_cells(modelled), &answer, described);
                Answer { cells_left: modelled.cells_left, ..answer }
            }
            Source::OneKind | Source::Apart => modelled,
            Source::LargeZ => {
                self.smaller(&modelled, &by_the_rust(), described);
                modelled
            }
        };
        if answer.is_fine() {
            self.tally.occurred(OF_CELLS, of_cells(p, answer.cells_left));
        }
        self.take(Case {
            purpose,
            call: Call::Verify,
            job,
            randomness,
            third: transcript.to_vec(),
            scratch: p.scratch_need() + spare,
            output: 0,
            expected: Expected { answer, worked: Some(vec![]) },
        });
        answer
    }
}

/// A verdict as the Rust gives it: without the number of cells.
fn without_cells(verdict: Answer) -> Answer {
    Answer { cells_left: 0, ..verdict }
}

/// How many of the cells of an acceptance have something left.
const NONE: &str = "none";
const ONE: &str = "one";
const SOME: &str = "some";
const ALL: &str = "all";

fn of_cells(p: &Parameters, cells_left: u64) -> &'static str {
    match cells_left as usize {
        0 => NONE,
        1 => ONE,
        n if n < p.r * p.kappa + p.r * (p.r + 1) => SOME,
        _ => ALL,
    }
}

/// How the Rust goes on where something is left of z and 23 fails here.
const FAILED: &str = "23, with a smaller sum";
const PASSED: &str = "within the limit";

impl Context {
    /// Counts how κ and L lie.
    fn sizes(&mut self, p: &Parameters) {
        let least = p.least_aggregations();
        let held = [
            p.kappa < p.aggregations,
            p.kappa > p.aggregations,
            p.kappa == p.aggregations,
            p.aggregations == least,
            p.aggregations > least,
            p.aggregations == 32,
        ];
        for (row, _) in KAPPA_AND_L.iter().zip(held).filter(|(_, held)| *held) {
            self.tally.occurred(SIZES, row);
        }
    }

    /// Compares a verdict of 23 with the Rust's, whose sum is smaller: it is a 23 with the same limit, or of a later check.
    fn smaller(&mut self, ours: &Answer, rust: &Answer, described: impl FnOnce() -> String) {
        let failed = rust.number == 23;
        self.tally.occurred(LEFT, if failed { FAILED } else { PASSED });
        let expected = if failed {
            rust.first < ours.first && rust.second == ours.second
        } else {
            ![21, 22].contains(&rust.number)
        };
        self.tally.compare(SMALLER, &expected, &true, described);
    }
}

/// The Rust's answer and sections. Where it is 16, those of a run with D's bound lifted: rounds 1 to 3 do not reach D.
fn by_the_rust(job: &[u32], randomness: &[u32], witness: &[u32]) -> (Answer, Vec<Vec<u32>>) {
    let (answer, sections) = rust::prove(&rust::Job::new(job), randomness, witness);
    if answer.number != 16 {
        return (answer, sections);
    }
    let lifted = rust::Job::with_bound_d(job, u128::MAX);
    (answer, rust::prove(&lifted, randomness, witness).1)
}

impl Tally {
    /// Compares the library's answer with the expected one.
    pub fn library(&mut self, case: &Case) {
        let mut expected = Seen { answer: case.expected.answer, ..Seen::default() };
        let answer = &case.expected.answer;
        let source = |_| Source::of(case.call, &case.parameters(), &case.third, answer);
        let kind = match case.expected.worked.as_ref().map(source) {
            Some(Source::Rust) => WORKED,
            Some(Source::OneKind) => MODELLED,
            Some(Source::Apart) => APART,
            Some(Source::LargeZ) => LARGE,
            None => REFUSED,
        };
        let mut seen = ours(case);
        if case.call == Call::Verify && kind != REFUSED {
            let cells = &expected.answer.cells_left;
            self.compare(CELLS, &seen.answer.cells_left, cells, || case.describe());
        }
        if kind == WORKED {
            seen.answer = without_cells(seen.answer);
            expected.answer = without_cells(expected.answer);
        }
        self.compare(kind, &seen, &expected, || case.describe());
        if case.call == Call::Prove {
            let slices = [&case.job[..], &case.randomness, &case.third];
            let ours = library::slices::judged(slices, case.scratch, case.output);
            let refused = if kind == REFUSED { case.expected.answer } else { Answer::FINE };
            self.compare(JUDGED, &(ours.number, ours.place), &(refused.number, refused.place), || case.describe());
        }
    }
}

/// What is seen of a call of the library: its answer, and the first word of each buffer, guard words before it included, that is not as expected.
#[derive(Debug, Default, PartialEq, Eq)]
struct Seen {
    answer: Answer,
    scratch: Option<usize>,
    output: Option<usize>,
}

/// Words before and behind each lent buffer, which no call may touch.
const GUARD: usize = 16;

/// The library's call on a case, with buffers whose words are all known beforehand.
fn ours(case: &Case) -> Seen {
    let before = |length: usize| -> Vec<u32> { (0..GUARD + length + GUARD).map(|k| 0xc0de_0000 ^ k as u32).collect() };
    let mut scratch = before(case.scratch);
    let mut output = before(case.output);
    let answer = library::whole(
        case.call,
        library::Handed {
            job: &case.job,
            randomness: &case.randomness,
            third: &case.third,
            scratch: &mut scratch[GUARD..GUARD + case.scratch],
            output: &mut output[GUARD..GUARD + case.output],
        },
    );
    let mut scratch_after = before(case.scratch);
    let mut output_after = before(case.output);
    if let Some(words) = &case.expected.worked {
        scratch_after[GUARD..GUARD + case.scratch_need()].fill(0);
        output_after[GUARD..GUARD + words.len()].copy_from_slice(words);
    }
    let first = |x: &[u32], y: &[u32]| x.iter().zip(y).position(|(a, b)| a != b);
    Seen { answer, scratch: first(&scratch, &scratch_after), output: first(&output, &output_after) }
}

fn row(call: Call, number: u32) -> String {
    format!("{:<8}{number:>2}", call.name())
}

/// The library's prover, then its verifier on the words that the prover made.
fn prove_then_verify(job: &[u32], randomness: &[u32], witness: &[u32], scratch: usize, output: usize) -> Answer {
    let mut scratch = vec![0; scratch];
    let mut made = vec![0; output];
    let proved = library::whole(
        Call::Prove,
        library::Handed { job, randomness, third: witness, scratch: &mut scratch, output: &mut made },
    );
    if proved.number > 0 {
        return proved;
    }
    library::whole(
        Call::Verify,
        library::Handed { job, randomness, third: &made, scratch: &mut scratch, output: &mut [] },
    )
}

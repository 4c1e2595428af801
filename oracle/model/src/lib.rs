//! Document 01 in plain Rust, written from its text alone: the leaves, the refusals in their order, the prover's
//! formulas, the verifier's checks and demand 3's four conditions. It shares no code with the published Rust.

pub mod calls;
pub mod checks;
pub mod conditions;
pub mod formulas;
pub mod leaves;
pub mod load;
pub mod many;
pub mod mistyped;
pub mod ranges;
pub mod recompose;
pub mod refusals;
pub mod sheds;
pub mod words;

/// An answer in document 01's numbers: 0, or a refusal with its place, or a failed check with its values. An accepted
/// verdict is 0 with the number of cells that have something left (document 02, Item 5).
#[derive(Clone, Copy, Debug, Default, PartialEq, Eq)]
pub struct Answer {
    pub number: u32,
    /// Of a refusal.
    pub place: u64,
    /// Of check 22.
    pub index: u32,
    /// Of checks 21 to 23.
    pub first: u128,
    pub second: u128,
    /// Of an accepted verdict.
    pub cells_left: u64,
}

impl Answer {
    pub const FINE: Answer = Answer { number: 0, place: 0, index: 0, first: 0, second: 0, cells_left: 0 };

    pub fn refused(number: u32, place: usize) -> Answer {
        Answer { number, place: place as u64, ..Answer::FINE }
    }

    /// A failed check with no values.
    pub fn failed(number: u32) -> Answer {
        Answer { number, ..Answer::FINE }
    }

    pub fn over(number: u32, first: u128, limit: u128) -> Answer {
        Answer { number, first, second: limit, ..Answer::FINE }
    }

    /// An accepted verdict.
    pub fn accepted(cells_left: usize) -> Answer {
        Answer { cells_left: cells_left as u64, ..Answer::FINE }
    }

    pub fn is_fine(&self) -> bool {
        self.number == 0
    }
}

/// The entry points on whole slices.
#[derive(Clone, Copy, Debug, PartialEq, Eq, PartialOrd, Ord)]
pub enum Call {
    Prove,
    /// 1 to 5.
    Round(usize),
    Verify,
}

impl Call {
    pub const ALL: [Call; 7] =
        [Call::Prove, Call::Round(1), Call::Round(2), Call::Round(3), Call::Round(4), Call::Round(5), Call::Verify];

    pub fn name(&self) -> &'static str {
        match self {
            Call::Prove => "prove",
            Call::Round(1) => "round_1",
            Call::Round(2) => "round_2",
            Call::Round(3) => "round_3",
            Call::Round(4) => "round_4",
            Call::Round(_) => "round_5",
            Call::Verify => "verify",
        }
    }

    /// The sections of the randomness that the call takes.
    pub fn randomness_sections(&self) -> usize {
        match self {
            Call::Round(m) => [0, 1, 3, 5, 7][m - 1],
            _ => 7,
        }
    }

    /// The sections of the transcript that the call writes, as the first and the one past the last.
    pub fn output_sections(&self) -> (usize, usize) {
        match self {
            Call::Prove => (0, 8),
            Call::Round(5) => (4, 8),
            Call::Round(m) => (m - 1, *m),
            Call::Verify => (0, 0),
        }
    }
}

/// A call's answer and, where the work was reached, the first words of its output; scratch is then zero to the length
/// needed.
pub fn whole(call: Call, handed: refusals::Handed) -> (Answer, Option<Vec<u32>>) {
    let p = match refusals::fit(call, handed) {
        Ok(p) => p,
        Err(answer) => return (answer, None),
    };
    let mut sections = words::split(handed.randomness);
    // a round does not look at the sections that it is not handed
    for count in &p.randomness_counts()[sections.len()..] {
        sections.push(vec![0; *count]);
    }
    let drawn = words::Randomness::read(&p, &words::join(&sections));
    let job = words::Job::read(handed.job);
    if call == Call::Verify {
        let sent = words::Transcript::read(&p, handed.third);
        return (checks::verdict(&job, &drawn, &sent), Some(vec![]));
    }
    let s = words::read_witness(&p, handed.third);
    let (made, answer) = formulas::transcript(&job, &drawn, &s);
    let (answer, output) = formulas::part(call, &made, answer);
    (answer, Some(output))
}

//! What an acceptance under a job is worth, in words and for machines.

use labrador::review::{review, Finding};
use labrador::section_one::SectionOne;
use labrador::worth::{zero_sections, Fraction, Worth};
use labrador::{Refusal, Verdict};

use crate::json::Json;

/// What is said of a job's acceptances.
pub struct Told {
    pub worth: Worth,
    /// The worst first.
    pub findings: Vec<Finding>,
}

/// `1 in 81`; of what passes for certain that it is worth nothing.
fn shown(chance: &Fraction) -> String {
    match chance.is_certain() {
        true => format!("{chance} (worth nothing)"),
        false => chance.to_string(),
    }
}

/// `6 things that the job does not force`
fn things(count: usize) -> String {
    match count {
        1 => "1 thing that the job does not force".to_string(),
        count => format!("{count} things that the job does not force"),
    }
}

/// `21, 23 and 14`
pub fn listed(numbers: &[u32]) -> String {
    let all: Vec<String> = numbers.iter().map(u32::to_string).collect();
    match all.split_last() {
        Some((last, [])) => last.clone(),
        Some((last, rest)) => format!("{} and {last}", rest.join(", ")),
        None => String::new(),
    }
}

impl Told {
    /// Of a job, or its refusal.
    pub fn of(job: &[u32]) -> Result<Told, Refusal> {
        let findings = review(job)?;
        let one = SectionOne::read(job).expect("the job is fit");
        Ok(Told { worth: Worth::of(&one), findings })
    }

    /// The worth of an acceptance whose randomness has these warnings: nothing where weights are all zero.
    pub fn worth_with(&self, warnings: &[String]) -> Worth {
        Worth { certain: self.worth.certain || !warnings.is_empty(), ..self.worth }
    }

    /// `one transcript: 1 in 81; 6 things that the job does not force`
    pub fn short(&self, worth: &Worth) -> String {
        format!("one transcript: {}; {}", shown(&worth.one()), self.things())
    }

    pub fn things(&self) -> String {
        things(self.findings.len())
    }

    /// The tests of the verifier that can never fail.
    pub fn never_fail(&self) -> Vec<u32> {
        self.findings.iter().filter_map(Finding::never_fails).collect()
    }

    /// For machines.
    pub fn fields(&self, worth: &Worth) -> Vec<(&'static str, Json)> {
        let never = self.never_fail().into_iter().map(|number| Json::Number(number.into())).collect();
        vec![
            ("one_transcript", Json::text(worth.one())),
            ("transcripts_for_64_bits", count(worth.drawn_needed(64))),
            ("never_fail", Json::List(never)),
            ("findings", Json::List(self.findings.iter().map(Json::text).collect())),
        ]
    }
}

pub fn count(count: Option<u32>) -> Json {
    count.map_or(Json::Null, |count| Json::Number(count.into()))
}

/// What one transcript leaves a false statement.
pub fn chance_sentence(worth: &Worth) -> String {
    format!("one accepted transcript leaves a false statement a chance of at least {}", shown(&worth.one()))
}

/// How many transcripts that the desk draws give 64 bits.
pub fn drawn_sentence(worth: &Worth) -> String {
    match worth.drawn_needed(64) {
        Some(1) => "64 bits need at least 1 transcript of this job, with randomness that the desk draws round after round, and no retry".to_string(),
        Some(needed) => format!(
            "64 bits need at least {needed} transcripts of this job, each with randomness of its own that the desk draws round after round, all \
             accepted, no retry"
        ),
        None => "no number of transcripts gives 64 bits".to_string(),
    }
}

/// How many transcripts under one joint hash give 64 bits.
pub fn joint_sentence(worth: &Worth) -> Option<String> {
    let needed = worth.joint_needed(64)?;
    if needed == 1 {
        let hashed =
            "64 bits need at least 1 transcript where a hash of what was sent before draws the randomness of each round";
        return Some(hashed.to_string());
    }
    Some(format!(
        "64 bits need at least {needed} transcripts where one joint hash of all of them draws the randomness; no number is enough where each has a hash \
         of its own"
    ))
}

/// The chance of transcripts taken together: `1 in 531,441 (19.0 bits)`.
pub fn together(worth: &Worth, transcripts: u32) -> String {
    let chance = worth.drawn(transcripts);
    match chance.is_certain() {
        true => shown(&chance),
        false => format!("{chance} ({:.1} bits)", chance.bits()),
    }
}

/// What transcripts are worth together, so many of them accepted and so many of these counted, and on what that rests: nothing is said where
/// none is accepted.
pub fn together_sentence(worth: &Worth, judged: usize, accepted: usize, counted: u32) -> Option<String> {
    let (chance, drawn) = (together(worth, counted), "if the desk drew the randomness and nothing was tried again");
    let best = format!("at best {chance}, {drawn}, and each that failed was another chance");
    match accepted {
        0 => None,
        all if all == judged => Some(format!("together: {chance}, {drawn}")),
        1 => Some(format!("the 1 accepted: {best}")),
        some => Some(format!("the {some} accepted together: {best}")),
    }
}

/// What is to be told of the randomness of a transcript whose slices were fit.
pub fn warnings(verdict: &Verdict, job: &[u32], randomness: &[u32]) -> Vec<String> {
    match (verdict.number(), SectionOne::read(job)) {
        (1..=12, _) | (_, None) => Vec::new(),
        (_, Some(one)) => zero_sections(&one.parameters, randomness).iter().map(ToString::to_string).collect(),
    }
}

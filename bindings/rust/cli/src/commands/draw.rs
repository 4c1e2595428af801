//! `labrador draw`

use std::fs::File;
use std::path::Path;

use labrador::section_one::SectionOne;
use labrador::{draw, output_need, Parameters, Refusal, Round, Slice};

use crate::args::Args;
use crate::commands::round::numbered;
use crate::end::{file_system, refused, usage, End, Outcome, Status};
use crate::files::{append_slice, bytes_of, read_slice};
use crate::help::Command;
use crate::json::Json;
use crate::judge;
use crate::output::{self, Output};

/// The operating system's generator.
const GENERATOR: &str = "/dev/urandom";

fn unfit(refusal: &Refusal, job: &[u32], randomness: &[u32]) -> End {
    let handed = [(Slice::Job, job), (Slice::Randomness, randomness), (Slice::Witness, &[])];
    refused(refusal, judge::told_in_round(refusal, handed))
}

/// The randomness as the round before has it, which is fit: none before round 2.
fn before(round: Round, p: &Parameters, job: &[u32], file: &Path) -> Result<Vec<u32>, End> {
    let before = Round::ALL[round.number() - 2];
    let mut words = Vec::new();
    if before != Round::One {
        // with room for what is drawn, so that it need not be moved
        let _ = words.try_reserve_exact(Slice::Randomness.length(p) as usize);
        append_slice(Slice::Randomness, file, &mut words)?;
    }
    match before.admits(job, &words) {
        Ok(()) => Ok(words),
        Err(refusal) => Err(unfit(&refusal, job, &words)),
    }
}

/// Appends what is drawn for the round.
fn drawn(round: Round, p: &Parameters, words: &mut Vec<u32>) -> Result<(), End> {
    let made = File::open(GENERATOR).and_then(|mut generator| draw(round, p, &mut generator, words));
    made.map_err(|error| file_system(format!("{GENERATOR}: {error}")))
}

pub fn run(command: &Command, args: &Args) -> Outcome {
    args.no_rest(command)?;
    let Some(number) = args.value("--round") else {
        return Err(usage(format!("draw needs --round NUMBER; {}", command.hint())));
    };
    let round = numbered(command, number, Round::Two)?;
    let (job, path) = (args.needed(command, "--job")?, args.needed(command, "--randomness")?);
    // from round 3 on the file is there, and replaced
    let force = args.flag("--force") || round != Round::Two;
    output::admit(&[&path], &[&job], force)?;
    let job = read_slice(Slice::Job, &job)?.words;
    output_need(&job).map_err(|refusal| unfit(&refusal, &job, &[]))?;
    let p = SectionOne::read(&job).expect("the job is fit").parameters;
    let mut words = before(round, &p, &job, &path)?;
    drawn(round, &p, &mut words)?;
    output::write(&[Output { path, secret: false, bytes: bytes_of(&words) }], force)?;
    let sections = round.drawn(&p);
    let names: Vec<&str> = sections.iter().map(|section| section.name).collect();
    let (number, length) = (round.number(), words.len() as u64);
    let line = format!("drew {} for round {number}: the randomness has {length} words", names.join(" and "));
    Ok(End::new(Status::Fine, line).with(vec![
        ("round", Json::Number(number as u64)),
        ("drawn", Json::List(names.into_iter().map(Json::text).collect())),
        ("randomness", Json::Number(length)),
    ]))
}

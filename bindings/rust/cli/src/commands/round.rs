//! `labrador round`

use std::ffi::OsStr;
use std::path::Path;

use labrador::{round, Round, Slice};

use crate::args::Args;
use crate::end::{refused, usage, End, Outcome, Status};
use crate::files::{bytes_of, read_slice};
use crate::help::Command;
use crate::json::Json;
use crate::judge;
use crate::output::{self, Output};
use crate::progress::Progress;

/// The round of a number that is not below the first.
pub fn numbered(command: &Command, text: &OsStr, first: Round) -> Result<Round, End> {
    let shown = text.to_string_lossy();
    let round = shown.parse().ok().and_then(Round::numbered).filter(|round| round.number() >= first.number());
    round.ok_or_else(|| {
        let first = first.number();
        usage(format!("{} takes the number of a round, {first} to 5, not {shown}; {}", command.name, command.hint()))
    })
}

/// The round, and the file of its randomness: round 1 has none.
fn asked<'a>(command: &Command, args: &'a Args) -> Result<(Round, Option<&'a Path>), End> {
    let [number] = args.rest.as_slice() else {
        return Err(usage(format!("round takes one number, 1 to 5; {}", command.hint())));
    };
    let (round, file) = (numbered(command, number, Round::One)?, args.file("--randomness"));
    match (round, file) {
        (Round::One, Some(_)) => Err(usage("round 1 takes no randomness: none is drawn before its message")),
        (Round::One, None) | (_, Some(_)) => Ok((round, file)),
        (_, None) => Err(usage(format!("round {} needs --randomness FILE; {}", round.number(), command.hint()))),
    }
}

pub fn run(command: &Command, args: &Args) -> Outcome {
    let (asked, drawn) = asked(command, args)?;
    let file = |name: &str| args.needed(command, name);
    let (job, witness, path, force) = (file("--job")?, file("--witness")?, file("--output")?, args.flag("--force"));
    let inputs: Vec<&Path> = [job.as_path(), &witness].into_iter().chain(drawn).collect();
    output::admit(&[&path], &inputs, force)?;
    let progress = Progress::start();
    progress.step("reading the job, the randomness and the witness");
    let job = read_slice(Slice::Job, &job)?.words;
    let randomness = drawn.map_or(Ok(Vec::new()), |file| read_slice(Slice::Randomness, file).map(|file| file.words))?;
    let witness = read_slice(Slice::Witness, &witness)?.words;
    let (number, makes) = (asked.number(), asked.makes());
    progress.step(format!("proving, round {number} of 5: {makes}"));
    let words = round(asked, &job, &randomness, &witness).map_err(|refusal| {
        let handed = [(Slice::Job, &job[..]), (Slice::Randomness, &randomness), (Slice::Witness, &witness)];
        refused(&refusal, judge::told_in_round(&refusal, handed))
    })?;
    output::write(&[Output { path, secret: false, bytes: bytes_of(&words) }], force)?;
    let line = format!("made round {number} of {} words: {makes}", words.len());
    let fields = [("round", number), ("output", words.len())].map(|(name, count)| (name, Json::Number(count as u64)));
    Ok(End::new(Status::Fine, line).with(fields.to_vec()))
}

//! `labrador prove`

use std::path::Path;

use labrador::{prove, round, Refusal, Round, Slice};

use crate::args::Args;
use crate::end::{refused, End, Outcome, Status};
use crate::files::{bytes_of, read_slice};
use crate::help::Command;
use crate::json::Json;
use crate::judge;
use crate::output::{self, Output};
use crate::progress::Progress;

/// The five rounds, one after the other.
fn in_rounds(progress: &Progress, job: &[u32], randomness: &[u32], witness: &[u32]) -> Result<Vec<u32>, Refusal> {
    let mut transcript = Vec::new();
    for r in Round::ALL {
        progress.step(format!("proving, round {} of 5: {}", r.number(), r.makes()));
        // the last round takes the whole randomness, so that what is wrong behind its sections is told
        let handed = if r == Round::Five { randomness } else { r.randomness(randomness) };
        transcript.extend(round(r, job, handed, witness)?);
    }
    Ok(transcript)
}

pub fn run(command: &Command, args: &Args) -> Outcome {
    args.no_rest(command)?;
    let [job, randomness, witness, transcript] =
        ["--job", "--randomness", "--witness", "--transcript"].map(|name| args.needed(command, name));
    let (job, randomness, witness, transcript) = (job?, randomness?, witness?, transcript?);
    let force = args.flag("--force");
    let inputs: [&Path; 3] = [&job, &randomness, &witness];
    output::admit(&[&transcript], &inputs, force)?;
    let progress = Progress::start();
    progress.step("reading the job, the randomness and the witness");
    let job = read_slice(Slice::Job, &job)?.words;
    let randomness = read_slice(Slice::Randomness, &randomness)?.words;
    let witness = read_slice(Slice::Witness, &witness)?.words;
    let made = if args.flag("--rounds") {
        in_rounds(&progress, &job, &randomness, &witness)
    } else {
        progress.step("proving: u1, p, b'', u2, z, t, g, h");
        prove(&job, &randomness, &witness)
    };
    let words = made.map_err(|refusal| {
        let handed = [(Slice::Job, &job[..]), (Slice::Randomness, &randomness), (Slice::Witness, &witness)];
        refused(&refusal, judge::told(&refusal, handed))
    })?;
    progress.step("writing the transcript");
    let file = Output { path: transcript, secret: false, bytes: bytes_of(&words) };
    output::write(&[file], force)?;
    drop(progress);
    let length = words.len() as u64;
    let line = format!("made a transcript of {length} words");
    Ok(End::new(Status::Fine, line).with(vec![("transcript", Json::Number(length))]))
}

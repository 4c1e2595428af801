//! `labrador shed-parts`, `shed-projection`, `shed-rows` and `add-projections`

use std::path::Path;

use labrador::{add_projections, shed_projection, shed_rows, Refusal, Run, Slice, PROJECTION_NEED};

use crate::args::Args;
use crate::end::{self, usage, End, Outcome, Status};
use crate::files::{bytes_of, read, read_slice};
use crate::help::Command;
use crate::json::Json;
use crate::output::{self, Output};

fn refused(refusal: Refusal) -> End {
    end::refused(&refusal, refusal.to_string())
}

fn run_of(command: &Command, args: &Args) -> Result<Run, End> {
    Ok(Run { first: args.number(command, "--first")?, end: args.number(command, "--end")? })
}

/// Writes files, each with its words and whether it is for its owner alone, and tells their lengths by name.
fn written(args: &Args, files: &[(&'static str, &Path, &[u32], bool)]) -> Outcome {
    let outputs: Vec<Output> = files
        .iter()
        .map(|(_, path, words, secret)| Output { path: path.to_path_buf(), secret: *secret, bytes: bytes_of(words) })
        .collect();
    output::write(&outputs, args.flag("--force"))?;
    let told: Vec<String> =
        files.iter().map(|(name, _, words, _)| format!("{name} of {} words", words.len())).collect();
    let fields = files.iter().map(|(name, _, words, _)| (*name, Json::Number(words.len() as u64))).collect();
    Ok(End::new(Status::Fine, format!("made {}", told.join(" and "))).with(fields))
}

pub fn parts(command: &Command, args: &Args) -> Outcome {
    args.no_rest(command)?;
    let run = run_of(command, args)?;
    let file = |name: &str| args.needed(command, name);
    let (job, randomness, witness) = (file("--job")?, file("--randomness")?, file("--witness")?);
    let (projection, vectors) = (file("--projection")?, file("--vectors")?);
    output::admit(&[&projection, &vectors], &[&job, &randomness, &witness], args.flag("--force"))?;
    let job = read_slice(Slice::Job, &job)?.words;
    let randomness = read_slice(Slice::Randomness, &randomness)?.words;
    let witness = read_slice(Slice::Witness, &witness)?.words;
    let parts = run.parts(&job, &randomness, &witness).map_err(refused)?;
    let projection = ("projection", projection.as_path(), &parts.projection[..], false);
    written(args, &[projection, ("vectors", vectors.as_path(), &parts.vectors, true)])
}

pub fn projection(command: &Command, args: &Args) -> Outcome {
    args.no_rest(command)?;
    let run = run_of(command, args)?;
    let file = |name: &str| args.needed(command, name);
    let (job, projection, vectors, p) = (file("--job")?, file("--projection")?, file("--vectors")?, file("--p")?);
    output::admit(&[&p], &[&job, &projection, &vectors], args.flag("--force"))?;
    let job = read_slice(Slice::Job, &job)?.words;
    let projection = read_slice(Slice::Randomness, &projection)?.words;
    let vectors = read_slice(Slice::Witness, &vectors)?.words;
    let made = shed_projection(&job, run, &projection, &vectors).map_err(refused)?;
    written(args, &[("p", p.as_path(), &made, true)])
}

pub fn rows(command: &Command, args: &Args) -> Outcome {
    args.no_rest(command)?;
    let run = run_of(command, args)?;
    let file = |name: &str| args.needed(command, name);
    let (job, vectors, rows) = (file("--job")?, file("--vectors")?, file("--rows")?);
    output::admit(&[&rows], &[&job, &vectors], args.flag("--force"))?;
    let job = read_slice(Slice::Job, &job)?.words;
    let vectors = read_slice(Slice::Witness, &vectors)?.words;
    let made = shed_rows(&job, run, &vectors).map_err(refused)?;
    written(args, &[("rows", rows.as_path(), &made, false)])
}

pub fn add(command: &Command, args: &Args) -> Outcome {
    let names: Vec<&Path> = args.rest.iter().map(Path::new).collect();
    if names.len() < 2 {
        return Err(usage(format!("add-projections takes two or more p; {}", command.hint())));
    }
    let p = args.needed(command, "--p")?;
    output::admit(&[&p], &names, args.flag("--force"))?;
    // one word more than a p has settles its refusal
    let words = |path: &Path| read(path, PROJECTION_NEED + 1).map(|file| file.words);
    let mut sum = words(names[0])?;
    let mut summed = names[0].display().to_string();
    for path in &names[1..] {
        let shown = path.display();
        sum = add_projections(&sum, &words(path)?).map_err(|refusal| {
            let end = refused(refusal);
            End { line: format!("{} (the first is {summed}, the second {shown})", end.line), ..end }
        })?;
        summed = format!("the sum up to {shown}");
    }
    written(args, &[("p", p.as_path(), &sum, false)])
}

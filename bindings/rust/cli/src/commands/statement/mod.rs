//! `labrador statement`

use std::path::Path;

use labrador::statement::{NoStatement, NoTotal, Said, Seed, Statement};
use labrador::{output_need, Slice};

use crate::args::Args;
use crate::end::{refused, usage, End, Outcome, Status};
use crate::files::{bytes_of, read_slice};
use crate::help::Command;
use crate::json::Json;
use crate::output::{self, Output};
use crate::texts;

pub mod bounds;
pub mod check;
pub mod stock;

/// `1 total` or `3 totals`.
fn counted(count: usize, one: &str) -> String {
    format!("{count} {one}{}", if count == 1 { "" } else { "s" })
}

pub fn run(command: &Command, args: &Args) -> Outcome {
    match (args.file("--from"), args.rest.as_slice()) {
        (Some(job), []) if args.value("--job").is_none() => from(job, args),
        (None, [file]) if args.value("--seed").is_none() => make(command, Path::new(file), args),
        _ => Err(usage(format!(
            "statement takes FILE --job FILE, or --from JOB and then --seed HEX alone; {}",
            command.hint()
        ))),
    }
}

/// The job of a file.
fn make(command: &Command, file: &Path, args: &Args) -> Outcome {
    let (path, force) = (args.needed(command, "--job")?, args.flag("--force"));
    output::admit(&[&path], &[file], force)?;
    let statement = texts::statement(file)?;
    let job = statement.job();
    output_need(&job).map_err(|refusal| refused(&refusal, refusal.to_string()))?;
    output::write(&[Output { path, secret: false, bytes: bytes_of(&job) }], force)?;
    let totals = statement.totals().len();
    let line = format!("made a job of {} words with {}", job.len(), counted(totals, "total"));
    let fields = [("job", job.len()), ("totals", totals)].map(|(name, count)| (name, Json::Number(count as u64)));
    Ok(End::new(Status::Fine, line).with(fields.to_vec()))
}

/// The file of a job.
fn from(path: &Path, args: &Args) -> Outcome {
    let seed: Option<Seed> = match args.value("--seed") {
        None => None,
        Some(text) => Some(text.to_string_lossy().parse().map_err(|fault| usage(format!("--seed: {fault}")))?),
    };
    let job = read_slice(Slice::Job, path)?.words;
    let told = match seed {
        Some(seed) => Statement::of_job(&job, seed).map(|statement| (statement.to_string(), statement.totals().len())),
        None => Said::of_job(&job).map(|said| (said.to_string(), said.totals().len())),
    };
    let (text, totals) = told.map_err(|none| no_statement(path, &none))?;
    let fields = vec![("totals", Json::Number(totals as u64)), ("statement", Json::text(&text))];
    Ok(End::new(Status::Fine, "").printing(text).with(fields))
}

fn no_statement(path: &Path, none: &NoStatement) -> End {
    let line = format!("{}: {none}", path.display());
    let told = |no_total: &NoTotal| {
        let (kind, index) = (Json::text(no_total.kind), Json::Number(no_total.index));
        Json::Object(vec![("kind", kind), ("index", index), ("from_word", Json::Number(no_total.at))])
    };
    match none {
        NoStatement::Refused(refusal) => refused(refusal, line),
        NoStatement::Constraints(none) => {
            End::new(Status::Failed, line).with(vec![("no_totals", Json::List(none.iter().map(told).collect()))])
        }
        NoStatement::Matrices(place) => End::new(Status::Failed, line).with(vec![("word", Json::Number(place.index))]),
    }
}

//! `labrador load`

use std::ffi::OsStr;
use std::path::{Path, PathBuf};

use labrador::section_one::{Parameter, PARAMETERS};
use labrador::{load, Parameters};

use crate::args::{number, Args};
use crate::end::{unfit, usage, End, Outcome, Status};
use crate::files::bytes_of;
use crate::help::Command;
use crate::json::Json;
use crate::near::meant;
use crate::output::{self, Output};

/// The parameters that can be given, each with the value of one that is not given, and what it is.
pub fn parameters_help() -> Vec<(String, String)> {
    let each = PARAMETERS.iter().zip(Parameters::SMALL.words());
    let told = |(p, value): (&Parameter, u32)| {
        (format!("{}={value}", p.name), format!("{} ({} to {})", p.meaning, p.least, p.greatest))
    };
    each.map(told).collect()
}

pub const L_HELP: &str = "Where L is not given, it is 128 divided by log_q, rounded up.";

/// The parameters of `NAME=VALUE` arguments; an L that is not given is the least for log_q.
fn parameters(args: &Args) -> Result<Parameters, End> {
    let mut words = Parameters::SMALL.words();
    let mut given = Vec::new();
    for argument in &args.rest {
        let shown = argument.to_string_lossy();
        let Some((name, value)) = shown.split_once('=') else {
            return Err(usage(format!("{shown} is not NAME=VALUE; labrador load --help has the names")));
        };
        let Some(k) = PARAMETERS.iter().position(|p| p.name == name) else {
            let meant = meant(name, PARAMETERS.iter().map(|p| p.name));
            return Err(usage(format!("there is no parameter {name}{meant} labrador load --help has the names")));
        };
        if given.contains(&PARAMETERS[k].name) {
            return Err(usage(format!("{name} is given twice")));
        }
        words[k] = number(OsStr::new(value), name)?;
        given.push(PARAMETERS[k].name);
    }
    let parameters = Parameters::from_words(words);
    let least = parameters.least_aggregations();
    Ok(if given.contains(&"L") { parameters } else { Parameters { L: least, ..parameters } })
}

fn file(path: PathBuf, words: &[u32], secret: bool) -> Output<'_> {
    Output { path, secret, bytes: bytes_of(words) }
}

pub fn run(command: &Command, args: &Args) -> Outcome {
    let parameters = parameters(args)?;
    let seed = args.value("--seed").map_or(Ok(1), |seed| number(seed, "a seed"))?;
    let paths = ["--job", "--witness", "--randomness"].map(|name| args.needed(command, name));
    let [job, witness, randomness] = paths;
    let (job, witness, randomness) = (job?, witness?, randomness?);
    let force = args.flag("--force");
    let outputs: [&Path; 3] = [&job, &witness, &randomness];
    output::admit(&outputs, &[], force)?;
    let load = load(&parameters, seed).map_err(|refusal| unfit(refusal.to_string()))?;
    let lengths = [&load.job, &load.witness, &load.randomness].map(|words| words.len() as u64);
    let files =
        [file(job, &load.job, false), file(witness, &load.witness, true), file(randomness, &load.randomness, false)];
    output::write(&files, force)?;
    let [job, witness, randomness] = lengths;
    let line = format!("made a job of {job} words, a witness of {witness} and randomness of {randomness}");
    Ok(End::new(Status::Fine, line).with(vec![
        ("job", Json::Number(job)),
        ("witness", Json::Number(witness)),
        ("randomness", Json::Number(randomness)),
    ]))
}

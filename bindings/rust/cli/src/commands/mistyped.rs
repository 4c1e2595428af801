//! `labrador mistyped`

use std::path::PathBuf;

use labrador::Refusal;

use crate::args::Args;
use crate::end::{refused, End, Outcome, Status};
use crate::files::read_slice;
use crate::help::Command;
use crate::json::Json;
use crate::judge;
use crate::mends::{mends, Mend, WARNING};
use crate::page::SLICES;
use crate::progress::Progress;

/// A refusal in words; where check 22 is not the one that failed, what tells the verdict.
fn told(refusal: &Refusal, slices: [&[u32]; 3]) -> String {
    let words = judge::told(refusal, [0, 1, 2].map(|k| (SLICES[k], slices[k])));
    match refusal {
        Refusal::NotCheck22 => format!("{words}; labrador verify says what the verdict is"),
        _ => words,
    }
}

/// The line on the list.
fn summary(entries: usize) -> String {
    match entries {
        1 => "check 22 failed; one entry of b0, changed alone, would mend it".to_string(),
        entries => format!("check 22 failed; any one of {entries} entries of b0, changed alone, would mend it"),
    }
}

pub fn run(command: &Command, args: &Args) -> Outcome {
    args.no_rest(command)?;
    let names = ["--job", "--randomness", "--transcript"].map(|name| args.needed(command, name));
    let names: Vec<PathBuf> = names.into_iter().collect::<Result<_, End>>()?;
    let progress = Progress::start();
    progress.step("reading the job, the randomness and the transcript");
    let words = |k: usize| read_slice(SLICES[k], &names[k]).map(|file| file.words);
    let (job, randomness, transcript) = (words(0)?, words(1)?, words(2)?);
    progress.step("verifying, and looking for the constant");
    let found = mends(&job, &randomness, &transcript)
        .map_err(|refusal| refused(&refusal, told(&refusal, [&job, &randomness, &transcript])))?;
    let out = found.iter().map(|mend| format!("{}\n", mend.told())).collect();
    let fields = vec![("entries", Json::List(found.iter().map(Mend::json).collect()))];
    let end = End::new(Status::Fine, summary(found.len())).printing(out).with(fields);
    Ok(end.warning(vec![WARNING.to_string()]))
}

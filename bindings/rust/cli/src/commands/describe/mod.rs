//! `labrador describe`

use std::path::{Path, PathBuf};

use labrador::{Slice, ARCHIVE_SHA256};

use crate::args::Args;
use crate::end::{unfit, usage, End, Outcome, Status};
use crate::filed::{sha256_of, version, Filed};
use crate::files::{read, read_slice, Words};
use crate::help::Command;
use crate::json::Json;
use crate::judge;
use crate::shown;
use crate::stated::{Compared, Given};

use self::json::json_of;
use self::text::{describe, wrong};

mod json;
mod text;

/// A file with the slice that it is read as.
struct Read {
    path: PathBuf,
    words: Words,
    /// In hex; of a file that is longer than any slice it is not taken.
    sha256: Option<String>,
    kind: Option<Slice>,
}

/// The kind that `--as` names.
fn forced(args: &Args) -> Result<Option<Slice>, End> {
    let Some(name) = args.value("--as") else {
        return Ok(None);
    };
    let kind = Slice::ALL.into_iter().find(|slice| name == slice.name());
    match kind {
        Some(kind) => Ok(Some(kind)),
        None => Err(usage("--as takes job, randomness, witness or transcript")),
    }
}

/// The job that `--job` names, which is fit.
fn named_job(path: &Path) -> Result<Vec<u32>, End> {
    let words = read_slice(Slice::Job, path)?.words;
    match judge::refusal(Slice::Job, &words, &words) {
        Some(refusal) => Err(unfit(format!("{}: {refusal}", path.display()))),
        None => Ok(words),
    }
}

/// How the job stands to the statement that `--statement` names.
fn compared(given: &Given, job: Option<&[u32]>) -> Compared {
    match job.filter(|job| judge::refusal(Slice::Job, job, job).is_none()) {
        Some(job) => given.compared(job),
        None => Compared {
            same: false,
            told: vec![format!("there is no fit job to hold {} against", shown::name(given.path))],
        },
    }
}

/// The files, each of the kind that `--as` names.
fn read_files(args: &Args) -> Result<Vec<Read>, End> {
    let most = Slice::ALL.into_iter().map(Slice::greatest_length).max().unwrap_or(0) + 1;
    let kind = forced(args)?;
    let file = |path| {
        let words = read(Path::new(path), most)?;
        let sha256 = sha256_of(&words.words, most);
        Ok(Read { path: PathBuf::from(path), words, sha256, kind })
    };
    args.rest.iter().map(file).collect()
}

pub fn run(command: &Command, args: &Args) -> Outcome {
    if args.rest.is_empty() {
        return Err(usage(format!("describe takes a file or more; {}", command.hint())));
    }
    let filed = Filed::of(args)?;
    let given = args.file("--statement").map(Given::read).transpose()?;
    let mut files = read_files(args)?;
    let named = args.file("--job").map(named_job).transpose()?;
    let among = files.iter().find(|f| f.kind.or(judge::kind_of(&f.words.words, None)) == Some(Slice::Job));
    let job: Option<Vec<u32>> = named.or(among.map(|file| file.words.words.clone()));
    for file in &mut files {
        file.kind = file.kind.or(judge::kind_of(&file.words.words, job.as_deref()));
    }
    let (mut out, mut list, mut first) = (String::new(), Vec::new(), None);
    for file in &files {
        let wrong = wrong(file, job.as_deref());
        let told = describe(file, job.as_deref(), wrong.as_deref());
        out += &format!("{}{told}", if out.is_empty() { "" } else { "\n" });
        list.push(json_of(file, job.as_deref(), wrong.as_deref()));
        first = first.or(wrong.map(|wrong| format!("{}: {wrong}", file.path.display())));
    }
    let compared = given.as_ref().map(|given| compared(given, job.as_deref()));
    let told = compared.as_ref().map(|compared| compared.told.clone()).unwrap_or_default();
    let differs = compared.filter(|compared| !compared.same).and_then(|compared| compared.told.last().cloned());
    let status = match (&first, &differs) {
        (Some(_), _) => Status::Unfit,
        (None, Some(_)) => Status::Failed,
        (None, None) => Status::Fine,
    };
    out += &format!("\n{}, SHA-256 of its archive {ARCHIVE_SHA256}\n", version());
    out.extend(filed.given().map(|(name, text)| format!("{name}: {text}\n")));
    out.extend(told.iter().map(|line| format!("{line}\n")));
    let fields = vec![("files", Json::List(list)), ("compared", Json::List(told.iter().map(Json::text).collect()))];
    Ok(End::new(status, first.or(differs).unwrap_or_default()).printing(out).with(fields).with(filed.fields()))
}

//! `labrador verify`

use std::path::Path;

use labrador::{verify, FailedCheck, Refusal, Verdict};

use crate::args::Args;
use crate::end::{End, Outcome, Status};
use crate::filed::Filed;
use crate::files::{read_slice, Bytes};
use crate::help::Command;
use crate::json::Json;
use crate::judge;
use crate::output::{self, Output};
use crate::page::{page, Report, SLICES};
use crate::progress::Progress;
use crate::stated::{Compared, Given};
use crate::worth::{listed, warnings, Told};

/// The figures of a failed check.
fn figures(check: &FailedCheck) -> Vec<(&'static str, Json)> {
    match check {
        FailedCheck::ProjectionNorm { norm, limit } => vec![("norm", Json::text(norm)), ("limit", Json::text(limit))],
        FailedCheck::ConstantTerm { row, sent, worked_out } => vec![
            ("row", Json::Number((*row).into())),
            ("sent", Json::text(sent)),
            ("worked_out", Json::text(worked_out)),
        ],
        FailedCheck::NormSum { sum, limit } => vec![("sum", Json::text(sum)), ("limit", Json::text(limit))],
        _ => Vec::new(),
    }
}

fn place_of(refusal: &Refusal) -> Vec<(&'static str, Json)> {
    let mut fields = vec![("place", Json::Number(refusal.place()))];
    if let Some(place) = refusal.word() {
        fields.push(("slice", Json::text(place.slice.name())));
        fields.push(("at", Json::text(&place.spot)));
        fields.push(("word", place.found.map_or(Json::Null, |word| Json::Number(word.into()))));
    }
    fields
}

/// A verdict's status, and what it is for machines.
pub fn told(verdict: &Verdict) -> (Status, Vec<(&'static str, Json)>) {
    let (status, kind, more) = match verdict {
        Verdict::Accepted { cells_left } => (Status::Fine, "accepted", vec![("cells_left", Json::Number(*cells_left))]),
        Verdict::Failed(check) => (Status::Failed, "failed", figures(check)),
        Verdict::Refused(refusal) => (Status::Unfit, "refused", place_of(refusal)),
    };
    let number = Json::Number(verdict.number().into());
    let told = vec![("verdict", Json::text(kind)), ("number", number)];
    (status, [told, more].concat())
}

/// `; 11 cells with something left` where there are any.
fn cells(cells_left: u64) -> String {
    match cells_left {
        0 => String::new(),
        1 => "; 1 cell with something left".to_string(),
        cells_left => format!("; {cells_left} cells with something left"),
    }
}

/// A verdict in words, an acceptance with what it is worth; a refused file that is fit as another slice is told.
pub fn line(verdict: &Verdict, slices: [&[u32]; 3], job: Option<&Told>, warnings: &[String]) -> String {
    match (verdict, job) {
        (Verdict::Refused(refusal), _) => judge::told(refusal, [0, 1, 2].map(|k| (SLICES[k], slices[k]))),
        (Verdict::Accepted { cells_left }, Some(job)) => {
            format!("accepted; {}{}", job.short(&job.worth_with(warnings)), cells(*cells_left))
        }
        _ => verdict.to_string(),
    }
}

/// An end of acceptances is a failure under --strict where any statement is accepted, a check can never fail, or weights are all zero.
pub fn strict(end: End, job: Option<&Told>, zero_weights: bool, args: &Args) -> End {
    let never = job.map(Told::never_fail).unwrap_or_default();
    let tests = if never.len() == 1 { "test" } else { "tests" };
    let never = (!never.is_empty()).then(|| format!("{tests} {} can never fail", listed(&never)));
    let zero = zero_weights.then(|| "weights are all zero".to_string());
    let certain = job.is_some_and(|job| job.worth.certain).then(|| "any statement is accepted".to_string());
    let reasons: Vec<String> = certain.into_iter().chain(never).chain(zero).collect();
    if end.status != Status::Fine || !args.flag("--strict") || reasons.is_empty() {
        return end;
    }
    End { status: Status::Failed, line: format!("{}; --strict: {}", end.line, reasons.join(", ")), ..end }
}

/// An end of acceptances is a failure where the job is not that of the statement that `--statement` names.
pub fn held(end: End, compared: Option<&Compared>) -> End {
    let Some(compared) = compared else {
        return end;
    };
    let end = end.with(vec![("compared", Json::List(compared.told.iter().map(Json::text).collect()))]);
    let status = if end.status == Status::Fine { Status::Failed } else { end.status };
    match compared.same {
        true => end,
        false => End { status, line: format!("{}; {}", end.line, compared.told.join("; ")), ..end },
    }
}

/// Writes the page; where it fails, the verdict is told with it.
pub fn write_page(path: &Path, page: String, force: bool, end: &End) -> Result<(), End> {
    let file = Output { path: path.to_path_buf(), secret: false, bytes: Bytes::Text(page) };
    output::write(&[file], force).map_err(|failed| {
        let line = format!("{}, but the page was not written: {}", end.line, failed.line);
        let (out, warnings) = (end.out.clone(), end.warnings.clone());
        End { out, warnings, ..End::new(Status::FileSystem, line) }.with(end.fields.clone())
    })
}

pub fn run(command: &Command, args: &Args) -> Outcome {
    args.no_rest(command)?;
    let filed = Filed::of(args)?;
    let [job, randomness, transcript] =
        ["--job", "--randomness", "--transcript"].map(|name| args.needed(command, name));
    let names = [job?, randomness?, transcript?];
    let names = [0, 1, 2].map(|k: usize| names[k].as_path());
    let (report, force) = (args.file("--report"), args.flag("--force"));
    let outputs: Vec<&Path> = report.into_iter().collect();
    let stated = args.file("--statement");
    output::admit(&outputs, &names.into_iter().chain(stated).collect::<Vec<_>>(), force)?;
    let given = stated.map(Given::read).transpose()?;
    let progress = Progress::start();
    progress.step("reading the job, the randomness and the transcript");
    let [job, randomness, transcript] = [0, 1, 2].map(|k: usize| read_slice(SLICES[k], names[k]));
    let (job, randomness, transcript) = (job?.words, randomness?.words, transcript?.words);
    progress.step("verifying: the slices, then the checks 21 to 29");
    let verdict = verify(&job, &randomness, &transcript);
    progress.step("reviewing the job");
    let told_of_job = Told::of(&job).ok();
    let warnings = warnings(&verdict, &job, &randomness);
    let slices: [&[u32]; 3] = [&job, &randomness, &transcript];
    let (status, fields) = told(&verdict);
    let no_findings = || vec![("findings", Json::List(Vec::new()))];
    let of_job = told_of_job.as_ref().map_or_else(no_findings, |job| job.fields(&job.worth_with(&warnings)));
    let said = line(&verdict, slices, told_of_job.as_ref(), &warnings);
    let end = strict(End::new(status, said).judging(), told_of_job.as_ref(), !warnings.is_empty(), args);
    let end = end.with(fields).with(of_job).with(filed.fields()).warning(warnings.clone());
    let compared = given.as_ref().filter(|_| told_of_job.is_some()).map(|given| given.compared(&job));
    let end = held(end, compared.as_ref());
    if let Some(path) = report {
        progress.step("writing the page");
        let (job, compared) = (told_of_job.as_ref(), compared.as_ref());
        let page =
            page(&Report { names, slices, verdict: &verdict, job, warnings: &warnings, compared, filed: &filed });
        write_page(path, page, force, &end)?;
    }
    Ok(end)
}

//! `labrador verify-many`

use std::num::NonZeroUsize;
use std::path::Path;

use labrador::section_one::SectionOne;
use labrador::worth::{repeats_of, Marker, Marks};
use labrador::{verify_each, Refusal, Sent, Slice, Verdict};

use crate::args::Args;
use crate::commands::verify::{held, line, strict, told, write_page};
use crate::end::{self, usage, End, Outcome, Status};
use crate::filed::Filed;
use crate::files::{append_slice, read_slice, there};
use crate::help::Command;
use crate::json::Json;
use crate::output;
use crate::page::many::{page, Report};
use crate::page::record;
use crate::progress::Progress;
use crate::shown;
use crate::stated::Given;
use crate::worth::{together, together_sentence, warnings, Told};

fn refused(refusal: Refusal) -> End {
    end::refused(&refusal, refusal.to_string()).judging()
}

/// A transcript that was judged, without its words.
pub struct Judged {
    /// The files of the randomness and of the transcript.
    pub names: [String; 2],
    pub verdict: Verdict,
    /// The verdict in words.
    pub says: String,
    /// What is to be told of its randomness.
    pub warnings: Vec<String>,
    /// Its two files with their hashes, where there is a page.
    pub records: Vec<String>,
    /// Its marks, where it can count: accepted, and no weights of its randomness are all zero.
    marks: Option<Marks>,
}

/// What is said of all transcripts together.
pub struct Together {
    pub accepted: usize,
    pub counted: u32,
    /// What they are worth, where all are accepted.
    pub worth: Option<String>,
    /// What the accepted ones are worth and on what that rests, where there is one.
    says: Option<String>,
    /// What is to be told of randomness, and of what is handed in twice.
    pub warnings: Vec<String>,
}

/// The job, and what every transcript is judged with.
struct Desk {
    job: Vec<u32>,
    told: Told,
    marker: Marker,
    /// Whether there is a page.
    has_page: bool,
}

impl Desk {
    fn new(job: Vec<u32>, has_page: bool) -> Result<Desk, End> {
        let told = Told::of(&job).map_err(refused)?;
        let p = SectionOne::read(&job).expect("the job is fit").parameters;
        Ok(Desk { job, told, marker: Marker::new(&p), has_page })
    }

    fn judged(&self, pair: &[&Path], verdict: Verdict, sent: Sent) -> Judged {
        let warnings = warnings(&verdict, &self.job, sent.randomness);
        let says = line(&verdict, [&self.job, sent.randomness, sent.transcript], Some(&self.told), &warnings);
        let can_count = verdict.is_accepted() && warnings.is_empty();
        let marks = can_count.then(|| self.marker.marks(&sent));
        let slices = [(Slice::Randomness, sent.randomness), (Slice::Transcript, sent.transcript)];
        let files = slices.into_iter().zip(pair).filter(|_| self.has_page);
        let records = files.map(|((slice, words), name)| record::file(slice, name, words)).collect();
        Judged { names: [0, 1].map(|k| shown::name(pair[k])), verdict, says, warnings, records, marks }
    }

    /// How many of the transcripts count, and what is to be told of them.
    fn together(&self, judged: &[Judged]) -> Together {
        let named = |one: &Judged| one.warnings.iter().map(|w| format!("{}: {w}", one.names[1])).collect::<Vec<_>>();
        let mut warnings: Vec<String> = judged.iter().flat_map(named).collect();
        let (can, marks): (Vec<&Judged>, Vec<Marks>) =
            judged.iter().filter_map(|one| Some((one, one.marks.clone()?))).unzip();
        let repeats = repeats_of(&marks);
        warnings.extend(repeats.iter().map(|repeat| {
            let (name, of) = (&can[repeat.index].names[1], &can[repeat.of].names[1]);
            format!("{name} has {} of {of}: the two count once", repeat.shared)
        }));
        let counted = (can.len() - repeats.len()) as u32;
        let accepted = judged.iter().filter(|one| one.verdict.is_accepted()).count();
        let worth = (accepted == judged.len()).then(|| together(&self.told.worth, counted));
        let says = together_sentence(&self.told.worth, judged.len(), accepted, counted);
        Together { accepted, counted, worth, says, warnings }
    }
}

impl Together {
    /// `8 of 8 transcripts accepted`
    fn counted_of(&self, judged: usize) -> String {
        let few = match self.counted as usize == self.accepted {
            true => String::new(),
            false => format!(", {} of them counted", self.counted),
        };
        format!("{} of {judged} transcripts accepted{few}", self.accepted)
    }

    /// `8 of 8 transcripts accepted; together: 1 in 1.9·10^15 (50.7 bits)`
    pub fn short(&self, judged: usize) -> String {
        match &self.worth {
            Some(worth) => format!("{}; together: {worth}", self.counted_of(judged)),
            None => self.counted_of(judged),
        }
    }

    /// On what the short line rests; where not all are accepted, what those that are would be worth.
    pub fn rests_on(&self) -> Option<String> {
        match self.worth {
            Some(_) => Some(
                "what is said of them together holds if the desk drew the randomness and nothing was tried again"
                    .to_string(),
            ),
            None => self.says.clone(),
        }
    }
}

/// The line on all of them.
fn end_line(desk: &Desk, judged: &[Judged], together: &Together) -> String {
    let told = [Some(together.counted_of(judged.len())), together.says.clone(), Some(desk.told.things())];
    told.into_iter().flatten().collect::<Vec<_>>().join("; ")
}

/// Each transcript's line and object, and the worst status.
fn each(judged: &[Judged]) -> (Status, String, Vec<Json>) {
    let (mut worst, mut out, mut list) = (Status::Fine, String::new(), Vec::new());
    for one in judged {
        let (status, fields) = told(&one.verdict);
        if status as u8 > worst as u8 {
            worst = status;
        }
        out += &format!("{}: {}\n", one.names[1], one.says);
        let named = vec![("transcript", Json::text(&one.names[1])), ("says", Json::text(&one.says))];
        list.push(Json::Object([named, fields].concat()));
    }
    (worst, out, list)
}

fn end_of(desk: &Desk, judged: &[Judged], together: &Together, args: &Args) -> End {
    let (worst, out, list) = each(judged);
    let fields = vec![
        ("accepted", Json::Number(together.accepted as u64)),
        ("counted", Json::Number(together.counted.into())),
        ("together", together.worth.clone().map_or(Json::Null, Json::Text)),
        ("verdicts", Json::List(list)),
    ];
    let zero_weights = judged.iter().any(|one| !one.warnings.is_empty());
    let end = End::new(worst, end_line(desk, judged, together)).judging();
    let end = strict(end, Some(&desk.told), zero_weights, args);
    let of_job = desk.told.fields(&desk.told.worth);
    end.printing(out).with(fields).with(of_job).warning(together.warnings.clone())
}

/// The number of threads: that of the processors where none is given.
fn threads(args: &Args) -> Result<NonZeroUsize, End> {
    let Some(given) = args.value("--threads") else {
        return Ok(std::thread::available_parallelism().unwrap_or(NonZeroUsize::MIN));
    };
    let shown = given.to_string_lossy();
    shown.parse().map_err(|_| usage(format!("--threads is a number from 1 on, not {shown}")))
}

/// Reads and judges, group after group.
fn judge(desk: &Desk, pairs: &[&[&Path]], threads: NonZeroUsize) -> Result<Vec<Judged>, End> {
    let read = |index: usize, randomness: &mut Vec<u32>, transcript: &mut Vec<u32>| {
        append_slice(Slice::Randomness, pairs[index][0], randomness)?;
        append_slice(Slice::Transcript, pairs[index][1], transcript).map(drop)
    };
    let told = |index: usize, verdict, sent: Sent| desk.judged(pairs[index], verdict, sent);
    verify_each(&desk.job, pairs.len(), threads, read, told).map_err(refused)?.into_iter().collect()
}

pub fn run(command: &Command, args: &Args) -> Outcome {
    let names: Vec<&Path> = args.rest.iter().map(Path::new).collect();
    if names.is_empty() || !names.len().is_multiple_of(2) {
        return Err(usage(format!("verify-many takes a randomness before each transcript; {}", command.hint())));
    }
    let (job, threads, filed) = (args.needed(command, "--job")?, threads(args)?, Filed::of(args)?);
    let (report, stated, force) = (args.file("--report"), args.file("--statement"), args.flag("--force"));
    let inputs: Vec<&Path> = names.iter().copied().chain([job.as_path()]).chain(stated).collect();
    output::admit(&report.into_iter().collect::<Vec<_>>(), &inputs, force)?;
    let given = stated.map(Given::read).transpose()?;
    names.iter().try_for_each(|name| there(name))?;
    let progress = Progress::start();
    progress.step("reviewing the job");
    let desk = Desk::new(read_slice(Slice::Job, &job)?.words, report.is_some())?;
    let pairs: Vec<&[&Path]> = names.chunks(2).collect();
    progress.step("reading and verifying: the slices, then the checks 21 to 29 of each");
    let judged = judge(&desk, &pairs, threads)?;
    let together = desk.together(&judged);
    let compared = given.map(|given| given.compared(&desk.job));
    let end = end_of(&desk, &judged, &together, args).with(filed.fields());
    let end = held(end, compared.as_ref());
    if let Some(path) = report {
        progress.step("writing the page");
        let (told, words, compared) = (&desk.told, &desk.job[..], compared.as_ref());
        let (judged, together, filed) = (&judged, &together, &filed);
        let report = Report { job: &job, words, told, judged, together, compared, filed };
        write_page(path, page(&report), force, &end)?;
    }
    Ok(end)
}

//! `labrador review`

use std::path::Path;

use labrador::review::Finding;
use labrador::Slice;

use crate::args::Args;
use crate::end::{unfit, usage, End, Outcome, Status};
use crate::files::read_slice;
use crate::help::Command;
use crate::worth::{chance_sentence, count, drawn_sentence, joint_sentence, Told};

pub fn run(command: &Command, args: &Args) -> Outcome {
    let [job] = args.rest.as_slice() else {
        return Err(usage(format!("review takes one job; {}", command.hint())));
    };
    let job = read_slice(Slice::Job, Path::new(job))?;
    let told = Told::of(&job.words).map_err(|refusal| unfit(refusal.to_string()))?;
    let status = match told.findings.iter().all(Finding::holds_of_every_job) {
        true => Status::Fine,
        false => Status::Failed,
    };
    let first = [chance_sentence(&told.worth), drawn_sentence(&told.worth)];
    let findings = told.findings.iter().map(|finding| finding.to_string());
    let lines = first.into_iter().chain(joint_sentence(&told.worth)).chain(findings);
    let out = lines.map(|line| format!("{line}\n")).collect();
    let joint = ("transcripts_for_64_bits_joint_hash", count(told.worth.joint_needed(64)));
    let mut fields = told.fields(&told.worth);
    fields.insert(2, joint);
    Ok(End::new(status, told.short(&told.worth)).printing(out).with(fields))
}

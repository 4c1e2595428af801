//! `labrador stock`

use std::path::Path;

use labrador::section_one::SectionOne;
use labrador::statement::Stock;
use labrador::{output_need, Slice};

use crate::args::Args;
use crate::end::{refused, usage, End, Outcome, Status};
use crate::files::{bytes_of, read_slice};
use crate::help::Command;
use crate::json::Json;
use crate::output::{self, Output};
use crate::texts;

pub fn run(command: &Command, args: &Args) -> Outcome {
    let [file] = args.rest.as_slice() else {
        return Err(usage(format!("stock takes one list; {}", command.hint())));
    };
    let (file, job) = (Path::new(file), args.needed(command, "--job")?);
    let (path, force) = (args.needed(command, "--witness")?, args.flag("--force"));
    output::admit(&[&path], &[file, &job], force)?;
    let job = read_slice(Slice::Job, &job)?.words;
    output_need(&job).map_err(|refusal| refused(&refusal, refusal.to_string()))?;
    let p = SectionOne::read(&job).expect("the job is fit").parameters;
    let stock = Stock::parse(&p, &texts::read(file)?).map_err(|mistakes| texts::wrong(file, &mistakes))?;
    let witness = stock.witness();
    output::write(&[Output { path, secret: true, bytes: bytes_of(&witness) }], force)?;
    let line = format!("made a witness of {} words", witness.len());
    Ok(End::new(Status::Fine, line).with(vec![("witness", Json::Number(witness.len() as u64))]))
}

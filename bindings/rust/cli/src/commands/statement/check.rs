//! `labrador check`

use labrador::statement::{check, Checked, Side};
use labrador::Slice;

use super::counted;
use crate::args::Args;
use crate::end::{refused, End, Outcome, Status};
use crate::files::read_slice;
use crate::help::Command;
use crate::json::Json;
use crate::judge;

/// So many terms of a total are told beside its figures.
const TERMS: usize = 4;

/// `total 2` or `ring constraint 0`.
fn name(side: &Side) -> String {
    match side.total {
        Some(_) => format!("total {}", side.index),
        None => format!("{} {}", side.kind, side.index),
    }
}

fn verdict(side: &Side) -> &'static str {
    match (side.is_met(), side.is_met_modulo_q()) {
        (true, _) => "met",
        (false, true) => "met modulo Q only",
        (false, false) => "missed",
    }
}

/// `total 1 is missed: left 61, right 60, difference 1, in grams (total 60 = s0)`
pub fn told(side: &Side) -> String {
    let Side { left, right, coefficient, .. } = side;
    let at = if *coefficient == 0 { String::new() } else { format!(" at coefficient {coefficient}") };
    let (name, verdict, difference) = (name(side), verdict(side), side.difference());
    let out = format!("{name} is {verdict}{at}: left {left}, right {right}, difference {difference}");
    match &side.total {
        Some(total) => format!("{out}, in grams ({})", total.cut(TERMS)),
        None => out,
    }
}

fn norm_told(checked: &Checked, vector: usize) -> String {
    let (norm, bound) = (checked.norms[vector], checked.bound);
    let held = if norm > bound { "is above" } else { "is at most" };
    format!("vector {vector}: norm {norm} {held} A's bound {bound}")
}

/// For machines.
pub fn figures(side: &Side) -> Vec<(&'static str, Json)> {
    vec![
        ("constraint", Json::text(name(side))),
        ("verdict", Json::text(verdict(side))),
        ("left", Json::text(side.left)),
        ("right", Json::text(side.right)),
        ("difference", Json::text(side.difference())),
    ]
}

/// How many constraints are met, in words.
pub fn met(checked: &Checked) -> String {
    let kind = if checked.sides.iter().all(|side| side.total.is_some()) { "total" } else { "constraint" };
    let all = counted(checked.sides.len(), kind);
    match (checked.missed(), checked.modulo_q()) {
        (0, 0) if checked.sides.len() == 1 => format!("the {kind} is met"),
        (0, 0) => format!("all {all} are met"),
        (0, modulo) => format!("{modulo} of {all} met modulo Q only"),
        (missed, 0) => format!("{missed} of {all} missed"),
        (missed, modulo) => format!("{missed} of {all} missed, {modulo} met modulo Q only"),
    }
}

fn summary(checked: &Checked) -> String {
    let first = met(checked);
    let vectors = counted(checked.norms.len(), "vector");
    let second = match checked.above() {
        0 => format!("no norm of {vectors} is above A's bound"),
        above => format!("{above} of {vectors} above A's bound"),
    };
    format!("{first}, {second}")
}

pub fn run(command: &Command, args: &Args) -> Outcome {
    args.no_rest(command)?;
    let (job, witness) = (args.needed(command, "--job")?, args.needed(command, "--witness")?);
    let job = read_slice(Slice::Job, &job)?.words;
    let witness = read_slice(Slice::Witness, &witness)?.words;
    let checked = check(&job, &witness).map_err(|refusal| {
        let handed = [(Slice::Job, &job[..]), (Slice::Witness, &witness), (Slice::Randomness, &[])];
        refused(&refusal, judge::told(&refusal, handed))
    })?;
    let sides = checked.sides.iter().map(told);
    let norms = (0..checked.norms.len()).map(|vector| norm_told(&checked, vector));
    let out = sides.chain(norms).map(|line| format!("{line}\n")).collect();
    let fields = vec![
        ("constraints", Json::List(checked.sides.iter().map(|side| Json::Object(figures(side))).collect())),
        ("norms", Json::List(checked.norms.iter().map(Json::text).collect())),
        ("bound_A", Json::text(checked.bound)),
    ];
    let fine = checked.sides.iter().all(Side::is_met) && checked.above() == 0;
    let status = if fine { Status::Fine } else { Status::Failed };
    Ok(End::new(status, summary(&checked)).printing(out).with(fields))
}

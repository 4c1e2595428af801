//! `labrador bounds`

use std::path::Path;

use labrador::section_one::BOUNDS;
use labrador::statement::{check, fit, total_lines, Checked, Fit, Side, Statement, Stock};
use labrador::Refusal;

use super::check::{figures, met, told};
use crate::args::{number, Args};
use crate::end::{refused, usage, End, Outcome, Status};
use crate::help::Command;
use crate::json::Json;
use crate::progress::Progress;
use crate::texts;

/// How many sessions are tried, and the slack in hundredths, where they are not given.
const SESSIONS: u32 = 40;
const SLACK: u32 = 10;

/// The totals that the stock does not meet, with their lines in the file.
struct Missed<'a> {
    file: &'a Path,
    sides: Vec<(&'a Side, usize)>,
}

impl<'a> Missed<'a> {
    fn of(file: &'a Path, text: &str, checked: &'a Checked) -> Missed<'a> {
        let sides = checked.sides.iter().zip(total_lines(text)).filter(|(side, _)| !side.is_met()).collect();
        Missed { file, sides }
    }

    /// A line each, then how many there are, before what is told of the sessions.
    fn told(&self, checked: &Checked, sessions: String) -> Vec<String> {
        let each =
            self.sides.iter().map(|(side, line)| format!("{}: line {line}: {}", self.file.display(), told(side)));
        let all = if self.sides.is_empty() { sessions } else { format!("{}; {sessions}", met(checked)) };
        each.chain([all]).collect()
    }

    fn json(&self) -> Json {
        let line = |line: usize| ("line", Json::Number(line as u64));
        let object = |(side, at): &(&Side, usize)| Json::Object([vec![line(*at)], figures(side)].concat());
        Json::List(self.sides.iter().map(object).collect())
    }
}

/// How many sessions pass.
fn passed(fit: &Fit) -> (usize, String) {
    let passed = fit.verdicts.iter().filter(|verdict| verdict.is_accepted()).count();
    let told = format!("with these bounds {passed} of {} honest transcripts pass", fit.verdicts.len());
    match fit.verdicts.iter().find(|verdict| !verdict.is_accepted()) {
        Some(verdict) => (passed, format!("{told}; the first of the others: {verdict}")),
        None => (passed, told),
    }
}

pub fn run(command: &Command, args: &Args) -> Outcome {
    args.no_rest(command)?;
    let (file, list) = (args.needed(command, "--statement")?, args.needed(command, "--stock")?);
    let given = |name: &'static str, default| args.value(name).map_or(Ok(default), |value| number(value, name));
    let (slack, sessions) = (given("--slack", SLACK)?, given("--sessions", SESSIONS)?);
    if sessions == 0 {
        return Err(usage("--sessions is a number from 1 on"));
    }
    let text = texts::read(&file)?;
    let statement = Statement::parse_without_bounds(&text).map_err(|mistakes| texts::wrong(&file, &mistakes))?;
    let stock = Stock::parse(statement.parameters(), &texts::read(&list)?);
    let stock = stock.map_err(|mistakes| texts::wrong(&list, &mistakes))?;
    let progress = Progress::start();
    progress.step(format!("proving and verifying {sessions} sessions"));
    let refused = |refusal: Refusal| refused(&refusal, refusal.to_string());
    let checked = check(&statement.job(), &stock.witness()).map_err(refused)?;
    let fit = fit(&statement, &stock, slack, sessions).map_err(refused)?;
    drop(progress);
    let missed = Missed::of(&file, &text, &checked);
    let (passed, told) = passed(&fit);
    let out = BOUNDS.iter().zip(fit.bounds).map(|(bound, value)| format!("{} {value}\n", bound.name)).collect();
    let bounds = BOUNDS.iter().zip(fit.bounds).map(|(bound, value)| (bound.name, Json::text(value))).collect();
    let counts = [("passed", passed as u64), ("sessions", sessions.into())].map(|(name, n)| (name, Json::Number(n)));
    let fields = vec![("bounds", Json::Object(bounds)), ("missed", missed.json())];
    let fine = passed == fit.verdicts.len() && missed.sides.is_empty();
    let status = if fine { Status::Fine } else { Status::Failed };
    Ok(End::of_lines(status, &missed.told(&checked, told)).printing(out).with(fields).with(counts.to_vec()))
}

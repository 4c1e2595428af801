//! `labrador explain`

use labrador::meaning::{meaning, Meaning, MEANINGS};

use crate::args::Args;
use crate::end::{usage, End, Outcome, Status};
use crate::help::Command;
use crate::json::Json;

fn fields(m: &Meaning) -> Vec<(&'static str, Json)> {
    vec![
        ("number", Json::Number(m.number.into())),
        ("kind", Json::text(if m.is_check() { "check" } else { "refusal" })),
        ("short", Json::text(m.short)),
        ("cause", Json::text(m.cause)),
        ("place", Json::text(m.place)),
        ("follows", Json::text(m.follows)),
    ]
}

fn told(m: &Meaning) -> String {
    let place = if m.is_check() { "figures" } else { "place" };
    format!(
        "{}: {}\n  {:<8} {}\n  {:<8} {}\n  {:<8} {}\n",
        m.title(),
        m.short,
        "cause:",
        m.cause,
        format!("{place}:"),
        m.place,
        "meaning:",
        m.follows
    )
}

pub fn run(command: &Command, args: &Args) -> Outcome {
    let [number] = args.rest.as_slice() else {
        return match args.rest.first() {
            None => all(),
            Some(_) => Err(usage(format!("explain takes one number; {}", command.hint()))),
        };
    };
    let shown = number.to_string_lossy();
    if shown.parse() == Ok(0u32) {
        let out = "0: accepted, or made: nothing is refused and every check passed; labrador review JOB says what an acceptance is worth\n".to_string();
        return Ok(End::new(Status::Fine, "").printing(out).with(vec![("number", Json::Number(0))]));
    }
    match shown.parse().ok().and_then(meaning) {
        Some(m) => Ok(End::new(Status::Fine, "").printing(told(m)).with(fields(m))),
        None => Err(usage(format!("no answer has the number {shown}; labrador explain lists them"))),
    }
}

fn all() -> Outcome {
    let line = |m: &Meaning| format!("{:<10} {}\n", m.title(), m.short);
    let rows = MEANINGS.iter().map(|m| Json::Object(fields(m))).collect();
    let out = MEANINGS.iter().map(line).collect();
    Ok(End::new(Status::Fine, "").printing(out).with(vec![("numbers", Json::List(rows))]))
}

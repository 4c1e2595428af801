//! The commands.

use std::ffi::OsString;

use crate::args::Args;
use crate::end::{usage, End, Outcome, Status};
use crate::filed::version;
use crate::help::{self, Command};
use crate::json::Json;
use crate::near::meant;

pub mod describe;
pub mod draw;
pub mod explain;
pub mod load;
pub mod many;
pub mod mistyped;
pub mod prove;
pub mod ranges;
pub mod review;
pub mod round;
pub mod sheds;
pub mod statement;
pub mod verify;

type Run = fn(&Command, &Args) -> Outcome;

fn found(name: &str) -> Option<(&'static Command, Run)> {
    let runs: [Run; 19] = [
        load::run,
        describe::run,
        review::run,
        prove::run,
        round::run,
        draw::run,
        verify::run,
        many::run,
        mistyped::run,
        sheds::parts,
        sheds::projection,
        sheds::rows,
        sheds::add,
        statement::run,
        statement::stock::run,
        statement::check::run,
        statement::bounds::run,
        ranges::run,
        explain::run,
    ];
    help::COMMANDS.into_iter().zip(runs).find(|(command, _)| command.name == name)
}

/// A text that is asked for; for machines by its name.
fn printed(name: &'static str, text: String) -> Outcome {
    let field = (name, Json::text(text.trim_end()));
    Ok(End::new(Status::Fine, "").printing(text).with(vec![field]))
}

fn no_command(name: &str) -> End {
    let names = help::COMMANDS.iter().map(|command| command.name).chain(["help"]);
    usage(format!("there is no command {name}{} labrador help names them", meant(name, names)))
}

/// `labrador help` with what stands behind it.
fn help_on(topics: &[String]) -> Outcome {
    match topics.iter().map(String::as_str).collect::<Vec<_>>()[..] {
        [] | ["help" | "--help" | "-h"] => printed("help", help::general()),
        ["--man"] => printed("man", help::man::page()),
        ["--bash"] => printed("bash", help::completions::bash()),
        ["--zsh"] => printed("zsh", help::completions::zsh()),
        [name] => found(name).map_or_else(|| Err(no_command(name)), |(command, _)| printed("help", command.help())),
        _ => Err(usage("help takes one command; labrador help names them")),
    }
}

pub fn run(arguments: &[OsString]) -> Outcome {
    // --json may stand before the command too
    let before = arguments.iter().take_while(|argument| *argument == "--json").count();
    let Some((name, rest)) = arguments[before..].split_first() else {
        return Err(usage("no command is given; labrador help names them"));
    };
    let name = name.to_string_lossy();
    let others = rest.iter().filter(|argument| *argument != "--json").map(|other| other.to_string_lossy().into_owned());
    match name.as_ref() {
        "help" | "--help" | "-h" => return help_on(&others.collect::<Vec<_>>()),
        "--version" | "-V" => return printed("version", format!("{}\n", version())),
        _ => {}
    }
    let Some((command, run)) = found(&name) else {
        return Err(no_command(&name));
    };
    if rest.iter().take_while(|a| *a != "--").any(|a| a == "--help" || a == "-h") {
        return printed("help", command.help());
    }
    run(command, &Args::parse(command, &[&arguments[..before], rest].concat())?)
}

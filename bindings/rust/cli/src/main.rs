//! labrador: proves, verifies, describes and reviews from the command line. `labrador help` says how.
#![forbid(unsafe_code)]

use std::ffi::OsString;
use std::process::ExitCode;

mod args;
mod commands;
mod constraints;
mod end;
mod filed;
mod files;
mod help;
mod json;
mod judge;
mod mends;
mod near;
mod numbers;
mod output;
mod page;
mod progress;
mod shown;
mod stated;
mod texts;
mod worth;

fn main() -> ExitCode {
    let arguments: Vec<OsString> = std::env::args_os().skip(1).collect();
    let json = arguments.iter().take_while(|argument| *argument != "--").any(|argument| argument == "--json");
    match commands::run(&arguments) {
        Ok(end) | Err(end) => end.say(json),
    }
}

//! Runs of the binary.

use std::process::{Command, Output, Stdio};

use crate::desk::Desk;

pub const BINARY: &str = env!("CARGO_BIN_EXE_labrador");

/// What a run gave.
pub struct Ran {
    pub status: i32,
    /// Standard output, and standard error.
    pub streams: [String; 2],
    /// Standard output without a verdict.
    pub out: String,
    /// Standard error, then the verdict that ends standard output.
    pub line: String,
}

pub fn ran(output: Output) -> Ran {
    let status = output.status.code().expect("it is not killed");
    let streams = [output.stdout, output.stderr].map(|bytes| String::from_utf8(bytes).expect("text"));
    let verdict = streams[0].lines().last().filter(|line| line.starts_with("labrador: "));
    let verdict = verdict.map(|line| format!("{line}\n")).unwrap_or_default();
    let out = streams[0].strip_suffix(&verdict).expect("its end").to_string();
    Ran { status, out, line: format!("{}{verdict}", streams[1]), streams }
}

/// Runs the binary in a desk's folder with arguments parted by spaces.
pub fn run(desk: &Desk, arguments: &str) -> Ran {
    let mut command = Command::new(BINARY);
    command.args(arguments.split(' ').filter(|a| !a.is_empty())).current_dir(&desk.folder).stdin(Stdio::null());
    ran(command.output().expect("the binary runs"))
}

pub const VERIFY: &str = "verify --job job --randomness randomness --transcript transcript";
pub const PROVE: &str = "prove --job job --randomness randomness --witness witness";
pub const LOAD: &str = "load --job job --witness witness --randomness randomness";

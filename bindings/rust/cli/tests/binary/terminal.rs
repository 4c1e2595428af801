//! What is said on a terminal, and only there.
#![cfg(unix)]

use std::process::{Command, Stdio};

use crate::common::with_answer;
use crate::desk::Desk;
use crate::run::{run, BINARY, PROVE};

/// A proof whose job comes late, by a pipe; `script` gives it a terminal.
#[test]
fn a_slow_proof_says_its_rounds_on_a_terminal() {
    let desk = Desk::with("terminal", &with_answer(0));
    let found = Command::new("script").arg("--version").stdout(Stdio::null()).stderr(Stdio::null()).status();
    if found.is_err() {
        println!("not tried: script, which makes a terminal, is not at hand");
        return;
    }
    let late = PROVE.replace("--job job", "--job late");
    let call = format!("{BINARY} {late} --rounds --force --transcript made");
    let shell = format!("mkfifo late; (sleep 1.3; cat job >late) & {call}");
    let slow = |command: &mut Command| {
        let output = command.current_dir(&desk.folder).stdin(Stdio::null()).output().unwrap();
        std::fs::remove_file(desk.path("late")).unwrap();
        String::from_utf8_lossy(&[output.stdout, output.stderr].concat()).into_owned()
    };
    let on_terminal = slow(Command::new("script").args(["-qec", &shell, "/dev/null"]));
    assert!(on_terminal.contains("labrador: reading the job, the randomness and the witness…"), "{on_terminal}");
    assert!(on_terminal.contains("labrador: proving, round 5 of 5: z, t, g, h…"), "{on_terminal}");
    assert!(on_terminal.contains("labrador: made a transcript of "), "{on_terminal}");
    let elsewhere = slow(Command::new("sh").args(["-c", &shell]));
    assert_eq!(elsewhere.lines().count(), 1, "{elsewhere}");
}

#[test]
fn a_quick_proof_says_one_line() {
    let desk = Desk::with("quick", &with_answer(0));
    let quick = run(&desk, &format!("{PROVE} --transcript made"));
    assert_eq!(quick.line.lines().count(), 1);
}

//! What goes to standard output and what to standard error, and an output that is closed.

use std::process::{Command, Stdio};

use crate::common::with_answer;
use crate::desk::Desk;
use crate::run::{ran, run, Ran, BINARY, PROVE, VERIFY};

#[test]
fn a_verdict_is_one_line_of_standard_output() {
    for (number, status, told) in [
        (0, 0, "labrador: accepted; one transcript: "),
        (22, 1, "labrador: check 22 failed: "),
        (9, 2, "labrador: refusal 9: "),
    ] {
        let desk = Desk::with(&format!("stream_{number}"), &with_answer(number));
        let verdict = run(&desk, VERIFY);
        let [out, error] = &verdict.streams;
        assert_eq!((verdict.status, out.lines().count(), error.as_str()), (status, 1, ""));
        assert!(out.starts_with(told) && out.ends_with('\n'), "{out}");
        let json = run(&desk, &format!("{VERIFY} --json"));
        assert!(json.streams[0].starts_with(&format!("{{\"status\":{status},")), "{}", json.streams[0]);
        assert_eq!((json.streams[0].lines().count(), &json.streams[1]), (1, out));
        let many = run(&desk, "verify-many --job job randomness transcript").streams;
        assert_eq!((many[0].lines().count(), many[1].as_str()), (2, ""));
        assert!(many[0].lines().last().unwrap().starts_with("labrador: "), "{}", many[0]);
    }
}

#[test]
fn a_message_is_on_standard_error() {
    let desk = Desk::with("messages", &with_answer(0));
    let prove = format!("{PROVE} --transcript made");
    for call in [VERIFY.replace(" job", " nothing").as_str(), "verify", "verify-many --job job", "judge", &prove] {
        let [out, error] = run(&desk, call).streams;
        assert_eq!((out.as_str(), error.lines().count()), ("", 1), "{call}");
        assert!(error.starts_with("labrador: "), "{error}");
    }
}

/// A run by a shell, with a redirection.
fn redirected(desk: &Desk, call: &str, to: &str) -> Ran {
    let script = format!("exec {BINARY} {call} {to}");
    ran(Command::new("sh").args(["-c", &script]).current_dir(&desk.folder).output().expect("a shell"))
}

#[test]
fn a_closed_standard_output_is_3() {
    let desk = Desk::with("closed_output", &with_answer(0));
    let json = format!("{VERIFY} --json");
    let made = format!("{PROVE} --transcript made --json");
    for call in [VERIFY, &json, "describe job", "explain 1 --json", "help", "--version --json", "judge --json", &made] {
        for (to, told) in [(">&-", "it is closed"), (">/dev/full", "No space left")] {
            let ran = redirected(&desk, &format!("{call} {}", if call == made { "--force" } else { "" }), to);
            assert_eq!(ran.status, 3, "{call} {to}");
            assert!(ran.line.contains(&format!("labrador: standard output: {told}")), "{call}: {}", ran.line);
        }
        let ran = redirected(&desk, &format!("{call} {}", if call == made { "--force" } else { "" }), ">/dev/null");
        assert_eq!(ran.status, if call.starts_with("judge") { 64 } else { 0 }, "{call}");
    }
    // where nothing is printed nothing is missed, and what swallows all of it is no closed output
    assert_eq!(redirected(&desk, &format!("{PROVE} --transcript made --force"), ">&-").status, 0);
    let status = Command::new(BINARY).args(["explain", "1"]).stdout(Stdio::null()).status().expect("the binary runs");
    assert_eq!(status.code(), Some(0));
}

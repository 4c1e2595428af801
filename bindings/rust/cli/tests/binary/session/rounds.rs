//! The messages of the five rounds.

use labrador::Q;

use super::{drawn, round};
use crate::common::NOT_BELOW;
use crate::run::{run, PROVE};

#[test]
fn the_five_messages_are_the_transcript() {
    let desk = drawn("rounds");
    assert_eq!(run(&desk, &format!("{PROVE} --transcript proved")).status, 0);
    let told = [(257, "u1"), (257, "p"), (257, "b''"), (257, "u2"), (1796, "z, t, g, h")];
    let mut joined = Vec::new();
    for (number, (words, makes)) in (1..).zip(told) {
        let made = run(&desk, &round(number, &format!("m{number}")));
        let line = format!("labrador: made round {number} of {words} words: {makes}\n");
        assert_eq!((made.status, made.line, made.out.as_str()), (0, line, ""));
        joined.extend(std::fs::read(desk.path(&format!("m{number}"))).unwrap());
    }
    assert_eq!(joined, std::fs::read(desk.path("proved")).unwrap());
    let json = run(&desk, &format!("{} --json", round(4, "again"))).out;
    assert!(json.contains("\"round\":4,\"output\":257"), "{json}");
}

#[test]
fn a_round_takes_its_own_randomness_alone() {
    let desk = drawn("rounds_own");
    let before = desk.names();
    let refused = |number: usize, randomness: &str, told: &str| {
        let call = round(number, "made").replace(&format!("r{number}"), randomness);
        let ran = run(&desk, &call);
        assert_eq!((ran.status, ran.line.as_str()), (2, format!("labrador: {told}\n").as_str()));
    };
    refused(
        2,
        "r3",
        "refusal 7: the randomness goes on at word 196609, behind its last section, projection; the file is the randomness of round 3",
    );
    refused(
        5,
        "r4",
        "refusal 7: the randomness ends after 198029 words, before the count of section signs; the file is the randomness of round 4",
    );
    refused(3, "witness", "refusal 7: the randomness's word 0 is 768, and the count of section projection is 196608; the file is fit as witness");
    let mut words = desk.words("r3");
    words[196_611] = Q;
    desk.put("high", &words);
    refused(
        3,
        "high",
        &format!("refusal 8: the randomness's word 196611 is {Q}, {NOT_BELOW} (section psi, row 0, constraint 1)"),
    );
    assert_eq!(desk.names().len(), before.len() + 1);
}

#[test]
fn the_other_slices_are_refused_as_by_prove() {
    let desk = drawn("rounds_refused");
    let mut witness = desk.words("witness");
    witness[5] = u32::MAX;
    desk.put("high", &witness);
    let ran = run(&desk, &round(1, "made").replace("--witness witness", "--witness high"));
    assert_eq!(ran.status, 2);
    assert!(ran.line.starts_with("labrador: refusal 12: the witness's word 5 is 4294967295"), "{}", ran.line);
    let ran = run(&desk, &round(2, "made").replace("--witness witness", "--witness job"));
    assert!(ran.line.ends_with("; the file is fit as job\n"), "{}", ran.line);
    let mut job = desk.words("job");
    job[1] = 65;
    desk.put("job", &job);
    let ran = run(&desk, &format!("{} --json", round(4, "made")));
    assert_eq!(ran.status, 2);
    assert!(ran.out.contains("\"number\":4,\"place\":1"), "{}", ran.out);
    assert!(!desk.path("made").exists());
}

#[test]
fn a_message_is_overwritten_only_by_force() {
    let desk = drawn("rounds_force");
    desk.put("made", &[1]);
    let kept = run(&desk, &round(1, "made"));
    assert_eq!((kept.status, kept.line.as_str()), (3, "labrador: made is there already; --force overwrites it\n"));
    assert_eq!(run(&desk, &format!("{} --force", round(1, "made"))).status, 0);
    assert_eq!(desk.words("made"), desk.words("transcript")[..257]);
    assert_eq!(run(&desk, &format!("{} --force", round(2, "r2"))).status, 64);
}

#[test]
fn wrong_calls_of_a_round_are_64() {
    let desk = drawn("rounds_calls");
    let rest = "--job job --witness witness --output made";
    let calls = [
        format!("round {rest}"),
        format!("round 0 {rest}"),
        format!("round 6 --randomness r5 {rest}"),
        format!("round two --randomness r2 {rest}"),
        format!("round 1 2 {rest}"),
        format!("round 1 --randomness r2 {rest}"),
        format!("round 2 {rest}"),
        "round 1 --job job --witness witness".to_string(),
        "round 1 --job job --output made".to_string(),
    ];
    for call in calls {
        let ran = run(&desk, &call);
        assert_eq!((ran.status, ran.line.lines().count()), (64, 1), "{call}: {}", ran.line);
    }
    assert!(!desk.path("made").exists());
    let help = run(&desk, "round --help").out;
    assert!(help.contains("Example:\n  labrador round 2 "), "{help}");
}

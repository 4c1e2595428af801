//! What a desk draws.

use std::fs;

use labrador::sections::{placed, Placed};
use labrador::{Parameters, Slice, Q};

use super::round;
use crate::common::with_answer;
use crate::desk::Desk;
use crate::run::{run, VERIFY};

fn draw(desk: &Desk, number: usize, file: &str) {
    let ran = run(desk, &format!("draw --job job --round {number} --randomness {file}"));
    assert_eq!((ran.status, ran.out.as_str()), (0, ""), "{}", ran.line);
}

fn sections() -> Vec<Placed> {
    placed(Slice::Randomness, &Parameters::SMALL)
}

/// Each draw follows the message before it.
#[test]
fn a_session_is_accepted() {
    let desk = Desk::with("session", &with_answer(0));
    let mut joined = Vec::new();
    for number in 1..=5 {
        if number > 1 {
            let file = format!("r{number}");
            if number > 2 {
                fs::copy(desk.path(&format!("r{}", number - 1)), desk.path(&file)).unwrap();
            }
            draw(&desk, number, &file);
        }
        let made = run(&desk, &round(number, "message").replace("--output", "--force --output"));
        assert_eq!(made.status, 0, "{}", made.line);
        joined.extend(desk.words("message"));
    }
    desk.put("transcript", &joined);
    desk.put("randomness", &desk.words("r5"));
    assert_eq!(run(&desk, VERIFY).status, 0);
}

#[test]
fn a_draw_adds_the_sections_of_its_round() {
    let desk = Desk::with("draws", &with_answer(0));
    let told = [(1, "projection"), (3, "psi and omega"), (5, "alpha and beta"), (7, "signs and shuffle")];
    let mut before = Vec::new();
    for (number, (end, names)) in (2..).zip(told) {
        let length = sections()[end - 1].end();
        let line = format!("labrador: drew {names} for round {number}: the randomness has {length} words\n");
        let ran = run(&desk, &format!("draw --job job --round {number} --randomness drawn"));
        assert_eq!((ran.status, ran.line), (0, line));
        let words = desk.words("drawn");
        assert_eq!(words.len() as u64, length);
        assert_eq!(words[..before.len()], before);
        before = words;
    }
    let kept = ["drawn", "job", "randomness", "transcript", "witness"];
    assert_eq!(desk.names(), kept);
    let json = run(&desk, "draw --job job --round 2 --randomness other --json").out;
    assert!(json.contains("\"round\":2,\"drawn\":[\"projection\"],\"randomness\":196609"), "{json}");
}

#[test]
fn drawn_words_are_in_range_and_spread() {
    let desk = Desk::with("draws_range", &with_answer(0));
    (2..=5).for_each(|number| draw(&desk, number, "drawn"));
    let words = desk.words("drawn");
    for placed in sections() {
        let (name, drawn) = (placed.section.name, placed.words(&words));
        assert_eq!(u64::from(words[placed.count_at as usize]), placed.section.count());
        match name {
            "signs" => assert!(drawn.contains(&0) && drawn.contains(&1) && drawn.iter().all(|&sign| sign < 2)),
            "shuffle" => assert!(drawn.iter().any(|&word| word > u32::MAX / 2)),
            _ => assert!(drawn.iter().all(|&word| word < Q), "{name}"),
        }
    }
    // of 196608 words a quarter stands for -1, a quarter for 1: 49152 each, with a deviation of 192
    let projection = sections()[0].words(&words);
    for quarter in 0..4 {
        let there = projection.iter().filter(|&&word| word >> 30 == quarter).count();
        assert!((47_000..51_300).contains(&there), "{there} of quarter {quarter}");
    }
}

#[test]
fn two_draws_are_unlike() {
    let desk = Desk::with("draws_unlike", &with_answer(0));
    for file in ["one", "other"] {
        (2..=5).for_each(|number| draw(&desk, number, file));
    }
    let [one, other] = ["one", "other"].map(|file| desk.words(file));
    for placed in sections() {
        assert_ne!(placed.words(&one), placed.words(&other), "{}", placed.section.name);
    }
}

#[cfg(unix)]
#[test]
fn a_file_that_is_added_to_keeps_its_mode() {
    use std::os::unix::fs::PermissionsExt;
    let desk = Desk::with("draws_mode", &with_answer(0));
    draw(&desk, 2, "drawn");
    let mode = || fs::metadata(desk.path("drawn")).unwrap().permissions().mode() & 0o777;
    for kept in [0o600, 0o640] {
        fs::set_permissions(desk.path("drawn"), fs::Permissions::from_mode(kept)).unwrap();
        draw(&desk, if kept == 0o600 { 3 } else { 4 }, "drawn");
        assert_eq!(mode(), kept);
    }
}

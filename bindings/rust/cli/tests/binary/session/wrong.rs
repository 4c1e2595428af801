//! Draws that are refused: the file stays as it was.

use std::fs;

use labrador::{load, Parameters, Q};

use super::drawn;
use crate::common::NOT_BELOW;
use crate::desk::Desk;
use crate::run::{run, Ran};

/// A draw for a round on words, after which the file is the same and nothing else is left.
fn refused(desk: &Desk, number: usize, words: &[u32]) -> Ran {
    desk.put("file", words);
    let (names, bytes) = (desk.names(), fs::read(desk.path("file")).unwrap());
    let ran = run(desk, &format!("draw --job job --round {number} --randomness file --json"));
    assert_eq!(ran.status, 2, "{}", ran.line);
    assert_eq!((desk.names(), fs::read(desk.path("file")).unwrap()), (names, bytes));
    ran
}

fn is_told(ran: &Ran, number: u32, place: usize, line: &str) {
    assert_eq!(ran.line, format!("labrador: refusal {number}: {line}\n"));
    assert!(ran.out.contains(&format!("\"number\":{number},\"place\":{place}")), "{}", ran.out);
}

#[test]
fn what_is_too_short_or_too_long_is_7() {
    let desk = drawn("draws_length");
    let [two, three, five] = ["r2", "r3", "r5"].map(|name| desk.words(name));
    is_told(&refused(&desk, 3, &[]), 7, 0, "the randomness ends after 0 words, before the count of section projection");
    let cut = refused(&desk, 3, &two[..two.len() - 1]);
    is_told(&cut, 7, 196_608, "the randomness ends after 196608 words, within section projection");
    let long = refused(&desk, 3, &[&two[..], &[8]].concat());
    is_told(&long, 7, 196_609, "the randomness goes on at word 196609, behind its last section, projection");
    // the rounds are drawn in their order, each once
    let early = refused(&desk, 5, &three);
    let line = "the randomness ends after 197643 words, before the count of section alpha; the file is the randomness of round 3";
    is_told(&early, 7, 197_643, line);
    let again = refused(&desk, 3, &three);
    let line = "the randomness goes on at word 196609, behind its last section, projection; the file is the randomness of round 3";
    is_told(&again, 7, 196_609, line);
    let done = refused(&desk, 5, &five);
    assert!(
        done.line.ends_with("behind its last section, beta; the file is the randomness of round 5\n"),
        "{}",
        done.line
    );
}

#[test]
fn wrong_counts_are_7_and_words_out_of_range_8() {
    let desk = drawn("draws_words");
    let mut words = desk.words("r3");
    words[196_609] += 1;
    let count = refused(&desk, 4, &words);
    is_told(&count, 7, 196_609, "the randomness's word 196609 is 9, and the count of section psi is 8");
    let other = load(&Parameters { n: 2, ..Parameters::SMALL }, 1).unwrap().randomness;
    let other = refused(&desk, 3, &other[..1 + 16_384 * 6]);
    is_told(&other, 7, 0, "the randomness's word 0 is 98304, and the count of section projection is 196608");
    for (number, file, at, spot) in [
        (3, "r2", 77, "projection, vector 0, row 0, element 1, coefficient 12"),
        (5, "r4", 197_645, "alpha, constraint 0, coefficient 1"),
    ] {
        let mut words = desk.words(file);
        words[at] = Q;
        let line = format!("the randomness's word {at} is {Q}, {NOT_BELOW} (section {spot})");
        is_told(&refused(&desk, number, &words), 8, at, &line);
    }
    fs::write(desk.path("odd"), [0; 7]).unwrap();
    let odd = run(&desk, "draw --job job --round 3 --randomness odd");
    assert_eq!((odd.status, fs::read(desk.path("odd")).unwrap()), (2, vec![0; 7]));
    assert!(odd.line.starts_with("labrador: odd has 7 bytes"), "{}", odd.line);
}

#[test]
fn a_job_that_is_unfit_is_refused_first() {
    let desk = drawn("draws_job");
    let mut job = desk.words("job");
    job[1] = 65;
    desk.put("job", &job);
    let line = "n is from 1 to 64";
    for number in 2..=5 {
        let names = desk.names();
        let file = if number == 2 { "made".to_string() } else { format!("r{}", number - 1) };
        let ran = run(&desk, &format!("draw --job job --round {number} --randomness {file}"));
        assert_eq!((ran.status, desk.names()), (2, names));
        assert!(ran.line.starts_with("labrador: refusal 4: ") && ran.line.contains(line), "{}", ran.line);
    }
}

#[test]
fn a_file_is_made_by_round_2_alone() {
    let desk = drawn("draws_made");
    let before = desk.words("r5");
    let kept = run(&desk, "draw --job job --round 2 --randomness r5");
    assert_eq!((kept.status, kept.line.as_str()), (3, "labrador: r5 is there already; --force overwrites it\n"));
    assert_eq!(desk.words("r5"), before);
    assert_eq!(run(&desk, "draw --job job --round 2 --randomness r5 --force").status, 0);
    assert_eq!(desk.words("r5").len(), 196_609);
    for number in 3..=5 {
        let missing = run(&desk, &format!("draw --job job --round {number} --randomness nothing"));
        assert_eq!((missing.status, desk.path("nothing").exists()), (3, false), "{}", missing.line);
    }
}

#[test]
fn wrong_calls_of_a_draw_are_64() {
    let desk = drawn("draws_calls");
    let names = desk.names();
    for call in [
        "draw --job job --randomness made",
        "draw --job job --round 1 --randomness made",
        "draw --job job --round 6 --randomness made",
        "draw --job job --round -2 --randomness made",
        "draw --job job --round two --randomness made",
        "draw 2 --job job --randomness made",
        "draw --job job --round 2",
        "draw --round 2 --randomness made",
        "draw --job job --round 2 --randomness job --force",
    ] {
        let ran = run(&desk, call);
        assert_eq!((ran.status, ran.line.lines().count()), (64, 1), "{call}: {}", ran.line);
    }
    assert_eq!(desk.names(), names);
    let help = run(&desk, "help draw").out;
    assert!(help.contains("Example:\n  labrador draw "), "{help}");
}

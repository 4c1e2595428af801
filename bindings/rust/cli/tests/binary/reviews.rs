//! What the review of a job prints: its worth first, then the findings, the worst first.

use labrador::section_one::BOUNDS;
use labrador::Parameters;

use crate::common::{made, over, set_bound, with_answer, ONE, THINGS};
use crate::desk::Desk;
use crate::run::run;

const CHANCE: &str = "one accepted transcript leaves a false statement a chance of at least";
const DRAWN: &str =
    "transcripts of this job, each with randomness of its own that the desk draws round after round, all accepted, no retry";
const JOINT: &str =
    "transcripts where one joint hash of all of them draws the randomness; no number is enough where each has a hash of its own";

/// The first three lines, with how many transcripts are needed over 2^32 - 1.
fn worth(chance: &str, drawn: u32, joint: u32) -> [String; 3] {
    let drawn = over(
        format!("64 bits need at least {drawn} {DRAWN}").as_str(),
        "64 bits need at least 1 transcript of this job, with randomness that the desk draws round after round, and no retry",
    )
    .to_string();
    let joint = over(
        format!("64 bits need at least {joint} {JOINT}").as_str(),
        "64 bits need at least 1 transcript where a hash of what was sent before draws the randomness of each round",
    )
    .to_string();
    [format!("{CHANCE} {chance}"), drawn, joint]
}

#[test]
fn every_job_has_its_worth_and_its_findings() {
    let desk = Desk::with("reviews", &with_answer(0));
    let found = run(&desk, "review job");
    assert_eq!((found.status, found.out.lines().count()), (1, 3 + THINGS as usize));
    let lines: Vec<&str> = found.out.lines().collect();
    assert_eq!(lines[..3], worth(ONE, 11, 28));
    let of_divisors = ["norms are not forced by check 21", "totals are forced modulo 255 only"];
    let is_told = |begin: &&str| over(true, !of_divisors.iter().any(|of| begin.starts_with(of)));
    for (line, begin) in lines[3..].iter().zip([
        "check 21 can never fail: this limit limits nothing, since no norm is above ",
        "check 23 can never fail: this limit limits nothing, since no norm is above ",
        "the test of refusal 14 can never fail: ",
        "the test of refusal 15 can never fail: ",
        "the test of refusal 16 can never fail: ",
        "totals are forced modulo 255 only: one that is wrong by a multiple of 255 passes one transcript with at least 1 in 1.9 million (2^-20.8), ",
        "norms are not forced by check 21: p can be sent modulo 16711935, ",
        "beta is above q/125, ",
        "the test of refusal 13 can never fail: ",
        "bound_A is tested by the prover alone: ",
    ].into_iter().filter(is_told)) {
        assert!(line.starts_with(begin), "{line}");
    }
    assert_eq!(found.line, format!("labrador: one transcript: {ONE}; {THINGS} things that the job does not force\n"));
}

#[test]
fn a_job_without_faults_has_what_holds_of_every_job() {
    let desk = Desk::with("reviews_sound", &with_answer(0));
    let mut job = desk.words("job");
    BOUNDS.iter().for_each(|bound| set_bound(&mut job, bound.name, 1000));
    desk.put("job", &job);
    let sound = run(&desk, "review job");
    let things = over("2 things that the job does not force", "1 thing that the job does not force");
    let line = format!("labrador: one transcript: {ONE}; {things}\n");
    assert_eq!((sound.status, sound.out.lines().count(), sound.line), (0, over(5, 4), line));
    assert!(!sound.out.contains("nothing was found"));
    let json = run(&desk, "review job --json").out;
    let (drawn, joint, first) =
        over((11, 28, "totals are forced modulo 255 only: "), (1, 1, "bound_A is tested by the prover alone: "));
    let worth = format!(
        "\"one_transcript\":\"{ONE}\",\"transcripts_for_64_bits\":{drawn},\"transcripts_for_64_bits_joint_hash\":{joint},\
         \"never_fail\":[],\"findings\":[\"{first}"
    );
    assert!(json.contains(&worth), "{json}");
    desk.put("job", &job[..20]);
    assert_eq!(run(&desk, "review job").status, 2);
}

#[test]
fn figures_follow_the_parameters() {
    let desk = Desk::new("reviews_figures");
    let small = Parameters { n: 2, r: 2, ..Parameters::SMALL };
    let told = [
        (Parameters { L: 16, ..small }, over("1 in 86", ONE), 10, 21),
        (Parameters { L: 32, ..small }, over("1 in 86", ONE), 10, 20),
        (Parameters { r: 1, L: 5, ..small }, over("1 in 129", "1 in 2^160.0"), 10, 25),
    ];
    for (p, chance, drawn, joint) in told {
        desk.put("job", &made(&p, 3).job);
        let out = run(&desk, "review job").out;
        let lines: Vec<&str> = out.lines().collect();
        assert_eq!(lines[..3], worth(chance, drawn, joint));
    }
}

#[test]
fn what_passes_for_certain_is_worth_nothing() {
    let desk = Desk::new("reviews_certain");
    desk.put("job", &made(&Parameters { n: 10, r: 2, ..Parameters::SMALL }, 3).job);
    let told = run(&desk, "review job");
    let lines: Vec<&str> = told.out.lines().collect();
    let worth = [format!("{CHANCE} 1 in 1 (worth nothing)"), "no number of transcripts gives 64 bits".to_string()];
    assert_eq!(lines[..2], worth);
    assert!(lines[2].starts_with("any statement is accepted for certain, without a witness: "), "{}", lines[2]);
    let line = format!(
        "labrador: one transcript: 1 in 1 (worth nothing); {} things that the job does not force\n",
        THINGS + 1
    );
    assert_eq!((told.status, told.line), (1, line));
    let json = run(&desk, "review job --json").out;
    let none =
        "\"one_transcript\":\"1 in 1\",\"transcripts_for_64_bits\":null,\"transcripts_for_64_bits_joint_hash\":null";
    assert!(json.contains(none), "{json}");
}

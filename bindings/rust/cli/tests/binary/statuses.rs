//! Exit statuses and the one line on standard error.

use crate::common::{over, with_answer, ONE, THINGS};
use crate::desk::Desk;
use crate::run::{run, LOAD, PROVE, VERIFY};

#[test]
fn a_load_of_own_parameters_is_proved_and_accepted() {
    let desk = Desk::new("own_parameters");
    let made = run(&desk, &format!("{LOAD} n=2 r=2 K=1 l=0 --seed 9"));
    assert_eq!((made.status, made.out.as_str()), (0, ""));
    assert!(made.line.starts_with("labrador: made a job of "), "{}", made.line);
    let proved = run(&desk, &format!("{PROVE} --transcript transcript"));
    assert_eq!(proved.status, 0, "{}", proved.line);
    let rounds = run(&desk, &format!("{PROVE} --transcript rounds --rounds"));
    assert_eq!(rounds.status, 0, "{}", rounds.line);
    assert_eq!(desk.words("rounds"), desk.words("transcript"));
    let verdict = run(&desk, VERIFY);
    // no constant-term constraints, so no total and no psi
    let (one, things) = over(("1 in 86", 9), (ONE, THINGS));
    let line = format!("labrador: accepted; one transcript: {one}; {things} things that the job does not force\n");
    assert_eq!((verdict.status, verdict.line), (0, line));
}

#[test]
fn a_load_takes_l_apart_from_kappa() {
    let desk = Desk::new("l_apart");
    let loads =
        [("kappa=2 L=9", 2, 9, THINGS), ("log_q=16", 4, 8, THINGS), ("log_q=16 L=11 kappa=1", 1, 11, THINGS + 1)];
    let one = over("1 in 86", ONE);
    for (given, kappa, rows, things) in loads {
        let made = run(&desk, &format!("{LOAD} n=2 r=2 --force {given}"));
        assert_eq!(made.status, 0, "{}", made.line);
        let job = desk.words("job");
        assert_eq!((job[0], job[3], job[12]), (30, kappa, rows), "{given}");
        assert_eq!(run(&desk, &format!("{PROVE} --transcript transcript --force")).status, 0);
        let verdict = run(&desk, VERIFY);
        let line = format!("labrador: accepted; one transcript: {one}; {things} things that the job does not force\n");
        assert_eq!((verdict.status, verdict.line), (0, line));
    }
    let described = run(&desk, "describe job --json").out;
    assert!(described.contains("\"t_2\":4,\"L\":11,\"beta_sq\":"), "{described}");
    let help = run(&desk, "load --help").out;
    assert!(help.contains("Where L is not given, it is 128 divided by log_q, rounded up.\n"), "{help}");
}

#[test]
fn an_acceptance_says_its_cells() {
    let desk = Desk::new("cells");
    assert_eq!(run(&desk, &format!("{LOAD} n=2 r=2 b=2 t_1=1 t_2=31")).status, 0);
    assert_eq!(run(&desk, &format!("{PROVE} --transcript transcript")).status, 0);
    let verdict = run(&desk, &format!("{VERIFY} --json --report page.html"));
    // 8 cells of t and 3 of h
    let things = THINGS + 1;
    let line =
        format!("labrador: accepted; one transcript: {ONE}; {things} things that the job does not force; 11 cells with something left\n");
    assert_eq!((verdict.status, verdict.line), (0, line));
    assert!(verdict.out.contains("\"verdict\":\"accepted\",\"number\":0,\"cells_left\":11,"), "{}", verdict.out);
    let page = std::fs::read_to_string(desk.path("page.html")).unwrap();
    assert!(page.contains("Cells of t, g and h with something left after their digits: 11 of 14. The commitments"));
}

#[test]
fn each_verdict_has_its_status_and_line() {
    for number in [0].into_iter().chain(3..=10).chain(14..=16).chain(21..=29) {
        let desk = Desk::with(&format!("verdict_{number}"), &with_answer(number));
        let verdict = run(&desk, VERIFY);
        let status = match number {
            0 => 0,
            1..=16 => 2,
            _ => 1,
        };
        assert_eq!(verdict.status, status, "{}", verdict.line);
        assert_eq!(verdict.line.lines().count(), 1);
        let told = match number {
            0 => format!("labrador: accepted; one transcript: {ONE}; {THINGS} things that the job does not force\n"),
            1..=16 => format!("labrador: refusal {number}: "),
            _ => format!("labrador: check {number} failed: "),
        };
        assert!(verdict.line.starts_with(&told), "{}", verdict.line);
        assert_eq!(verdict.out, "");
        let json = run(&desk, &format!("{VERIFY} --json"));
        assert_eq!((json.status, &json.line), (status, &verdict.line));
        assert!(json.out.starts_with(&format!("{{\"status\":{status},\"says\":\"")), "{}", json.out);
        assert!(json.out.contains(&format!("\"number\":{number},")), "{}", json.out);
    }
}

#[test]
fn a_refused_proof_makes_no_file() {
    let mut case = with_answer(0);
    case.witness[5] = u32::MAX;
    let desk = Desk::with("refused_proof", &case);
    for rounds in ["", " --rounds"] {
        let proved = run(&desk, &format!("{PROVE} --transcript made{rounds}"));
        assert_eq!(proved.status, 2);
        assert!(proved.line.starts_with("labrador: refusal 12: the witness's word 5 is 4294967295"), "{}", proved.line);
    }
    assert_eq!(desk.names(), ["job", "randomness", "transcript", "witness"]);
}

#[test]
fn explanations() {
    let desk = Desk::new("explanations");
    for number in (1..=16).chain(21..=29).chain(31..=37) {
        let told = run(&desk, &format!("explain {number}"));
        assert_eq!((told.status, told.line.as_str()), (0, ""));
        assert_eq!(told.out.lines().count(), 4);
    }
    assert_eq!(run(&desk, "explain").out.lines().count(), 32);
    assert!(run(&desk, "explain 0").out.starts_with("0: accepted"));
    let unknown = run(&desk, "explain 17");
    assert_eq!((unknown.status, unknown.out.as_str()), (64, ""));
}

#[test]
fn wrong_calls_are_64() {
    let desk = Desk::new("wrong_calls");
    let calls = [
        "",
        "judge",
        "verify",
        "verify --job",
        "verify --job a --job b",
        "verify --fast",
        "verify --force=1",
        "verify --job a --randomness b --transcript c d",
        "review",
        "review a b",
        "describe",
        "describe --as page a",
        "explain 1 2",
        "explain six",
        "load n=x --job a --witness b --randomness c",
        "load N=1 --job a --witness b --randomness c",
        "load n --job a --witness b --randomness c",
        "load --seed 4294967296 --job a --witness b --randomness c",
        "load --job a --witness b --randomness a",
        "shed-rows --job a --first 0 --vectors b --rows c",
        "shed-rows --job a --first 0 --end x --vectors b --rows c",
        "shed-rows --job a --first -1 --end 2 --vectors b --rows c",
        "shed-projection --job a --first 0 --end 1 --vectors b --p c",
        "shed-projection --job a --first 0 --end 1 --projection b --vectors c --p b",
        "shed-parts --job a --first 0 --end 1 --randomness b --witness c --projection d --vectors d",
        "verify-many --job a",
        "verify-many --job a b",
        "verify-many --job a b c d",
        "verify-many a b",
        "add-projections --p a",
        "add-projections --p a b",
        "add-projections a b",
        "add-projections --p a a b",
    ];
    for call in calls {
        let ran = run(&desk, call);
        assert_eq!(ran.status, 64, "{call}: {}", ran.line);
        assert_eq!(ran.line.lines().count(), 1, "{call}");
    }
    let json = run(&desk, "verify --json");
    assert!(json.out.starts_with("{\"status\":64,"), "{}", json.out);
    assert!(desk.names().is_empty());
}

#[test]
fn unfit_parameters_are_2() {
    let desk = Desk::new("unfit_parameters");
    let refused = run(&desk, &format!("{LOAD} n=65"));
    let line = "labrador: refusal 4: the job's word 1 is 65: n is from 1 to 64\n";
    assert_eq!((refused.status, refused.line.as_str()), (2, line));
    let refused = run(&desk, &format!("{LOAD} log_q=16 L=7"));
    let line = "labrador: refusal 5: the job's word 12 is 7: L is at least 8 where log_q is 16\n";
    assert_eq!((refused.status, refused.line.as_str()), (2, line));
    let refused = run(&desk, &format!("{LOAD} log_q=0"));
    let line = "labrador: refusal 4: the job's word 8 is 0: log_q is from 16 to 32\n";
    assert_eq!((refused.status, refused.line.as_str()), (2, line));
    assert!(desk.names().is_empty());
}

#[test]
fn every_command_has_help_with_an_example() {
    let desk = Desk::new("help");
    let sheds = ["shed-parts", "shed-projection", "shed-rows", "add-projections"];
    let others = ["load", "describe", "review", "prove", "verify", "verify-many", "mistyped", "ranges", "explain"];
    for command in others.into_iter().chain(sheds) {
        for call in [format!("{command} --help"), format!("help {command}")] {
            let help = run(&desk, &call);
            assert_eq!((help.status, help.line.as_str()), (0, ""));
            assert!(help.out.contains(&format!("Example:\n  labrador {command} ")), "{}", help.out);
        }
    }
    for command in ["verify", "verify-many"] {
        let help = run(&desk, &format!("{command} --help")).out;
        assert!(
            help.contains("--strict ") && help.contains("exit status 1 also where a check can never fail"),
            "{help}"
        );
    }
    let review = run(&desk, "review --help").out;
    assert!(review.contains("Exit status 0 where it finds only what holds of every job, 1 with more."), "{review}");
    assert_eq!(run(&desk, "--help").out, run(&desk, "help").out);
    assert_eq!(run(&desk, "--version").status, 0);
}

#[test]
fn files_in_each_others_place_are_told() {
    let desk = Desk::with("exchanged", &with_answer(0));
    let verdict = run(&desk, "verify --job job --randomness transcript --transcript randomness");
    assert_eq!(verdict.status, 2);
    assert!(verdict.line.ends_with("; the file is fit as transcript\n"), "{}", verdict.line);
    let proved = run(&desk, "prove --job job --randomness randomness --witness job --transcript made");
    assert!(proved.line.ends_with("; the file is fit as job\n"), "{}", proved.line);
}

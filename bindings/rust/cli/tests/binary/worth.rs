//! What an acceptance says of its worth: --strict, weights that are zero, what passes for certain.

use labrador::norms::norms;
use labrador::section_one::SectionOne;
use labrador::statement::Statement;
use labrador::{prove, Parameters, Slice};

use crate::common::{begin, made, over, set_bound, with_answer, Case, ONE, THINGS};
use crate::desk::Desk;
use crate::run::{run, VERIFY};
use crate::statement::{store, text};

/// A case whose limits are the norms of its own transcript.
fn tight() -> Case {
    let mut case = with_answer(0);
    let taken = norms(&SectionOne::read(&case.job).unwrap(), &case.transcript).unwrap();
    for norm in taken {
        match norm.number {
            21 => set_bound(&mut case.job, "beta_sq", norm.norm.div_ceil(128)),
            _ => set_bound(&mut case.job, norm.limit_name, norm.norm),
        }
    }
    set_bound(&mut case.job, "bound_A", 1 << 40);
    case
}

#[test]
fn strict_fails_where_a_check_can_never_fail() {
    let desk = Desk::with("strict", &with_answer(0));
    let accepted = format!("labrador: accepted; one transcript: {ONE}; {THINGS} things that the job does not force");
    let lenient = run(&desk, VERIFY);
    assert_eq!((lenient.status, lenient.line), (0, format!("{accepted}\n")));
    let strict = run(&desk, &format!("{VERIFY} --strict"));
    let line = format!("{accepted}; --strict: tests 21, 23, 14, 15 and 16 can never fail\n");
    assert_eq!((strict.status, strict.line), (1, line));
    let json = run(&desk, &format!("{VERIFY} --strict --json")).out;
    assert!(json.starts_with("{\"status\":1,"), "{json}");
    let fields = format!(
        "\"cells_left\":0,\"one_transcript\":\"{ONE}\",\"transcripts_for_64_bits\":{},\"never_fail\":[21,23,14,15,16],\
         \"findings\":[\"check 21 can never fail",
        over(11, 1)
    );
    assert!(json.contains(&fields), "{json}");
}

#[test]
fn strict_is_content_with_limits_that_can_be_passed() {
    let desk = Desk::with("strict_tight", &tight());
    let strict = run(&desk, &format!("{VERIFY} --strict"));
    assert_eq!((strict.status, strict.line.as_str()), (0, run(&desk, VERIFY).line.as_str()));
    let mut job = desk.words("job");
    set_bound(&mut job, "bound_C", u128::from(u64::MAX));
    desk.put("job", &job);
    let strict = run(&desk, &format!("{VERIFY} --strict"));
    assert_eq!(strict.status, 1);
    assert!(strict.line.ends_with("; --strict: test 15 can never fail\n"), "{}", strict.line);
    // a failed check and a refusal keep their line and status
    for number in [9, 22] {
        let desk = Desk::with(&format!("strict_{number}"), &with_answer(number));
        let [strict, lenient] = [format!("{VERIFY} --strict"), VERIFY.to_string()].map(|call| run(&desk, &call));
        assert_eq!((strict.status, strict.line), (lenient.status, lenient.line));
    }
}

#[test]
fn weights_that_are_all_zero_are_told() {
    let p = Parameters::SMALL;
    let told = [
        ("psi", "the constant-term constraints were"),
        ("omega", "the projection p was"),
        ("alpha", "the ring constraints were"),
        ("beta", "the constant-term constraints and the projection p were"),
    ];
    for (name, untested) in told {
        let mut case = with_answer(0);
        let at = begin(Slice::Randomness, &p, name);
        let end = at + case.randomness[at - 1] as usize;
        case.randomness[at..end].fill(0);
        case.transcript = prove(&case.job, &case.randomness, &case.witness).unwrap();
        let desk = Desk::with(&format!("zero_{name}"), &case);
        let verdict = run(&desk, &format!("{VERIFY} --json --report page.html"));
        let warning = format!("{name} is all zero in the randomness: {untested} not tested");
        let accepted =
            format!("accepted; one transcript: 1 in 1 (worth nothing); {THINGS} things that the job does not force");
        assert_eq!(verdict.line, format!("labrador: warning: {warning}\nlabrador: {accepted}\n"));
        assert_eq!(verdict.status, 0);
        assert!(verdict.out.contains(&format!("\"warnings\":[\"{warning}\"]")), "{}", verdict.out);
        assert!(
            verdict.out.contains("\"one_transcript\":\"1 in 1\",\"transcripts_for_64_bits\":null"),
            "{}",
            verdict.out
        );
        let page = std::fs::read_to_string(desk.path("page.html")).unwrap();
        assert!(page.contains(&format!("<p>Warning: {warning}.</p>")), "{page}");
        assert!(page.contains("<header class=\"refused\">"), "{page}");
        let strict = run(&desk, &format!("{VERIFY} --strict"));
        assert_eq!(strict.status, 1);
        let reasons = "; --strict: tests 21, 23, 14, 15 and 16 can never fail, weights are all zero\n";
        assert!(strict.line.ends_with(reasons), "{}", strict.line);
    }
    let fit = run(&Desk::with("zero_none", &with_answer(0)), &format!("{VERIFY} --json"));
    assert!(fit.out.contains("\"warnings\":[]"), "{}", fit.out);
}

#[test]
fn a_false_ring_total_passes_where_alpha_is_zero() {
    let p = Parameters::SMALL;
    let mut case = with_answer(0);
    let at = begin(Slice::Randomness, &p, "alpha");
    let end = at + case.randomness[at - 1] as usize;
    case.randomness[at..end].fill(0);
    let b = begin(Slice::Job, &p, "b");
    case.job[b] ^= 1;
    case.transcript = prove(&case.job, &case.randomness, &case.witness).unwrap();
    let verdict = run(&Desk::with("zero_false", &case), VERIFY);
    assert!(verdict.line.contains("labrador: accepted; one transcript: 1 in 1 (worth nothing); "), "{}", verdict.line);
}

#[test]
fn what_passes_for_certain_is_worth_nothing() {
    let desk = Desk::with("certain", &made(&Parameters { n: 10, r: 2, ..Parameters::SMALL }, 3));
    let things = THINGS + 1;
    let line = format!(
        "labrador: accepted; one transcript: 1 in 1 (worth nothing); {things} things that the job does not force\n"
    );
    let verdict = run(&desk, VERIFY);
    assert_eq!((verdict.status, verdict.line), (0, line));
    let strict = run(&desk, &format!("{VERIFY} --strict"));
    let reasons = "; --strict: any statement is accepted, tests 21, 23, 14, 15 and 16 can never fail\n";
    assert!(strict.status == 1 && strict.line.ends_with(reasons), "{}", strict.line);
}

/// No check is out of reach, but 23 has room for a z of any size: the bounds are those that honest transcripts need.
#[test]
fn strict_fails_where_any_statement_is_accepted() {
    let desk = store("strict_room");
    let wide = text().replace("n 1\n", "n 4\n").replace("r 2\n", "r 3\n").replace("kappa 2\n", "kappa 1\n");
    let wide = wide.replace("b 256", "b 65536").replace("t_1 4", "t_1 2").replace("t_2 4", "t_2 2");
    desk.text("draft", &wide);
    let bounds = run(&desk, "bounds --statement draft --stock a.stock --sessions 10");
    let others = wide.lines().filter(|line| !line.ends_with(" 99999999")).map(|line| format!("{line}\n"));
    desk.text("room", &others.collect::<String>().replace("seed", &format!("{}seed", bounds.out)));
    assert_eq!(run(&desk, "statement room --job job").status, 0);
    assert_eq!(run(&desk, "stock a.stock --job job --witness witness").status, 0);
    // the randomness of a session that the bounds were fitted to
    let statement = Statement::parse(&desk.read("room")).unwrap();
    let randomness = labrador::statement::sessions(&statement, 1).next().unwrap();
    desk.put("randomness", &randomness);
    desk.put("transcript", &prove(&desk.words("job"), &randomness, &desk.words("witness")).unwrap());
    for call in [VERIFY, "verify-many --job job randomness transcript"] {
        let lenient = run(&desk, call);
        assert!(lenient.status == 0 && lenient.line.contains("1 in 1 (worth nothing)"), "{}", lenient.line);
        let strict = run(&desk, &format!("{call} --strict"));
        assert!(
            strict.status == 1 && strict.line.ends_with("; --strict: any statement is accepted\n"),
            "{}",
            strict.line
        );
    }
}

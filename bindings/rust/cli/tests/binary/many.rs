//! Many transcripts in one call.

use labrador::{prove, Parameters, Slice};

use crate::common::{begin, made, over, with_answer, ONE, THINGS};
use crate::desk::Desk;
use crate::run::run;

/// A desk with one job and three transcripts, each with randomness of its own.
fn three(name: &str) -> Desk {
    let case = with_answer(0);
    let desk = Desk::with(name, &case);
    for (k, seed) in [(1, 31), (2, 32), (3, 33)] {
        let randomness = made(&Parameters::SMALL, seed).randomness;
        desk.put(&format!("r{k}"), &randomness);
        desk.put(&format!("t{k}"), &prove(&case.job, &randomness, &case.witness).unwrap());
    }
    desk
}

/// What two transcripts are worth together.
const TWO: &str = over("1 in 6,561 (12.7 bits)", "1 in 2^254.2 (254.2 bits)");

const THREE: &str = "verify-many --job job r1 t1 r2 t2 r3 t3";

#[test]
fn all_accepted_is_0() {
    let desk = three("many_accepted");
    let told = run(&desk, THREE);
    let drawn = format!(
        "if the desk drew the randomness and nothing was tried again; {THINGS} things that the job does not force\n"
    );
    let three = over("1 in 531,441 (19.0 bits)", "1 in 2^381.3 (381.3 bits)");
    let line = format!("labrador: 3 of 3 transcripts accepted; together: {three}, {drawn}");
    assert_eq!((told.status, told.line), (0, line));
    let good = format!("accepted; one transcript: {ONE}; {THINGS} things that the job does not force");
    assert_eq!(told.out, format!("t1: {good}\nt2: {good}\nt3: {good}\n"));
    let bits = over("6.3", "127.1");
    let line = format!("labrador: 1 of 1 transcripts accepted; together: {ONE} ({bits} bits), {drawn}");
    assert_eq!(run(&desk, "verify-many --job job r2 t2").line, line);
    let json = run(&desk, &format!("{THREE} --json")).out;
    for part in [&format!("\"accepted\":3,\"counted\":3,\"together\":\"{three}\""), "\"warnings\":[]"] {
        assert!(json.contains(part), "{part}: {json}");
    }
    let strict = run(&desk, &format!("{THREE} --strict"));
    assert_eq!(strict.status, 1);
    assert!(strict.line.ends_with("; --strict: tests 21, 23, 14, 15 and 16 can never fail\n"), "{}", strict.line);
}

#[test]
fn eight_give_their_bits() {
    let case = with_answer(0);
    let desk = Desk::with("many_eight", &case);
    let mut call = "verify-many --job job".to_string();
    for k in 1..=8 {
        let randomness = made(&Parameters::SMALL, k).randomness;
        desk.put(&format!("r{k}"), &randomness);
        desk.put(&format!("t{k}"), &prove(&case.job, &randomness, &case.witness).unwrap());
        call += &format!(" r{k} t{k}");
    }
    let eight = over("1 in 1.9·10^15 (50.7 bits)", "1 in 2^1016.7 (1016.7 bits)");
    let line = &format!("labrador: 8 of 8 transcripts accepted; together: {eight}, if the desk drew");
    let told = run(&desk, &call);
    assert!(told.status == 0 && told.line.starts_with(line), "{}", told.line);
}

#[test]
fn what_is_handed_in_twice_counts_once() {
    let desk = three("many_twice");
    let same = prove(&desk.words("job"), &desk.words("r1"), &desk.words("witness")).unwrap();
    desk.put("t4", &same);
    let mut psi = desk.words("r3");
    let at = begin(Slice::Randomness, &Parameters::SMALL, "psi");
    psi[at..at + 8].copy_from_slice(&desk.words("r2")[at..at + 8]);
    desk.put("r5", &psi);
    desk.put("t5", &prove(&desk.words("job"), &psi, &desk.words("witness")).unwrap());
    let told = run(&desk, "verify-many --job job r1 t1 r2 t2 r1 t4 r5 t5");
    let lines = [
        "labrador: warning: t4 has the transcript of t1: the two count once",
        "labrador: warning: t5 has section psi of the randomness of t2: the two count once",
        &format!(
            "labrador: 4 of 4 transcripts accepted, 2 of them counted; together: {TWO}, if the desk drew the randomness and nothing \
             was tried again; {THINGS} things that the job does not force"
        ),
    ];
    assert_eq!(told.line.lines().collect::<Vec<_>>(), lines);
    assert_eq!((told.status, told.out.lines().count()), (0, 4));
}

#[test]
fn zero_weights_count_nothing() {
    let desk = three("many_zero");
    let mut zero = desk.words("r2");
    let at = begin(Slice::Randomness, &Parameters::SMALL, "beta");
    zero[at..at + 64 * 4].fill(0);
    desk.put("r2", &zero);
    desk.put("t2", &prove(&desk.words("job"), &zero, &desk.words("witness")).unwrap());
    let told = run(&desk, THREE);
    let lines: Vec<&str> = told.line.lines().collect();
    let warning = "labrador: warning: t2: beta is all zero in the randomness: the constant-term constraints and the projection p were not tested";
    assert_eq!(lines[0], warning);
    assert!(
        lines[1].starts_with(&format!("labrador: 3 of 3 transcripts accepted, 2 of them counted; together: {TWO}, ")),
        "{}",
        told.line
    );
    assert!(told.out.contains("t2: accepted; one transcript: 1 in 1 (worth nothing); "), "{}", told.out);
    let alone = run(&desk, "verify-many --job job r2 t2").line;
    let line = "labrador: 1 of 1 transcripts accepted, 0 of them counted; together: 1 in 1 (worth nothing), if";
    assert!(alone.contains(line), "{alone}");
}

/// The line where so many of three are accepted: what these are worth, and that the others were chances.
fn told_of(accepted: u32, worth: &str) -> String {
    format!(
        "labrador: {accepted} of 3 transcripts accepted; the {accepted} accepted{}: at best {worth}, if the desk drew the randomness and \
         nothing was tried again, and each that failed was another chance; {THINGS} things that the job does not force\n",
        if accepted == 1 { "" } else { " together" }
    )
}

#[test]
fn one_that_fails_alters_no_other() {
    let desk = three("many_failed");
    let mut words = desk.words("t2");
    words[1] ^= 1;
    desk.put("t2", &words);
    let told = run(&desk, THREE);
    assert_eq!((told.status, told.line.as_str()), (1, told_of(2, TWO).as_str()));
    let lines: Vec<&str> = told.out.lines().collect();
    assert_eq!(lines[1], "t2: check 28 failed: u1 is not the commitment to the digits of t and g");
    assert!(lines[0].starts_with("t1: accepted") && lines[2].starts_with("t3: accepted"), "{}", told.out);
    // one file cut, one with the randomness of another
    words.pop();
    desk.put("t2", &words);
    let told = run(&desk, "verify-many --job job r1 t1 r2 t2 r1 t3 --json");
    assert_eq!(
        (told.status, told.line.as_str()),
        (2, told_of(1, &format!("{ONE} ({} bits)", over("6.3", "127.1"))).as_str())
    );
    for part in [
        "\"accepted\":1,\"counted\":1,\"together\":null",
        "\"transcript\":\"t2\",\"says\":\"refusal 9: ",
        "\"verdict\":\"failed\",\"number\":",
    ] {
        assert!(told.out.contains(part), "{part}: {}", told.out);
    }
    // of none nothing is said
    let none = run(&desk, "verify-many --job job r2 t2");
    let line = format!("labrador: 0 of 1 transcripts accepted; {THINGS} things that the job does not force\n");
    assert_eq!((none.status, none.line), (2, line));
    let exchanged = run(&desk, "verify-many --job job t1 r1");
    assert!(exchanged.out.ends_with("; the file is fit as transcript\n"), "{}", exchanged.out);
}

#[test]
fn each_verdict_is_that_of_verify() {
    for number in [0, 7, 8, 9, 10, 14, 15, 16, 21, 22, 23, 24, 25, 26, 27, 28, 29] {
        let desk = Desk::with(&format!("many_{number}"), &with_answer(number));
        let single = run(&desk, "verify --job job --randomness randomness --transcript transcript");
        let many = run(&desk, "verify-many --job job randomness transcript randomness transcript");
        assert_eq!(many.status, single.status);
        let line = single.line.replace("labrador: ", "transcript: ");
        assert_eq!(many.out, format!("{line}{line}"));
    }
}

#[test]
fn the_whole_call_is_refused() {
    let desk = three("many_refused");
    let mut job = desk.words("job");
    job[1] = 65;
    desk.put("job", &job);
    let told = run(&desk, THREE);
    assert_eq!((told.status, told.out.as_str()), (2, ""));
    assert!(told.line.starts_with("labrador: refusal 4: "), "{}", told.line);
    assert_eq!(run(&desk, "verify-many --job job r1 nothing").status, 3);
}

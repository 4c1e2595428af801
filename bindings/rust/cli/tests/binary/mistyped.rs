//! Which constant was mistyped: the list on the command line and on the page.

use labrador::{prove, Parameters, Slice, Zq, Q};

use crate::common::{begin, made, with_answer, Case};
use crate::desk::Desk;
use crate::pages::page_of;
use crate::run::run;

const MISTYPED: &str = "mistyped --job job --randomness randomness --transcript transcript";
const WARNING: &str = "a mended constant is another claim";

fn add(word: &mut u32, number: u32) {
    *word = Zq(*word).add(Zq(number)).unwrap().0;
}

/// A word with its centred number, as it is told.
fn both(word: u32) -> String {
    format!("{} (word {word})", Zq(word).centre().unwrap())
}

/// A case whose b0[0] is 7 too small, and columns of psi such that each of two entries mends it.
fn two_ways() -> Case {
    let p = Parameters::SMALL;
    let mut case = made(&p, 3);
    let psi = begin(Slice::Randomness, &p, "psi");
    for row in case.randomness[psi..psi + (p.L * p.l) as usize].chunks_mut(p.l as usize) {
        row[1] = Zq(row[0]).neg().unwrap().0;
    }
    case.transcript = prove(&case.job, &case.randomness, &case.witness).unwrap();
    add(&mut case.job[begin(Slice::Job, &p, "b0")], Q - 7);
    case
}

#[test]
fn the_entries_are_listed_in_their_order() {
    let case = two_ways();
    let desk = Desk::with("mistyped_two", &case);
    let at = begin(Slice::Job, &Parameters::SMALL, "b0");
    let (first, second) = (case.job[at], case.job[at + 1]);
    let after = |word, number| both(Zq(word).add(Zq(number)).unwrap().0);
    let told = run(&desk, MISTYPED);
    let lowered = format!("b0[1]: {} added to {} gives {}\n", both(Q - 7), both(second), after(second, Q - 7));
    let raised = format!("b0[0]: {} added to {} gives {}\n", both(7), both(first), after(first, 7));
    assert_eq!((told.status, told.out), (0, lowered + &raised));
    let lines: Vec<&str> = told.line.lines().collect();
    assert!(lines[0].starts_with(&format!("labrador: warning: {WARNING}: ")), "{}", told.line);
    assert_eq!(lines[1], "labrador: check 22 failed; any one of 2 entries of b0, changed alone, would mend it");
    let json = run(&desk, &format!("{MISTYPED} --json"));
    let (word, mended) = (Zq(first), Zq(first).add(Zq(7)).unwrap());
    let entry = format!(
        "{{\"index\":0,\"added\":7,\"added_word\":7,\"b0\":{},\"centred\":{},\"mended_b0\":{},\"mended_centred\":{}}}]",
        word.0,
        word.centre().unwrap(),
        mended.0,
        mended.centre().unwrap()
    );
    assert_eq!(json.status, 0);
    assert!(json.out.starts_with("{\"status\":0,\"says\":\"check 22 failed; "), "{}", json.out);
    assert!(json.out.contains(&format!("\"entries\":[{{\"index\":1,\"added\":-7,\"added_word\":{},", Q - 7)));
    assert!(json.out.contains(&entry) && json.out.contains(&format!("\"warnings\":[\"{WARNING}: ")), "{}", json.out);
}

#[test]
fn a_mended_job_passes_check_22() {
    let desk = Desk::with("mistyped_one", &with_answer(22));
    let told = run(&desk, MISTYPED);
    assert_eq!((told.status, told.out.lines().count()), (0, 1));
    assert!(told.out.starts_with(&format!("b0[0]: {} added to ", both(Q - 1))), "{}", told.out);
    assert!(told.line.ends_with("labrador: check 22 failed; one entry of b0, changed alone, would mend it\n"));
    let mended: u32 = told.out.rsplit("(word ").next().unwrap().trim_end_matches(")\n").parse().unwrap();
    let mut job = desk.words("job");
    job[begin(Slice::Job, &Parameters::SMALL, "b0")] = mended;
    desk.put("job", &job);
    let again = run(&desk, MISTYPED);
    let line = "labrador: refusal 32: check 22 is not the one that failed; labrador verify says what the verdict is\n";
    assert_eq!((again.status, again.out.as_str(), again.line.as_str()), (2, "", line));
}

#[test]
fn the_page_of_a_failed_22_has_the_list() {
    let case = two_ways();
    let page = page_of(&Desk::with("mistyped_page", &case));
    assert!(page.contains("<h2 id=\"mistyped\">Which constant was mistyped</h2>"), "{page}");
    let word = case.job[begin(Slice::Job, &Parameters::SMALL, "b0") + 1];
    let mended = Zq(word).add(Zq(Q - 7)).unwrap();
    let cells = [word, Q - 7, mended.0].map(|word| format!("<td>{}</td>", both(word))).concat();
    let rows = page.split("<th scope=\"row\">b0[").collect::<Vec<_>>();
    assert_eq!(rows.len(), 3);
    assert!(rows[1].starts_with(&format!("1]</th>{cells}</tr>")), "{}", rows[1]);
    assert!(rows[2].starts_with("0]</th>"), "{}", rows[2]);
    assert!(page.contains(&format!("<p><strong>Warning:</strong> {WARNING}: ")), "{page}");
    for number in [0, 21, 23, 27, 6] {
        let other = page_of(&Desk::with(&format!("mistyped_page_{number}"), &with_answer(number)));
        assert!(!other.contains("mistyped"), "{number}");
    }
}

#[test]
fn where_nothing_mends_it_is_refusal_33() {
    let mut case = with_answer(22);
    add(&mut case.job[begin(Slice::Job, &Parameters::SMALL, "b0") + 1], 1);
    let desk = Desk::with("mistyped_none", &case);
    let told = run(&desk, MISTYPED);
    let line = "labrador: refusal 33: no constant alone mends check 22\n";
    assert_eq!((told.status, told.out.as_str(), told.line.as_str()), (2, "", line));
    let json = run(&desk, &format!("{MISTYPED} --json")).out;
    assert!(json.starts_with("{\"status\":2,") && json.contains("\"number\":33,\"place\":0"), "{json}");
    let page = page_of(&desk);
    let said = "<p>refusal 33: no constant alone mends check 22. More than one entry of b0 is wrong, or the transcript is.</p>";
    assert!(page.contains(said) && !page.contains(WARNING), "{page}");
}

#[test]
fn other_verdicts_and_refusals_are_2() {
    for number in [0, 21, 23, 29] {
        let told = run(&Desk::with(&format!("mistyped_{number}"), &with_answer(number)), MISTYPED);
        assert_eq!(told.status, 2, "{number}");
        assert!(told.line.starts_with("labrador: refusal 32: "), "{}", told.line);
    }
    for number in [3, 6, 7, 8, 9, 10, 14, 16] {
        let told = run(&Desk::with(&format!("mistyped_{number}"), &with_answer(number)), MISTYPED);
        assert_eq!(told.status, 2, "{number}");
        assert!(told.line.starts_with(&format!("labrador: refusal {number}: ")), "{}", told.line);
    }
    let desk = Desk::with("mistyped_calls", &with_answer(22));
    let exchanged = run(&desk, "mistyped --job job --randomness transcript --transcript randomness");
    assert!(exchanged.line.ends_with("; the file is fit as transcript\n"), "{}", exchanged.line);
    assert_eq!(run(&desk, &MISTYPED.replace(" transcript", " nothing")).status, 3);
    for call in ["mistyped", "mistyped --job job --randomness randomness", &format!("{MISTYPED} job")] {
        assert_eq!(run(&desk, call).status, 64, "{call}");
    }
}

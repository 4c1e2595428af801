//! More transcripts than one call takes: groups, threads, and the page of all.

use std::fs;

use labrador::section_one::SectionOne;
use labrador::worth::Worth;
use labrador::{hex, prove, sha256, Parameters, ARCHIVE_SHA256};

use crate::common::{made, with_answer, ONE, THINGS};
use crate::desk::Desk;
use crate::run::{run, Ran};

/// A desk with one job and so many transcripts, each with randomness of its own.
fn desk_of(name: &str, count: u32) -> Desk {
    let case = with_answer(0);
    let desk = Desk::with(name, &case);
    for k in 1..=count {
        let randomness = made(&Parameters::SMALL, 100 + k).randomness;
        desk.put(&format!("r{k}"), &randomness);
        desk.put(&format!("t{k}"), &prove(&case.job, &randomness, &case.witness).unwrap());
    }
    desk
}

/// What so many are worth together.
fn worth_of(desk: &Desk, count: u32) -> String {
    let chance = Worth::of(&SectionOne::read(&desk.words("job")).unwrap()).drawn(count);
    format!("{chance} ({:.1} bits)", chance.bits())
}

fn call(pairs: impl Iterator<Item = u32>) -> String {
    pairs.fold("verify-many --job job".to_string(), |call, k| format!("{call} r{k} t{k}"))
}

/// The same by one thread, by three, by more than there are transcripts, and by as many as there are processors.
fn by_threads(desk: &Desk, call: &str) -> Ran {
    let told = run(desk, call);
    for threads in [1, 3, 50] {
        let other = run(desk, &format!("{call} --threads {threads}"));
        assert_eq!((other.status, &other.out, &other.line), (told.status, &told.out, &told.line), "{threads} threads");
    }
    told
}

#[test]
fn nine_and_seventeen_are_judged_in_their_order() {
    let desk = desk_of("groups", 17);
    for count in [9, 17] {
        let told = by_threads(&desk, &call(1..=count));
        assert_eq!(told.status, 0);
        let worth = worth_of(&desk, count);
        let line = format!("labrador: {count} of {count} transcripts accepted; together: {worth}, if the desk drew");
        assert!(told.line.starts_with(&line), "{}", told.line);
        let good = format!("accepted; one transcript: {ONE}; {THINGS} things that the job does not force");
        let lines: String = (1..=count).map(|k| format!("t{k}: {good}\n")).collect();
        assert_eq!(told.out, lines);
    }
}

#[test]
fn one_that_is_refused_in_a_later_group_alters_no_other() {
    let desk = desk_of("groups_refused", 11);
    let mut words = desk.words("t10");
    words.pop();
    desk.put("t10", &words);
    let mut words = desk.words("t9");
    words[1] ^= 1;
    desk.put("t9", &words);
    let told = by_threads(&desk, &call(1..=11));
    assert_eq!(told.status, 2);
    assert!(
        told.line.starts_with("labrador: 9 of 11 transcripts accepted; the 9 accepted together: at best "),
        "{}",
        told.line
    );
    let lines: Vec<&str> = told.out.lines().collect();
    assert!(lines[8].starts_with("t9: check 28 failed: ") && lines[9].starts_with("t10: refusal 9: "), "{}", told.out);
    assert_eq!(lines.iter().filter(|line| line.contains(": accepted; ")).count(), 9);
    let missing = run(&desk, &format!("{} r11 nothing", call(1..=11)));
    assert_eq!((missing.status, missing.out.as_str()), (3, ""));
    assert!(missing.line.starts_with("labrador: nothing: "), "{}", missing.line);
}

#[test]
fn what_is_handed_in_twice_counts_once_across_groups() {
    let desk = desk_of("groups_twice", 9);
    let told = by_threads(&desk, &call((1..=9).chain([1, 5])));
    let lines: Vec<&str> = told.line.lines().collect();
    assert_eq!(lines[0], "labrador: warning: t1 has the transcript of t1: the two count once");
    assert_eq!(lines[1], "labrador: warning: t5 has the transcript of t5: the two count once");
    assert!(
        lines[2].starts_with("labrador: 11 of 11 transcripts accepted, 9 of them counted; together: "),
        "{}",
        told.line
    );
}

#[test]
fn threads_are_a_number_from_one_on() {
    let desk = desk_of("groups_threads", 1);
    for given in ["0", "-1", "two", "1.5", ""] {
        let told = run(&desk, &format!("{} --threads={given}", call(1..=1)));
        assert_eq!((told.status, told.out.as_str()), (64, ""), "{given}");
        assert_eq!(told.line, format!("labrador: --threads is a number from 1 on, not {given}\n"));
    }
}

#[test]
fn the_page_of_all_has_each_verdict_and_their_worth() {
    let desk = desk_of("groups_page", 9);
    let told = run(&desk, &format!("{} --report page.html", call(1..=9)));
    assert_eq!(told.status, 0);
    let page = fs::read_to_string(desk.path("page.html")).unwrap();
    let worth = worth_of(&desk, 9);
    let title = format!("9 of 9 transcripts accepted; together: {worth}; {THINGS} things that the job does not force");
    assert!(page.contains(&format!("<title>{title}</title>")), "{page}");
    assert!(page.contains("<header class=\"accepted\">"));
    assert_eq!(page.matches("✓</span> accepted").count(), 9);
    assert!(page.contains("<tr class=\"passed\"><th scope=\"row\">9</th><td>t9, r9</td>"), "{page}");
    assert!(page.contains("holds if the desk drew the randomness and nothing was tried again."), "{page}");
    for other in ["<script", "http:", "https:", "src=", "href=", "url(", "@import"] {
        assert!(!page.contains(other), "{other}");
    }
    // the same page by any number of threads; nothing is overwritten unless that is asked for
    assert_eq!(run(&desk, &format!("{} --report page.html --threads 1", call(1..=9))).status, 3);
    assert_eq!(run(&desk, &format!("{} --report page.html --threads 1 --force", call(1..=9))).status, 0);
    assert_eq!(page, fs::read_to_string(desk.path("page.html")).unwrap());
    assert_eq!(run(&desk, &format!("{} --report t3 --force", call(1..=9))).status, 64);
}

#[test]
fn the_page_of_all_is_filed_with_the_hash_of_each_file() {
    let desk = desk_of("groups_filed", 2);
    let told = run(&desk, &format!("{} --report page.html --reference K-17 --date 2026-11-17 --json", call(1..=2)));
    assert!(told.out.contains("\"reference\":\"K-17\",\"date\":\"2026-11-17\",\"version\":"), "{}", told.out);
    let page = fs::read_to_string(desk.path("page.html")).unwrap();
    assert!(page.contains("K-17") && page.contains("2026-11-17") && page.contains("Signature"), "{page}");
    for name in ["job", "r1", "t1", "r2", "t2"] {
        let hash = hex(&sha256(&fs::read(desk.path(name)).unwrap()));
        assert_eq!(page.matches(&hash).count(), 1, "{name}");
    }
    assert!(page.contains(ARCHIVE_SHA256), "{page}");
}

#[test]
fn the_page_of_all_is_green_only_where_all_are_accepted() {
    let desk = desk_of("groups_page_failed", 3);
    let page = |pairs: &str| {
        run(&desk, &format!("verify-many --job job {pairs} --report page.html --force"));
        fs::read_to_string(desk.path("page.html")).unwrap()
    };
    let mut words = desk.words("t2");
    words[1] ^= 1;
    desk.put("t2", &words);
    let failed = page("r1 t1 r2 t2");
    assert!(failed.contains("<header class=\"failed\">") && failed.contains("1 of 2 transcripts accepted"), "{failed}");
    assert!(
        failed.contains("✗</span> check 28 failed: u1 is not the commitment to the digits of t and g</td>"),
        "{failed}"
    );
    let refused = page("r1 t1 t3 r3");
    assert!(refused.contains("<header class=\"refused\">") && refused.contains("✗</span> refusal 7: "), "{refused}");
    let twice = page("r1 t1 r1 t1");
    assert!(twice.contains("Warning: t1 has the transcript of t1: the two count once."), "{twice}");
}

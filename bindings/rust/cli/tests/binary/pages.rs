//! The page of each verdict: its text, and that it is one file on its own.

use std::fs;

use labrador::{Parameters, Slice, Q};

use crate::common::{begin, made, over, with_answer, ONE, THINGS};
use crate::desk::Desk;
use crate::run::{run, VERIFY};

/// The page of this answer.
pub fn page_of(desk: &Desk) -> String {
    let ran = run(desk, &format!("{VERIFY} --report page.html --force"));
    assert!(ran.status < 3, "{}", ran.line);
    fs::read_to_string(desk.path("page.html")).expect("the page")
}

pub fn desk_of(kind: &str, number: u32) -> Desk {
    Desk::with(&format!("{kind}_{number}"), &with_answer(number))
}

fn marks(page: &str) -> [usize; 3] {
    ["✓ passed", "✗ failed", "– not reached"].map(|mark| page.matches(mark).count())
}

#[test]
fn an_accepted_transcript() {
    let page = page_of(&desk_of("page", 0));
    let headline = format!("Accepted; one transcript: {ONE}; {THINGS} things that the job does not force");
    assert!(page.contains(&format!("<title>{headline}</title>")));
    assert!(page.contains(&format!("<h1><span aria-hidden=\"true\">✓</span> {headline}</h1>")), "{page}");
    let needed = over(
        "at least 11 transcripts of this job, each with randomness of its own that the desk draws round after round, all accepted, no retry.",
        "at least 1 transcript of this job, with randomness that the desk draws round after round, and no retry.",
    );
    let worth =
        format!("One accepted transcript leaves a false statement a chance of at least {ONE}; 64 bits need {needed}");
    assert!(page.contains(&worth), "{page}");
    assert!(page.contains(&format!("Q is {Q}.")));
    assert_eq!(marks(&page), [13, 0, 0]);
    assert_eq!(page.matches("(condition)").count(), 4);
    assert_eq!(page.matches("✓ passed</span> (can never fail)").count(), 5);
    assert_eq!(page.matches("<div class=\"bar\">").count(), 5);
    assert_eq!(page.matches("<li>").count(), over(6, 4));
    assert!(page.contains("<li>tests 21, 23, 14, 15 and 16 can never fail: these limits limit nothing</li>"));
    assert!(page.contains("Cells of t, g and h with something left after their digits: 0 of 24."));
}

#[test]
fn an_acceptance_that_is_worth_nothing_is_no_green_one() {
    let desk = Desk::with("page_worthless", &made(&Parameters { n: 10, r: 2, ..Parameters::SMALL }, 7));
    let page = page_of(&desk);
    let things = THINGS + 1;
    let headline =
        format!("Accepted; one transcript: 1 in 1 (worth nothing); {things} things that the job does not force");
    assert!(
        page.contains(&format!("<header class=\"refused\">\n<h1><span aria-hidden=\"true\">!</span> {headline}</h1>"))
    );
    assert!(page.contains("a chance of at least 1 in 1 (worth nothing); no number of transcripts gives 64 bits."));
    let first = "<ul>\n<li>any statement is accepted for certain, without a witness: ";
    assert!(page.contains(first), "{page}");
}

#[test]
fn no_finding_is_cut_without_its_count() {
    let p = Parameters { n: 1, r: 8, ..Parameters::SMALL };
    let mut case = made(&p, 7);
    // no constraint has a coefficient: eight vectors, four constraints
    for name in ["a'", "phi'", "a", "phi"] {
        let at = begin(Slice::Job, &p, name);
        let end = at + case.job[at - 1] as usize;
        case.job[at..end].fill(0);
    }
    let desk = Desk::with("page_cut", &case);
    let page = page_of(&desk);
    // five of them in one item, and six more; the others are counted
    let (all, more) = over((22, 11), (20, 9));
    assert!(page.contains(&format!("{all} found, the worst first: what an acceptance leaves open.")), "{page}");
    assert_eq!(page.matches("<li>").count(), 8);
    assert!(page.contains(&format!("<li>and {more} more: labrador review lists them all</li>")), "{page}");
}

#[test]
fn each_failed_check_is_marked_as_far_as_the_verifier_came() {
    let order = [21, 22, 23, 24, 25, 26, 27, 14, 15, 28, 16, 29];
    for (k, number) in order.into_iter().enumerate() {
        let page = page_of(&desk_of("page", number));
        assert_eq!(marks(&page), [1 + k, 1, 11 - k], "{number}");
        let kind = if number > 20 { format!("check {number} failed") } else { format!("refusal {number}") };
        assert!(page.contains(&kind), "{number}");
        assert_eq!(
            page.matches("above the limit").count(),
            usize::from([21, 23, 14, 15, 16].contains(&number)),
            "{number}"
        );
    }
}

#[test]
fn a_refusal_has_its_place_with_the_words_around_it() {
    for number in 3..=10 {
        let page = page_of(&desk_of("page", number));
        assert_eq!(marks(&page), [0, 0, 12], "{number}");
        assert_eq!(page.matches("← here").count(), 1, "{number}");
        assert!(page.contains(&format!("Refused: refusal {number}")));
        assert!(page.contains("Not taken: the slices were refused."));
    }
    let page = page_of(&desk_of("page", 6));
    assert!(page.contains("section phi&#39;, constraint 0, vector 0, element 0, coefficient 16"), "{page}");
    let page = page_of(&desk_of("page", 3));
    assert!(page.contains("(the file ends) ← here"));
}

#[test]
fn a_page_stands_alone_and_repeats() {
    let desk = desk_of("alone", 22);
    let page = page_of(&desk);
    for other in ["<script", "http:", "https:", "src=", "href=", "url(", "@import"] {
        assert!(!page.contains(other), "{other}");
    }
    for part in ["<html lang=\"en\">", "<main>", "<h1>", "<caption>", "<th scope=\"row\">", "<th scope=\"col\">"] {
        assert!(page.contains(part), "{part}");
    }
    assert_eq!(page, page_of(&desk));
}

//! What a page and a description are filed by: hashes, version, reference and date, the statement in words, a line to sign on.

use std::fs;
use std::process::{Command, Stdio};

use labrador::{hex, sha256, Parameters, Slice, Zq, ARCHIVE_SHA256, Q};

use crate::common::{begin, with_answer};
use crate::desk::Desk;
use crate::pages::page_of;
use crate::run::{ran, run, Ran, BINARY, VERIFY};
use crate::statement::proved;

/// A run of `verify --report page.html` with these arguments besides, and its page.
fn filed(desk: &Desk, more: &[&str]) -> (Ran, String) {
    let mut command = Command::new(BINARY);
    command.args(VERIFY.split(' ')).args(["--report", "page.html", "--force"]).args(more);
    let ran = ran(command.current_dir(&desk.folder).stdin(Stdio::null()).output().expect("the binary runs"));
    (ran, fs::read_to_string(desk.path("page.html")).unwrap_or_default())
}

fn hash(desk: &Desk, name: &str) -> String {
    hex(&sha256(&fs::read(desk.path(name)).expect("a file")))
}

#[test]
fn the_page_has_the_hashes_of_the_three_files() {
    let desk = Desk::with("filed_hashes", &with_answer(0));
    let page = page_of(&desk);
    for name in ["job", "randomness", "transcript"] {
        let length = desk.words(name).len();
        let hash = hash(&desk, name);
        let small = format!("<small>SHA-256 <code>{hash}</code></small>");
        let item = format!("<dt>{name}</dt> <dd>{name}, {length} words {small}</dd>");
        assert!(page.contains(&item), "{item}\n{page}");
        match Command::new("sha256sum").arg(desk.path(name)).output() {
            Ok(said) => assert!(String::from_utf8_lossy(&said.stdout).starts_with(&hash), "{name}"),
            Err(_) => println!("not tried: sha256sum is not at hand"),
        }
    }
    let version = env!("CARGO_PKG_VERSION");
    let small = format!("<small>SHA-256 <code>{ARCHIVE_SHA256}</code></small>");
    let by = format!("<dt>judged by</dt> <dd>labrador {version} over the archive of proved calls {small}</dd>");
    assert!(page.contains(&by), "{page}");
    let signed = "<div>Name</div>\n<div>Date</div>\n<div>Signature</div>\n";
    assert!(page.contains(signed) && !page.contains("<dt>reference</dt>") && !page.contains("<dt>date</dt>"), "{page}");
}

#[test]
fn reference_and_date_are_those_that_were_given() {
    let desk = Desk::with("filed_reference", &with_answer(0));
    let (ran, page) = filed(&desk, &["--reference", "Loan 17, <script>\"A&B\"", "--date=2026-11-17"]);
    assert_eq!(ran.status, 0, "{}", ran.line);
    let reference = "<dt>reference</dt> <dd>Loan 17, &lt;script&gt;&quot;A&amp;B&quot;</dd>";
    assert!(page.contains(reference) && page.contains("<dt>date</dt> <dd>2026-11-17</dd>"), "{page}");
    assert!(!page.contains("<script"));
    let json = filed(&desk, &["--json", "--reference", "Loan 17", "--date", "2024-02-29"]).0.out;
    let given =
        format!("\"reference\":\"Loan 17\",\"date\":\"2024-02-29\",\"version\":\"{}\"", env!("CARGO_PKG_VERSION"));
    assert!(json.contains(&format!("{given},\"archive_sha256\":\"{ARCHIVE_SHA256}\"")), "{json}");
    assert!(filed(&desk, &["--json"]).0.out.contains("\"reference\":null,\"date\":null,"));
}

#[test]
fn the_page_is_the_same_for_the_same_files_and_options() {
    let options = ["--reference", "Loan 17", "--date", "2026-11-17"];
    let (one, other) = (Desk::with("filed_one", &with_answer(22)), Desk::with("filed_other", &with_answer(22)));
    let page = filed(&one, &options).1;
    assert!(!page.is_empty() && page == filed(&other, &options).1);
    assert!(!page.contains("filed_one"));
    for others in [&["--reference", "Loan 18", "--date", "2026-11-17"][..], &options[..2], &[]] {
        assert_ne!(page, filed(&other, others).1, "{others:?}");
    }
}

#[test]
fn what_is_no_date_and_no_reference_is_a_wrong_call() {
    let desk = Desk::with("filed_wrong", &with_answer(0));
    for date in ["2026-11-31", "2026-02-29", "17.11.2026", "2026-11-17T09:00", "today", ""] {
        let (ran, page) = filed(&desk, &["--date", date]);
        let line = format!("labrador: --date is a day as YYYY-MM-DD, not {date}\n");
        assert_eq!((ran.status, ran.line, page.as_str()), (64, line, ""), "{date}");
        assert_eq!(run(&desk, &format!("describe job --date={date}")).status, 64, "{date}");
    }
    for reference in ["", "two\nlines", "a\u{1b}[2J"] {
        let (ran, page) = filed(&desk, &["--reference", reference]);
        assert_eq!((ran.status, page.as_str()), (64, ""), "{reference}");
        assert_eq!(ran.line, "labrador: --reference is a line of text\n");
    }
    assert_eq!(filed(&desk, &["--reference", "a", "--reference", "b"]).0.status, 64);
}

#[test]
fn the_page_says_which_totals_were_accepted() {
    let page = page_of(&proved("filed_totals"));
    let row = |cells: [&str; 4]| {
        let [head, rest @ ..] = cells;
        format!("<th scope=\"row\">{head}</th>{}", rest.map(|cell| format!("<td>{cell}</td>")).concat())
    };
    let first = ["constant-term constraint 0", "total 60 = s0", "b0 is 60, centred 60", "s0 with 64 terms"];
    let b0 = format!("b0 is {}, centred -5", Q - 5);
    let second = ["constant-term constraint 1", "total -5 = - 2 * s0[1] + s1[0..32]", &b0];
    let second = [second[0], second[1], second[2], "s0 with 1 term, s1 with 32 terms"];
    assert!(page.contains(&row(first)) && page.contains(&row(second)), "{page}");
    // a test load has products, and constraints on the ring
    let case = with_answer(0);
    let page = page_of(&Desk::with("filed_load", &case));
    let b = case.job[begin(Slice::Job, &Parameters::SMALL, "b") + 64];
    let right = format!("coefficient 0 of b is {b}, centred {}; 63 of the other 63 are not 0", Zq(b).centre().unwrap());
    let at = begin(Slice::Job, &Parameters::SMALL, "a") + 6 * 64;
    let no_total = format!("no total (from word {at})");
    let touched = "s0 to s2 with 256 terms and 3 products each";
    assert!(page.contains(&row(["ring constraint 1", &no_total, &right, touched])), "{page}");
}

#[test]
fn a_refused_job_is_filed_without_its_constraints() {
    let desk = Desk::with("filed_refused", &with_answer(6));
    let page = page_of(&desk);
    assert!(page.contains("Not read: the job was refused.") && page.contains(&hash(&desk, "job")), "{page}");
    assert!(page.contains("<div>Signature</div>"));
}

#[test]
fn a_file_that_is_not_read_whole_has_no_hash() {
    let desk = Desk::with("filed_long", &with_answer(0));
    let file = fs::OpenOptions::new().write(true).open(desk.path("transcript")).unwrap();
    file.set_len(4 * (Slice::Transcript.greatest_length() + 1)).unwrap();
    let page = page_of(&desk);
    let longest = Slice::Transcript.greatest_length();
    let told = format!("transcript, more than {longest} words <small>SHA-256 not taken: the file is too long</small>");
    assert!(page.contains(&told), "{page}");
}

#[test]
fn describe_gives_the_same() {
    let desk = proved("filed_describe");
    let told = run(&desk, "describe job randomness transcript --reference Loan-17 --date 2026-11-17");
    assert_eq!(told.status, 0, "{}", told.line);
    for name in ["job", "randomness", "transcript"] {
        let lines = format!("{name}: {name}, {} words\nSHA-256 {}\n", desk.words(name).len(), hash(&desk, name));
        assert!(told.out.contains(&lines), "{lines}\n{}", told.out);
    }
    let version = env!("CARGO_PKG_VERSION");
    let by = format!("labrador {version}, SHA-256 of its archive {ARCHIVE_SHA256}\n");
    assert!(told.out.ends_with(&format!("\n\n{by}reference: Loan-17\ndate: 2026-11-17\n")), "{}", told.out);
    let json = run(&desk, "describe job witness --json").out;
    for name in ["job", "witness"] {
        assert!(json.contains(&format!("\"sha256\":\"{}\"", hash(&desk, name))), "{json}");
    }
    let last = format!("\"version\":\"{version}\",\"archive_sha256\":\"{ARCHIVE_SHA256}\"}}\n");
    assert!(json.ends_with(&format!("\"reference\":null,\"date\":null,{last}")), "{json}");
    let constraint = format!(
        "{{\"kind\":\"constant-term constraint\",\"index\":1,\"b0\":{},\"centred\":-5,\"vectors\":[\
         {{\"vector\":0,\"terms\":1,\"products\":0}},{{\"vector\":1,\"terms\":32,\"products\":0}}],\
         \"states\":\"total -5 = - 2 * s0[1] + s1[0..32]\"}}",
        Q - 5
    );
    assert!(json.contains(&constraint), "{json}");
}

#[test]
fn describe_has_the_ring_constraints_too() {
    let case = with_answer(0);
    let desk = Desk::with("filed_ring", &case);
    let json = run(&desk, "describe job --json").out;
    let at = begin(Slice::Job, &Parameters::SMALL, "b");
    let words: Vec<String> = case.job[at..at + 64].iter().map(u32::to_string).collect();
    let centred: Vec<String> =
        case.job[at..at + 64].iter().map(|&word| Zq(word).centre().unwrap().to_string()).collect();
    let ring = format!(
        "{{\"kind\":\"ring constraint\",\"index\":0,\"b\":[{}],\"centred\":[{}],\"vectors\":[{{\"vector\":0,\"terms\":256,\"products\":3}},",
        words.join(","),
        centred.join(",")
    );
    assert!(json.contains(&ring), "{json}");
    let long = fs::OpenOptions::new().write(true).open(desk.path("transcript")).unwrap();
    long.set_len(1 << 32).unwrap();
    let told = run(&desk, "describe --job job transcript").out;
    assert!(told.contains("\nSHA-256 not taken: the file is longer than any slice\n"), "{told}");
}

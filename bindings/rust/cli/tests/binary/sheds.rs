//! Projection worked by shed: folders that stand for sheds, and the page's commands, pasted.
#![cfg(unix)]

use std::fs;
use std::os::unix::fs::PermissionsExt;

use crate::common::over;
use crate::desk::Desk;
use crate::pasted::page_is_true;
use crate::run::{run, LOAD, PROVE};

const PARTS: &str = "shed-parts --job job --randomness randomness --witness witness";

/// A load of five vectors with its transcript.
fn store(name: &str) -> Desk {
    let desk = Desk::new(name);
    assert_eq!(run(&desk, &format!("{LOAD} n=2 r=5 kappa=3 --seed 4")).status, 0);
    assert_eq!(run(&desk, &format!("{PROVE} --transcript transcript --rounds")).status, 0);
    desk
}

/// A run's two slices, then its p and its rows.
fn work(desk: &Desk, shed: &str, first: u32, end: u32) {
    let run_of = format!("--first {first} --end {end}");
    let slices = format!("--projection {shed}.projection --vectors {shed}.vectors");
    let calls = [
        format!("{PARTS} {run_of} {slices}"),
        format!("shed-projection --job job {run_of} {slices} --p {shed}.p"),
        format!("shed-rows --job job {run_of} --vectors {shed}.vectors --rows {shed}.rows"),
    ];
    for call in calls {
        let ran = run(desk, &call);
        assert_eq!(ran.status, 0, "{call}: {}", ran.line);
    }
}

/// The words of section p and of section t, found by their counts.
fn sent(desk: &Desk) -> (Vec<u32>, Vec<u32>) {
    let words = desk.words("transcript");
    let mut at = 0;
    let mut sections = Vec::new();
    while at < words.len() {
        let end = at + 1 + words[at] as usize;
        sections.push(words[at..end].to_vec());
        at = end;
    }
    (sections[1].clone(), sections[5][1..].to_vec())
}

#[test]
fn the_sheds_together_give_p_and_t() {
    let desk = store("sheds");
    for (shed, first, end) in [("a", 0, 2), ("b", 2, 3), ("c", 3, 5)] {
        work(&desk, shed, first, end);
    }
    let (p, t) = sent(&desk);
    for (k, order) in ["a.p b.p c.p", "c.p a.p b.p", "b.p c.p a.p"].iter().enumerate() {
        let added = run(&desk, &format!("add-projections --p sum{k} {order}"));
        assert_eq!((added.status, added.line.as_str()), (0, "labrador: made p of 257 words\n"));
        assert_eq!(desk.words(&format!("sum{k}")), p);
    }
    let laid: Vec<u32> =
        ["a", "b", "c"].iter().flat_map(|shed| desk.words(&format!("{shed}.rows"))[1..].to_vec()).collect();
    assert_eq!(laid, t);
    let mode = |name: &str| fs::metadata(desk.path(name)).unwrap().permissions().mode() & 0o777;
    assert_eq!((mode("a.vectors"), mode("a.p")), (0o600, 0o600));
    let json = run(&desk, "shed-rows --job job --first 3 --end 5 --vectors c.vectors --rows d.rows --json").out;
    assert!(json.contains("\"rows\":385"), "{json}");
}

#[test]
fn a_run_that_is_refused_makes_no_file() {
    let desk = store("sheds_refused");
    work(&desk, "a", 0, 2);
    let before = desk.names();
    let slices = "--projection a.projection --vectors a.vectors";
    let refused = [
        (
            "shed-rows --job job --first 5 --end 6 --vectors a.vectors --rows made",
            "refusal 34: the run goes from 5 up to 6",
        ),
        (
            "shed-rows --job job --first 1 --end 1 --vectors a.vectors --rows made",
            "refusal 34: the run goes from 1 up to 1",
        ),
        (
            "shed-rows --job job --first 0 --end 3 --vectors a.vectors --rows made",
            "refusal 11: the witness's word 0 is 256",
        ),
        ("shed-rows --job a.p --first 0 --end 2 --vectors a.vectors --rows made", "refusal 3: "),
        ("add-projections --p made a.p a.rows", "refusal 9: word 0 of the second p is 384, and its count is 256"),
        (
            "add-projections --p made a.p a.p a.projection",
            "refusal 9: word 0 of the second p is 65536, and its count is 256",
        ),
        (
            "add-projections --p made a.projection a.p",
            "refusal 9: word 0 of the first p is 65536, and its count is 256",
        ),
    ];
    for (call, told) in refused {
        let ran = run(&desk, call);
        assert_eq!(ran.status, 2, "{call}");
        assert!(ran.line.starts_with(&format!("labrador: {told}")), "{call}: {}", ran.line);
    }
    let ran = run(&desk, &format!("shed-projection --job job --first 4294967295 --end 0 {slices} --p made --json"));
    assert_eq!(ran.status, 2);
    assert!(ran.out.contains("\"number\":34,\"place\":4294967295"), "{}", ran.out);
    assert_eq!(run(&desk, &format!("{PARTS} --first 4 --end 9 --projection made --vectors more")).status, 2);
    assert_eq!(desk.names(), before);
}

#[test]
fn damaged_files_of_a_shed_are_answered() {
    let desk = store("sheds_damaged");
    work(&desk, "a", 0, 2);
    fs::write(desk.path("odd"), [7; 1001]).unwrap();
    fs::write(desk.path("empty"), []).unwrap();
    for file in ["odd", "empty", "job", "transcript", "/dev/zero"] {
        let calls = [
            format!("shed-projection --job job --first 0 --end 2 --projection {file} --vectors a.vectors --p made"),
            format!("shed-projection --job job --first 0 --end 2 --projection a.projection --vectors {file} --p made"),
            format!("shed-rows --job job --first 0 --end 2 --vectors {file} --rows made"),
            format!("add-projections --p made a.p {file}"),
            format!("add-projections --p made {file} a.p"),
        ];
        for call in calls {
            let ran = run(&desk, &call);
            assert_eq!(ran.status, 2, "{call}: {}", ran.line);
            assert_eq!(ran.line.lines().count(), 1);
        }
    }
    assert_eq!(run(&desk, "add-projections --p made a.p nothing").status, 3);
    assert_eq!(run(&desk, "add-projections --p a.rows a.p a.p").status, 3);
}

#[test]
fn the_commands_of_the_page_say_what_it_says() {
    if over(false, true) {
        return println!("not tried: docs/SHEDS.md, whose figures are of 4294967295");
    }
    page_is_true("SHEDS.md", 5);
}

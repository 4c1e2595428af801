//! Files that are no texts, and wrong calls.

use std::fs;

use super::{made, proved};
use crate::run::{run, VERIFY};

/// Every command that reads a text, with that file in its place.
fn reading(file: &str) -> Vec<String> {
    vec![
        format!("statement {file} --job made"),
        format!("stock {file} --job job --witness made"),
        format!("bounds --statement {file} --stock a.stock"),
        format!("bounds --statement a.statement --stock {file}"),
        format!("describe --statement {file} job"),
        format!("{VERIFY} --statement {file}"),
    ]
}

#[test]
fn a_missing_file_and_a_folder_are_3() {
    let desk = proved("texts_missing");
    fs::create_dir(desk.path("folder")).unwrap();
    for (file, told) in
        [("nothing", "labrador: nothing: No such file"), ("folder", "labrador: folder is a folder, not a text")]
    {
        for call in reading(file) {
            let ran = run(&desk, &call);
            assert_eq!(ran.status, 3, "{call}");
            assert!(ran.line.starts_with(told), "{call}: {}", ran.line);
        }
    }
}

#[test]
fn bytes_that_are_no_text_are_2() {
    let desk = proved("texts_bytes");
    for file in ["transcript", "randomness", "/dev/zero"] {
        for call in reading(file) {
            let ran = run(&desk, &call);
            assert_eq!((ran.status, ran.line.lines().count()), (2, 1), "{call}: {}", ran.line);
        }
    }
    fs::write(desk.path("bytes"), b"statement 1\nn \xff").unwrap();
    let ran = run(&desk, "statement bytes --job made");
    assert_eq!(ran.line, "labrador: bytes: line 2, column 3: the byte ff stands there; the file is text in UTF-8\n");
    fs::write(desk.path("empty"), b"").unwrap();
    assert_eq!(run(&desk, "statement empty --job made").status, 2);
    // an empty stock is all zeros
    assert_eq!(run(&desk, "stock empty --job job --witness zeros").status, 0);
}

#[test]
fn words_in_the_job_s_place_are_2() {
    let desk = made("texts_jobs");
    for file in ["witness", "a.statement"] {
        for call in [format!("stock a.stock --job {file} --witness made"), format!("statement --from {file}")] {
            assert_eq!(run(&desk, &call).status, 2, "{call}");
        }
    }
    assert_eq!(desk.names(), ["a.statement", "a.stock", "job", "witness"]);
}

#[test]
fn wrong_calls_are_64() {
    let desk = made("texts_calls");
    let calls = [
        "statement",
        "statement --job made",
        "statement a.statement",
        "statement a.statement a.stock --job made",
        "statement a.statement --from job",
        "statement --from job --job made",
        "statement a.statement --job made --seed 00",
        "statement --from job --seed 00",
        "statement --from",
        "stock --job job --witness made",
        "stock a.stock --job job",
        "stock a.stock --witness made",
        "stock a.stock --job job --witness job",
        "check --job job",
        "check --job job --witness witness more",
        "bounds --statement a.statement",
        "bounds --statement a.statement --stock a.stock --sessions 0",
        "bounds --statement a.statement --stock a.stock --sessions x",
        "bounds --statement a.statement --stock a.stock --slack -1",
        "bounds --statement a.statement --stock a.stock more",
    ];
    for call in calls {
        let ran = run(&desk, call);
        assert_eq!((ran.status, ran.line.lines().count(), ran.out.as_str()), (64, 1, ""), "{call}: {}", ran.line);
    }
    assert_eq!(desk.names(), ["a.statement", "a.stock", "job", "witness"]);
    for command in ["statement", "stock", "check", "bounds"] {
        let help = run(&desk, &format!("{command} --help"));
        assert!(help.status == 0 && help.out.contains(&format!("Example:\n  labrador {command} ")), "{}", help.out);
    }
}

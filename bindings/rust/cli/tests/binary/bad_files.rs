//! Files that are no slices: nothing crashes the binary.

use std::fs;
use std::process::Command;

use crate::common::with_answer;
use crate::desk::Desk;
use crate::run::{ran, run, BINARY, PROVE, VERIFY};

/// Every command that reads a file, with that file in each place.
fn reading(file: &str) -> Vec<String> {
    let verify =
        ["job", "randomness", "transcript"].map(|name| VERIFY.replace(&format!(" {name}"), &format!(" {file}")));
    let prove = ["job", "randomness", "witness"].map(|name| PROVE.replace(&format!(" {name}"), &format!(" {file}")));
    let prove = prove.map(|call| format!("{call} --transcript made"));
    let others = [format!("review {file}"), format!("describe {file}"), format!("describe --job {file} transcript")];
    [verify, prove, others].concat()
}

#[test]
fn a_missing_file_and_a_folder_are_3() {
    let desk = Desk::with("no_files", &with_answer(0));
    fs::create_dir(desk.path("folder")).unwrap();
    for (file, told) in [("nothing", "labrador: nothing: No such file"), ("folder", "labrador: folder is a folder")] {
        for call in reading(file) {
            let ran = run(&desk, &call);
            assert_eq!(ran.status, 3, "{call}");
            assert!(ran.line.starts_with(told), "{call}: {}", ran.line);
        }
    }
}

#[test]
fn an_odd_number_of_bytes_is_2() {
    let desk = Desk::with("odd", &with_answer(0));
    fs::write(desk.path("odd"), [7; 1001]).unwrap();
    for call in reading("odd") {
        let ran = run(&desk, &call);
        let line = "labrador: odd has 1001 bytes, which is no whole number of words (4 bytes each)\n";
        assert_eq!((ran.status, ran.line.as_str()), (2, line), "{call}");
    }
}

#[test]
fn an_empty_file_is_refused_at_its_start() {
    let desk = Desk::with("empty", &with_answer(0));
    fs::write(desk.path("empty"), []).unwrap();
    for call in reading("empty").iter().filter(|call| !call.starts_with("describe empty")) {
        let ran = run(&desk, call);
        assert_eq!(ran.status, 2, "{call}");
        assert!(ran.line.contains("ends after 0 words"), "{call}: {}", ran.line);
    }
    let told = run(&desk, "describe empty");
    assert_eq!((told.status, told.line.as_str()), (2, "labrador: empty: the file is empty\n"));
    assert!(run(&desk, "describe job empty --json").out.contains("\"wrong\":\"the file is empty\""));
}

#[test]
fn a_file_longer_than_memory_is_refused() {
    let desk = Desk::with("long", &with_answer(0));
    // a hole of a tebibyte behind the job
    for name in ["job", "randomness", "witness", "transcript"] {
        let file = fs::OpenOptions::new().write(true).open(desk.path(name)).unwrap();
        let length = file.metadata().unwrap().len();
        if file.set_len(1 << 40).is_err() {
            println!("not tried: the file system has no files of a tebibyte");
            return;
        }
        let call = if name == "witness" { format!("{PROVE} --transcript made") } else { VERIFY.to_string() };
        let refused = run(&desk, &call);
        assert_eq!(refused.status, 2);
        let told = format!("the {name} goes on at word {}, behind its last section", length / 4);
        assert!(refused.line.contains(&told), "{}", refused.line);
        let job = if name == "job" { "" } else { "--job job " };
        let described = run(&desk, &format!("describe {job}{name}"));
        assert_eq!(described.status, 2);
        assert!(described.out.contains("274877906944 words"), "{}", described.out);
        file.set_len(length).unwrap();
    }
}

#[test]
fn an_endless_file_is_refused() {
    let desk = Desk::with("endless", &with_answer(0));
    for name in ["job", "randomness", "transcript"] {
        let refused = run(&desk, &VERIFY.replace(&format!(" {name}"), " /dev/zero"));
        assert_eq!(refused.status, 2, "{}", refused.line);
        assert!(refused.line.contains(&format!("the {name}'s word 0 is 0, and the count of section")));
    }
}

#[test]
fn random_bytes_are_answered() {
    let desk = Desk::with("random", &with_answer(0));
    let mut state = 1u32;
    for length in [1, 2, 29, 30, 31, 32, 200] {
        let mut words: Vec<u32> = Vec::new();
        for _ in 0..length {
            state = state.wrapping_mul(1664525).wrapping_add(1013904223);
            words.push(state);
        }
        desk.put("random", &words);
        for call in reading("random") {
            let ran = run(&desk, &call);
            assert!([0, 2].contains(&ran.status), "{call}: {}", ran.line);
        }
    }
}

#[test]
fn describe_says_first_what_is_wrong() {
    let desk = Desk::with("wrong_first", &with_answer(6));
    let told = run(&desk, "describe job");
    assert_eq!(told.status, 2);
    let lines: Vec<&str> = told.out.lines().collect();
    assert!(lines[1].starts_with("wrong: refusal 6: the job's word "), "{}", lines[1]);
    assert!(lines[2..].contains(&"parameters") && lines[2..].contains(&"sections"));
    let desk = Desk::with("wrong_count", &with_answer(9));
    let told = run(&desk, "describe job randomness witness --as transcript transcript");
    assert_eq!(told.status, 2);
    let told = run(&desk, "describe --job job --as transcript transcript");
    assert!(told.out.contains("wrong: refusal 9: "), "{}", told.out);
    assert!(told.out.contains("(the count there is 257)"), "{}", told.out);
    assert!(told.out.contains("(not reached)"), "{}", told.out);
}

#[test]
fn describe_knows_the_files_of_a_job() {
    let desk = Desk::with("kinds", &with_answer(0));
    let told = run(&desk, "describe transcript witness randomness job");
    assert_eq!(told.status, 0, "{}", told.line);
    for name in ["transcript", "witness", "randomness", "job"] {
        assert!(told.out.contains(&format!("{name}: {name}, ")), "{}", told.out);
    }
    let alone = run(&desk, "describe transcript");
    assert!(alone.out.contains("of no kind that is known without its job"), "{}", alone.out);
    assert!(alone.out.contains("section 8 "), "{}", alone.out);
    let json = run(&desk, "describe job --json").out;
    for part in ["\"kind\":\"job\"", "\"parameters\":{\"n\":4,", "{\"name\":\"a'\",\"from_word\":", "\"wrong\":null"] {
        assert!(json.contains(part), "{json}");
    }
}

#[cfg(unix)]
#[test]
fn a_closed_reader_is_no_crash() {
    let desk = Desk::with("closed", &with_answer(0));
    let full = fs::OpenOptions::new().write(true).open("/dev/full").unwrap();
    let output =
        Command::new(BINARY).args(["describe", "job"]).current_dir(&desk.folder).stdout(full).output().unwrap();
    let told = ran(output);
    assert_eq!(told.status, 3);
    assert!(told.line.starts_with("labrador: standard output: No space left"), "{}", told.line);
    let script = format!("{BINARY} describe job | true; {BINARY} explain 1 >&-; exit 0");
    let output = Command::new("sh").args(["-c", &script]).current_dir(&desk.folder).output().unwrap();
    assert!(!ran(output).line.contains("panicked"));
}

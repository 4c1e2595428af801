//! Names, modes and options that could do something else than was meant.

use std::ffi::{OsStr, OsString};
use std::fs;
use std::os::unix::ffi::OsStrExt;
use std::os::unix::fs::{FileTypeExt, PermissionsExt};
use std::process::Command;

use crate::common::with_answer;
use crate::desk::Desk;
use crate::run::{ran, run, Ran, BINARY, LOAD, PROVE, VERIFY};

/// Runs the binary with arguments of any bytes.
fn run_bytes(desk: &Desk, arguments: &str, more: &[&[u8]]) -> Ran {
    let mut command = Command::new(BINARY);
    command.args(arguments.split(' ')).args(more.iter().map(|bytes| OsStr::from_bytes(bytes)));
    ran(command.current_dir(&desk.folder).output().expect("the binary runs"))
}

#[test]
fn names_may_be_as_long_as_the_folder_takes() {
    let desk = Desk::with("long_names", &with_answer(0));
    for length in [250, 255] {
        let name = "t".repeat(length);
        for force in ["", " --force"] {
            let made = run(&desk, &format!("{PROVE} --transcript {name}{force}"));
            assert_eq!(made.status, 0, "{}", made.line);
            assert_eq!(desk.words(&name), desk.words("transcript"));
        }
        fs::remove_file(desk.path(&name)).unwrap();
    }
    assert_eq!(run(&desk, &format!("{PROVE} --transcript {}", "t".repeat(256))).status, 3);
    assert_eq!(desk.names(), ["job", "randomness", "transcript", "witness"]);
}

#[test]
fn what_is_overwritten_keeps_its_mode() {
    let desk = Desk::with("kept_modes", &with_answer(0));
    let mode = |name: &str| fs::metadata(desk.path(name)).unwrap().permissions().mode() & 0o777;
    let set = |name: &str, mode| fs::set_permissions(desk.path(name), fs::Permissions::from_mode(mode)).unwrap();
    for given in [0o600, 0o640, 0o664, 0o400] {
        set("transcript", given);
        assert_eq!(run(&desk, &format!("{PROVE} --transcript transcript --force")).status, 0);
        assert_eq!(mode("transcript"), given);
    }
    // the witness alone is a secret, whatever its mode was
    [("job", 0o660), ("witness", 0o644), ("randomness", 0o644)].iter().for_each(|(name, mode)| set(name, *mode));
    assert_eq!(run(&desk, &format!("{LOAD} --force")).status, 0);
    assert_eq!(["job", "witness", "randomness"].map(mode), [0o660, 0o600, 0o644]);
}

#[test]
fn a_forgotten_value_is_no_file() {
    let desk = Desk::with("forgotten", &with_answer(0));
    let told = run(&desk, &format!("{PROVE} --transcript --force"));
    let line =
        "labrador: --transcript needs FILE before --force; if that is meant it is --transcript=--force or ./--force\n";
    assert_eq!((told.status, told.line.as_str()), (64, line));
    assert_eq!(run(&desk, "load --seed --json --job a --witness b --randomness c").status, 64);
    assert_eq!(run(&desk, &format!("{PROVE} --transcript=")).status, 64);
    assert_eq!(run(&desk, &format!("{VERIFY} -v")).status, 64);
    assert_eq!(desk.names(), ["job", "randomness", "transcript", "witness"]);
    for name in ["--transcript=--force", "--transcript ./--other", "--transcript=-v"] {
        assert_eq!(run(&desk, &format!("{PROVE} {name}")).status, 0, "{name}");
    }
    assert_eq!(desk.names()[..3], ["--force", "--other", "-v"]);
    assert_eq!(run(&desk, "describe --job job -- --force -v").status, 0);
}

#[test]
fn a_dash_is_no_file() {
    let desk = Desk::with("dash", &with_answer(0));
    let prove = format!("{PROVE} --transcript -");
    let calls = [prove.as_str(), "describe -", "describe job -- -", "review -", "verify-many --job job - transcript"];
    let inputs = ["job", "randomness", "transcript"].map(|name| VERIFY.replace(&format!(" {name}"), " -"));
    for call in calls.into_iter().chain(inputs.iter().map(String::as_str)) {
        let told = run(&desk, call);
        let line =
            "labrador: - is no file: standard input and output are not read or written; a file of that name is ./-\n";
        assert_eq!((told.status, told.line.as_str()), (64, line), "{call}");
    }
    assert_eq!(desk.names(), ["job", "randomness", "transcript", "witness"]);
    assert_eq!(run(&desk, &format!("{PROVE} --transcript ./-")).status, 0);
    assert!(run(&desk, "help").out.contains("- is no file: standard input is not read"));
}

#[test]
fn values_of_any_bytes_are_kept() {
    let desk = Desk::with("any_bytes", &with_answer(0));
    let made = run_bytes(&desk, PROVE, &[b"--transcript=t\xff=\xc3"]);
    assert_eq!(made.status, 0, "{}", made.line);
    assert!(desk.path("job").with_file_name(OsString::from(OsStr::from_bytes(b"t\xff=\xc3"))).is_file());
    let verdict = run_bytes(&desk, "verify --job=job --randomness=randomness", &[b"--transcript=t\xff=\xc3"]);
    assert!(verdict.status == 0 && verdict.line.starts_with("labrador: accepted"), "{}", verdict.line);
    assert_eq!(run_bytes(&desk, "verify", &[b"--j\xff=job"]).status, 64);
}

#[test]
fn a_parameter_is_given_once() {
    let desk = Desk::new("twice");
    let told = run(&desk, &format!("{LOAD} n=8 n=9"));
    assert_eq!((told.status, told.line.as_str()), (64, "labrador: n is given twice\n"));
    assert_eq!(run(&desk, &format!("{LOAD} n=8 r=2 n=8")).status, 64);
    assert!(desk.names().is_empty());
}

#[test]
fn what_is_no_regular_file_is_not_overwritten() {
    let desk = Desk::with("devices", &with_answer(0));
    assert!(Command::new("mkfifo").arg(desk.path("pipe")).status().expect("mkfifo").success());
    std::os::unix::fs::symlink("elsewhere", desk.path("link")).unwrap();
    for name in ["/dev/full", "/dev/null", "pipe", "link"] {
        for force in ["", " --force"] {
            let told = run(&desk, &format!("{PROVE} --transcript {name}{force}"));
            let line = format!("labrador: {name} is not a regular file, and is not overwritten\n");
            assert_eq!((told.status, told.line), (3, line));
            assert_eq!(run(&desk, &format!("{VERIFY} --report {name}{force}")).status, 3);
        }
    }
    assert!(fs::metadata("/dev/full").unwrap().file_type().is_char_device());
    assert_eq!(desk.names(), ["job", "link", "pipe", "randomness", "transcript", "witness"]);
}

#[test]
fn describe_says_how_many_sections_there_are() {
    let desk = Desk::new("many_sections");
    desk.put("a", &[0; 64]);
    desk.put("b", &[0; 1000]);
    desk.put("c", &[[0; 99].as_slice(), &[7]].concat());
    let told = ["a", "b", "c"].map(|name| run(&desk, &format!("describe {name}")).out);
    assert!(told[0].contains("section 64  from word 64                0 words\n\n"), "{}", told[0]);
    assert!(told[1].contains("  there are 1000 sections, of which the first 64 are shown\n\n"), "{}", told[1]);
    assert!(told[2].contains("section 100 from word 100               7 words (passes the end)\n"), "{}", told[2]);
    assert_eq!(told.map(|told| told.lines().count()), [69, 70, 71]);
}

/// A name that would clear the screen, set the title and begin a line.
const STEERING: &[u8] = b"a\x1b[2J\x1b]0;t\x07\n\xc2\x9bb\xe2\x80\xae";
const ESCAPED: &str = "a\\u{1b}[2J\\u{1b}]0;t\\u{7}\\n\\u{9b}b\\u{202e}";

#[test]
fn names_do_not_steer_the_terminal() {
    let desk = Desk::with("steering", &with_answer(0));
    for name in ["job", "transcript"] {
        fs::copy(desk.path(name), desk.folder.join(OsStr::from_bytes(&[STEERING, name.as_bytes()].concat()))).unwrap();
    }
    let (job, transcript) = ([STEERING, b"job"].concat(), [STEERING, b"transcript"].concat());
    let calls: [(&str, Vec<&[u8]>); 8] = [
        ("describe", vec![&job, &transcript]),
        ("describe --json", vec![&job]),
        ("describe --as witness", vec![&job]),
        ("verify-many --job job randomness", vec![&transcript]),
        ("verify --randomness randomness --report page.html --job", vec![&job, b"--transcript", &transcript]),
        ("review", vec![STEERING]),
        ("prove", vec![STEERING]),
        ("load --job job --witness w --randomness r", vec![STEERING]),
    ];
    for (call, names) in calls {
        let told = run_bytes(&desk, call, &names);
        let all = told.streams.concat();
        assert!(!all.chars().any(|c| c != '\n' && (c.is_control() || c == '\u{202e}')), "{call}: {all:?}");
        assert!(call.contains("--report") || call.contains("--json") || all.contains(ESCAPED), "{call}: {all}");
    }
    let page = fs::read_to_string(desk.path("page.html")).unwrap();
    assert!(page.contains(&format!("<dd>{ESCAPED}job, ")) && !page.contains('\u{1b}'), "{page}");
    let json = run_bytes(&desk, "describe --json", &[&job]).out;
    assert!(json.contains("\"file\":\"a\\u001b[2J\\u001b]0;t\\u0007\\u000a\\u009bb\\u202ejob\""), "{json}");
    assert!(run_bytes(&desk, "help", &[STEERING]).line.contains(ESCAPED));
}

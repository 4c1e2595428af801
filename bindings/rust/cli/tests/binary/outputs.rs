//! What is written: whole or not at all, nothing overwritten, witnesses for their owner alone.
#![cfg(unix)]

use std::fs;
use std::os::unix::fs::PermissionsExt;
use std::process::Command;

use crate::common::{with_answer, ONE, THINGS};
use crate::desk::Desk;
use crate::run::{ran, run, BINARY, LOAD, PROVE, VERIFY};

fn mode(desk: &Desk, name: &str) -> u32 {
    fs::metadata(desk.path(name)).unwrap().permissions().mode() & 0o777
}

#[test]
fn a_witness_is_for_its_owner_alone() {
    let desk = Desk::new("modes");
    assert_eq!(run(&desk, LOAD).status, 0);
    assert_eq!(mode(&desk, "witness"), 0o600);
    fs::set_permissions(desk.path("witness"), fs::Permissions::from_mode(0o644)).unwrap();
    assert_eq!(run(&desk, &format!("{LOAD} --force")).status, 0);
    assert_eq!(mode(&desk, "witness"), 0o600);
    assert_eq!(desk.names(), ["job", "randomness", "witness"]);
}

#[test]
fn nothing_is_overwritten_unless_asked() {
    let desk = Desk::with("overwrite", &with_answer(0));
    let before = desk.words("transcript");
    let kept = run(&desk, &format!("{PROVE} --transcript transcript"));
    let line = "labrador: transcript is there already; --force overwrites it\n";
    assert_eq!((kept.status, kept.line.as_str()), (3, line));
    fs::remove_file(desk.path("witness")).unwrap();
    assert_eq!(run(&desk, &format!("{LOAD} --seed 5")).status, 3);
    assert_eq!(desk.names(), ["job", "randomness", "transcript"]);
    assert_eq!(desk.words("transcript"), before);
    desk.put("witness", &with_answer(0).witness);
    desk.put("transcript", &[1]);
    assert_eq!(run(&desk, &format!("{PROVE} --transcript transcript --force")).status, 0);
    assert_eq!(desk.words("transcript"), before);
    assert_eq!(run(&desk, &format!("{VERIFY} --report job")).status, 64);
}

#[test]
fn an_input_is_never_an_output() {
    let desk = Desk::with("own_input", &with_answer(0));
    fs::hard_link(desk.path("witness"), desk.path("link")).unwrap();
    std::os::unix::fs::symlink("witness", desk.path("symlink")).unwrap();
    for output in ["witness", "./witness", "symlink"] {
        let ran = run(&desk, &format!("{PROVE} --transcript {output} --force"));
        assert_eq!(ran.status, 64, "{output}: {}", ran.line);
    }
    assert_eq!(desk.words("witness"), with_answer(0).witness);
}

#[test]
fn folders_and_devices_are_no_outputs() {
    let desk = Desk::with("no_outputs", &with_answer(0));
    fs::create_dir(desk.path("folder")).unwrap();
    for output in ["folder", "/dev/null", "missing/made", "job/made"] {
        let ran = run(&desk, &format!("{PROVE} --force --transcript {output}"));
        assert_eq!(ran.status, 3, "{output}: {}", ran.line);
        assert_eq!(ran.line.lines().count(), 1);
    }
    assert!(!fs::metadata("/dev/null").unwrap().is_file());
    assert_eq!(desk.names(), ["folder", "job", "randomness", "transcript", "witness"]);
}

#[test]
fn no_room_on_the_disk_leaves_nothing() {
    let desk = Desk::with("no_room", &with_answer(0));
    let shell = |call: String| {
        // files of at most four blocks, and no signal for it
        let script = format!("trap '' XFSZ; ulimit -f 4; exec {BINARY} {call}");
        ran(Command::new("sh").args(["-c", &script]).current_dir(&desk.folder).output().unwrap())
    };
    let told = shell(format!("{PROVE} --transcript made"));
    assert_eq!(told.status, 3);
    assert!(told.line.starts_with("labrador: made: File too large"), "{}", told.line);
    let told = shell(format!("{VERIFY} --report page.html"));
    assert_eq!(told.status, 3);
    assert!(
        told.line.starts_with(&format!(
            "labrador: accepted; one transcript: {ONE}; {THINGS} things that the job does not force, but the page was not written: "
        )),
        "{}",
        told.line
    );
    let told = shell("load --job a --witness b --randomness c".to_string());
    assert_eq!(told.status, 3);
    assert_eq!(desk.names(), ["job", "randomness", "transcript", "witness"]);
}

#[test]
fn names_of_any_bytes_are_read() {
    use std::os::unix::ffi::OsStrExt;
    let desk = Desk::with("names", &with_answer(0));
    let name = std::ffi::OsStr::from_bytes(b"-\xff <b>");
    fs::rename(desk.path("job"), desk.folder.join(name)).unwrap();
    let mut command = Command::new(BINARY);
    command.args(["describe", "--"]).arg(name).current_dir(&desk.folder);
    let told = ran(command.output().unwrap());
    assert_eq!(told.status, 0, "{}", told.line);
    let mut command = Command::new(BINARY);
    command.args([
        "verify",
        "--randomness",
        "randomness",
        "--transcript",
        "transcript",
        "--report",
        "page.html",
        "--job",
    ]);
    let told = ran(command.arg(name).current_dir(&desk.folder).output().unwrap());
    assert_eq!(told.status, 0, "{}", told.line);
    let page = fs::read_to_string(desk.path("page.html")).unwrap();
    assert!(page.contains("&lt;b&gt;") && !page.contains("<b>"));
}

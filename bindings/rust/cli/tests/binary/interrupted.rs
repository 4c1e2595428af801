//! Runs that are killed while they write, and runs that write at the same time.

use std::fs::{self, File};
use std::os::unix::process::ExitStatusExt;
use std::path::{Path, PathBuf};
use std::process::{Child, Command, Stdio};
use std::thread::yield_now;

use labrador::{load, Parameters};

use crate::common::with_answer;
use crate::desk::Desk;
use crate::run::{run, BINARY, LOAD, PROVE};

const FILES: [&str; 3] = ["job", "randomness", "witness"];

/// A run to which no signal comes that the test's own parent ignores.
fn spawned(desk: &Desk, arguments: &str) -> Child {
    let mut command = Command::new("env");
    command.arg("--default-signal=HUP,INT,TERM").arg(BINARY).args(arguments.split(' ')).current_dir(&desk.folder);
    command.stdin(Stdio::null()).stdout(Stdio::null()).stderr(Stdio::null()).spawn().expect("the binary runs")
}

/// What the open files of a run are.
fn open_files(run: &Child) -> Vec<PathBuf> {
    let entries = fs::read_dir(format!("/proc/{}/fd", run.id()));
    entries.into_iter().flatten().flatten().filter_map(|entry| fs::read_link(entry.path()).ok()).collect()
}

fn send(signal: &str, run: &Child) {
    let id = run.id().to_string();
    assert!(Command::new("kill").args([&format!("-{signal}"), &id]).status().expect("kill").success());
}

/// Waits until a run is stopped, or over.
fn until_stopped(run: &Child) {
    let stat = || fs::read_to_string(format!("/proc/{}/stat", run.id())).expect("the run is there");
    while !stat().rsplit(") ").next().expect("its state").starts_with(['T', 'Z']) {
        yield_now();
    }
}

/// A load of the greatest size that is stopped while it writes, before any file is in its place; before it these files stand there.
fn stopped_in_writing(desk: &Desk, before: &[&str]) -> Child {
    let folder = desk.folder.canonicalize().unwrap();
    let nameless = |path: &Path| path.starts_with(&folder) && path.to_string_lossy().ends_with(" (deleted)");
    let writes = |run: &Child| open_files(run).iter().filter(|path| nameless(path)).count() == 3;
    loop {
        FILES.iter().for_each(|name| drop(fs::remove_file(desk.path(name))));
        before.iter().for_each(|name| fs::write(desk.path(name), name).unwrap());
        let mut run = spawned(desk, &format!("{LOAD} n=64 r=16 --seed 3 --force"));
        while !writes(&run) && run.try_wait().expect("the run's end").is_none() {
            yield_now();
        }
        // one that was done before it was seen is tried again
        if run.try_wait().expect("the run's end").is_none() {
            send("STOP", &run);
            until_stopped(&run);
            if writes(&run) {
                return run;
            }
            send("CONT", &run);
        }
        run.wait().expect("the run's end");
    }
}

/// Whether the folder takes files without a name; else a run that is killed for certain leaves its file.
fn has_nameless(desk: &Desk) -> bool {
    use std::os::unix::fs::OpenOptionsExt;
    let made = fs::OpenOptions::new().write(true).custom_flags(0o20200000).open(&desk.folder);
    let tried = Command::new("env").args(["--default-signal=INT", "true"]).stderr(Stdio::null()).status();
    made.is_ok() && tried.is_ok_and(|status| status.success())
}

#[test]
fn a_killed_run_leaves_nothing() {
    let desk = Desk::new("killed");
    if !has_nameless(&desk) {
        return println!(
            "not tried: killed runs, since the file system has no files without a name, or env sets no signals"
        );
    }
    for (signal, number) in [("KILL", 9), ("TERM", 15), ("INT", 2), ("HUP", 1)] {
        let mut run = stopped_in_writing(&desk, &[]);
        send(signal, &run);
        send("CONT", &run);
        let status = run.wait().expect("the run's end");
        assert_eq!(status.signal(), Some(number), "{signal}");
        // a signal that came with the last words is put off until all three are in their places
        let left = desk.names();
        assert!(left.is_empty() || (signal != "KILL" && left == FILES), "{signal}: {left:?}");
    }
    // a limit kills it at a known place: in the first file
    let desk = Desk::with("killed_by_limit", &with_answer(0));
    let before = desk.names();
    let script = format!("ulimit -c 0; ulimit -f 4; exec env --default-signal=XFSZ {BINARY} {PROVE} --transcript made");
    let status = Command::new("sh").args(["-c", &script]).current_dir(&desk.folder).status().expect("a shell");
    assert_eq!((status.signal(), desk.names()), (Some(25), before));
}

#[test]
fn a_killed_run_leaves_what_stood_there() {
    let desk = Desk::new("killed_over");
    if !has_nameless(&desk) {
        return;
    }
    let mut run = stopped_in_writing(&desk, &FILES);
    send("KILL", &run);
    run.wait().expect("the run's end");
    assert_eq!(desk.names(), FILES);
    let stands = FILES.map(|name| fs::read_to_string(desk.path(name)));
    assert_eq!(stands.map(|text| text.unwrap_or_default()), FILES.map(str::to_string));
    // and nothing is in a later run's way
    assert_eq!(self::run(&desk, &format!("{LOAD} --force")).status, 0);
}

#[test]
fn files_that_are_made_at_once_are_of_one_run() {
    let desk = Desk::new("racing");
    let folder = desk.folder.canonicalize().unwrap();
    let sets = [1, 2].map(|seed| load(&Parameters::SMALL, seed).unwrap());
    for _ in 0..10 {
        let before = desk.names();
        let lock = File::open(&folder).unwrap();
        lock.lock().expect("a folder that can be locked");
        let mut runs = [1, 2].map(|seed| spawned(&desk, &format!("{LOAD} --force --seed {seed}")));
        // both are done with their work and wait for their turn
        while !runs.iter().all(|run| open_files(run).contains(&folder)) {
            yield_now();
        }
        assert_eq!(desk.names(), before);
        drop(lock);
        runs.iter_mut().for_each(|run| assert_eq!(run.wait().unwrap().code(), Some(0)));
        let stands = FILES.map(|name| desk.words(name));
        assert!(sets.iter().any(|set| stands == [&set.job, &set.randomness, &set.witness].map(Vec::clone)));
        assert_eq!(desk.names(), FILES);
    }
    // one file alone waits for nobody
    let lock = File::open(&folder).unwrap();
    lock.lock().expect("a folder that can be locked");
    assert_eq!(run(&desk, &format!("{PROVE} --transcript made")).status, 0);
}

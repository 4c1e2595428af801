//! The measurements and their table.

use crate::kernels::{Entry, Kernel, KERNELS};
use harness::random::Random;
use std::process::Command;
use std::time::Instant;

/// The least time of a call in nanoseconds: ours and the Rust's, series after series in turn.
pub fn time(kernel: &mut Kernel) -> (f64, f64) {
    let mut least = (f64::MAX, f64::MAX);
    let calls = kernel.calls as f64;
    for _ in 0..kernel.rounds {
        let start = Instant::now();
        (kernel.ours)();
        least.0 = least.0.min(start.elapsed().as_nanos() as f64 / calls);
        (kernel.prepare)();
        let start = Instant::now();
        (kernel.theirs)();
        least.1 = least.1.min(start.elapsed().as_nanos() as f64 / calls);
    }
    least
}

/// What callgrind counts: it is told this name.
#[no_mangle]
#[inline(never)]
fn bench_counted(work: &mut dyn FnMut()) {
    work();
}

/// Runs one series of a side, for callgrind.
pub fn run_series(name: &str, side: &str) {
    let (_, make) = KERNELS.iter().find(|entry| entry.0 == name).expect("a kernel");
    let mut kernel = make(&mut Random::new(1));
    if side == "ours" {
        bench_counted(&mut kernel.ours);
    } else {
        (kernel.prepare)();
        bench_counted(&mut kernel.theirs);
    }
}

/// The instructions of a series of a side.
fn instructions(name: &str, side: &str) -> f64 {
    let me = std::env::current_exe().expect("a path");
    let run = Command::new("valgrind")
        .args(["--tool=callgrind", "--callgrind-out-file=/dev/null", "--toggle-collect=bench_counted"])
        .arg(me)
        .args(["count", name, side])
        .output()
        .expect("valgrind is at hand");
    let text = String::from_utf8_lossy(&run.stderr).into_owned();
    let line = text.lines().find(|line| line.contains("Collected"));
    let count = line.and_then(|line| line.split_whitespace().last()).and_then(|word| word.parse().ok());
    match count {
        Some(count) if count > 0.0 => count,
        _ => panic!("callgrind counted nothing of {name}: {text}"),
    }
}

/// The instructions of a call, ours and the Rust's, counted beside each other.
fn counted(name: &str, calls: f64) -> (f64, f64) {
    std::thread::scope(|scope| {
        let ours = scope.spawn(|| instructions(name, "ours"));
        let theirs = instructions(name, "theirs");
        (ours.join().expect("a count") / calls, theirs / calls)
    })
}

/// Times every kernel whose name starts so, counts then, and prints the table; how far it is goes to the standard error.
pub fn print(start: &str) {
    let rows: Vec<&Entry> = KERNELS.iter().filter(|entry| entry.0.starts_with(start)).collect();
    let mut timed = vec![];
    for (k, (name, make)) in rows.iter().enumerate() {
        eprintln!("[{}/{}] times: {name}", k + 1, rows.len());
        let mut kernel = make(&mut Random::new(1));
        timed.push((time(&mut kernel), kernel.calls, kernel.rounds));
    }
    println!("| call | ours, ns | Rust, ns | ratio | ours, instructions | Rust, instructions | ratio |");
    println!("|---|---:|---:|---:|---:|---:|---:|");
    for (k, ((name, _), ((ours, theirs), calls, rounds))) in rows.iter().zip(&timed).enumerate() {
        eprintln!("[{}/{}] instructions: {name}", k + 1, rows.len());
        print!("| {name} | {ours:.0} | {theirs:.0} | {:.3} |", ours / theirs);
        // a call that is timed a few times only takes too long under callgrind
        match (*rounds > 20).then(|| counted(name, *calls as f64)) {
            Some((ours, theirs)) => println!(" {ours:.0} | {theirs:.0} | {:.3} |", ours / theirs),
            None => println!(" not counted | not counted | |"),
        }
    }
}

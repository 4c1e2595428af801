//! Times the proved calls against the published Rust, in one process, alternating, counts their instructions, and prints a table.
//!
//! `bench` takes every kernel, `bench only START` those whose names start so.
//! `bench count KERNEL SIDE` runs a series of one side of a kernel, for callgrind. `bench point NAME=VALUE...` times prove and verify at other parameters.

mod fast;
mod kernels;
mod loads;
mod many;
mod points;
#[cfg(prime)]
mod prime;
mod steps;
mod table;

fn main() {
    let words: Vec<String> = std::env::args().skip(1).collect();
    let words: Vec<&str> = words.iter().map(String::as_str).collect();
    match words[..] {
        [] => table::print(""),
        ["only", start] => table::print(start),
        ["count", kernel, side] => table::run_series(kernel, side),
        ["point", ref values @ ..] => points::print(values),
        _ => panic!("usage: bench [only START | count KERNEL SIDE | point NAME=VALUE...]"),
    }
}

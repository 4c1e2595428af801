//! Proves a test load, verifies it, breaks it, and tells each answer: `cargo run --offline --example prove_and_verify`.

use labrador::review::review;
use labrador::section_one::SectionOne;
use labrador::worth::Worth;
use labrador::{load, prove, verify, Parameters, Verdict};

fn main() -> Result<(), Box<dyn std::error::Error>> {
    let parameters = Parameters { n: 8, r: 2, ..Parameters::SMALL };
    let load = load(&parameters, 2026)?;
    let mut transcript = prove(&load.job, &load.randomness, &load.witness)?;
    println!("as it was made: {}", verify(&load.job, &load.randomness, &transcript));
    let worth = Worth::of(&SectionOne::read(&load.job).expect("the job is fit"));
    println!("one transcript: {}; the worst of the job: {}", worth.one(), review(&load.job)?[0]);

    transcript[1] ^= 1;
    match verify(&load.job, &load.randomness, &transcript) {
        Verdict::Accepted { cells_left } => println!("accepted, {cells_left} cells with something left"),
        Verdict::Failed(check) => println!("a word of u1 changed: {check}\n  {}", check.meaning().follows),
        Verdict::Refused(refusal) => println!("refused at {}: {refusal}", refusal.place()),
    }
    transcript.pop();
    println!("a word cut off: {}", verify(&load.job, &load.randomness, &transcript));
    Ok(())
}

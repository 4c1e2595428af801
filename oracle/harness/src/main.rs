//! Runs the published Rust, the model of document 01 and the proved library on the same cases.
//!
//! `harness compare SEED COUNT [largest]` compares, on COUNT random instances beside the fixed families.
//! `harness only STAGE SEED COUNT` compares one stage of the calls that the Rust does not have: recompose, ranges, mistyped, sheds or many.
//! `harness load-sums`, `range-sums`, `mistyped-sums` and `shed-sums` print the rows of whole test loads, of calls on ranges, of lists of
//! mistyped constants and of runs of witness vectors that `bindings/test.c` has.
//! `harness record FOLDER` writes the recorded answers. `harness replay FOLDER` reads them back and compares them with
//! the model, and with the library where it is linked.
//! Each prints a tally, and fails where anything differs, an answer never occurs or a comparison is never made.

use harness::cases::Context;
use harness::instances::{apart, one_kind, small, Instance};
use harness::random::Random;
use harness::record::Recorder;
use harness::tally::Tally;
use harness::{loads, many, mistyped, ranges, recompose, replay, rust, sheds, slices, unfit, whole};
use model::Call;
use std::path::Path;
use std::process::ExitCode;

fn main() -> ExitCode {
    let words: Vec<String> = std::env::args().skip(1).collect();
    let words: Vec<&str> = words.iter().map(String::as_str).collect();
    rust::silence_panics();
    let good = match words[..] {
        ["compare", seed, count] => compare(number(seed), number(count), false),
        ["compare", seed, count, "largest"] => compare(number(seed), number(count), true),
        ["only", stage, seed, count] => only(stage, number(seed), number(count) as usize),
        ["load-sums"] => {
            loads::print_sums();
            true
        }
        ["range-sums"] => {
            ranges::print_sums();
            true
        }
        ["mistyped-sums"] => {
            mistyped::print_sums();
            true
        }
        ["shed-sums"] => {
            sheds::print_sums();
            true
        }
        ["record", folder] => record(Path::new(folder)),
        ["replay", folder] => replay::replay(Path::new(folder)),
        _ => panic!("usage: harness compare SEED COUNT [largest] | only STAGE SEED COUNT | load-sums | range-sums | mistyped-sums | shed-sums | record FOLDER | replay FOLDER"),
    };
    if good {
        ExitCode::SUCCESS
    } else {
        ExitCode::FAILURE
    }
}

fn number(word: &str) -> u64 {
    word.parse().expect("a number")
}

/// The families that vary one instance.
fn families(context: &mut Context, random: &mut Random, instance: &Instance, pairs: usize) {
    whole::bounds(context, instance);
    whole::statements(context, random, instance);
    whole::broken_checks(context, instance);
    whole::damaged_sections(context, instance);
    whole::free_words(context, instance);
    for call in Call::ALL {
        unfit::unfit(context, random, instance, call, pairs);
    }
}

fn compare(seed: u64, count: u64, largest: bool) -> bool {
    let mut context = Context::new(None);
    let mut random = Random::new(seed);
    let leaf_cases = 500.max(count as usize);
    context.leaves().all(&mut random, leaf_cases, 1);
    context.tally.stage("leaf calls");
    recompose::all(&mut context.tally, &mut Random::new(seed), leaf_cases);
    context.tally.stage("digits put together");
    slices::all(&mut context.tally, &mut Random::new(seed), count as usize / 4);
    context.tally.stage("calls of the slice layer");
    ranges::all(&mut context.tally, &mut Random::new(seed), 12.max(count as usize / 4));
    context.tally.stage("ranges");
    mistyped::all(&mut context.tally, &mut Random::new(seed), 56.max(count as usize / 2));
    context.tally.stage("mistyped constants");
    sheds::all(&mut context.tally, &mut Random::new(seed), 12.max(count as usize / 4));
    context.tally.stage("projection worked by shed");
    many::all(&mut context.tally, &mut Random::new(seed), 12.max(count as usize / 8));
    context.tally.stage("many transcripts");
    loads::all(&mut context.tally, &mut Random::new(seed), 300.max(count as usize));
    context.tally.stage("test loads");
    let base = whole::base(&mut random, whole::pair_parameters());
    families(&mut context, &mut random, &base, 10);
    context.tally.stage("one instance, with every fault and every check broken");
    whole::limits(&mut context, &mut random);
    context.tally.stage("sizes at their limits");
    whole::one_kind(&mut context, &mut random, 2);
    context.tally.stage("constraints of one kind only");
    whole::apart(&mut context, &mut random, 2);
    context.tally.stage("κ and L apart");
    whole::large_z(&mut context, &mut random, &base);
    context.tally.stage("something left of z after two digits");
    whole::lossy(&mut context, &mut random);
    context.tally.stage("something left of t, g and h after their digits");
    for i in 0..count as usize {
        let parameters = small(&mut random, i);
        whole::random_instance(&mut context, &mut random, parameters);
        if i % 4 == 0 {
            let parameters = one_kind(&mut random, i / 4);
            whole::random_instance(&mut context, &mut random, parameters);
        }
        if i % 4 == 2 {
            let parameters = apart(&mut random, i / 4);
            whole::random_instance(&mut context, &mut random, parameters);
        }
        if i % 20 == 0 {
            let base = whole::base(&mut random, parameters);
            unfit::unfit(&mut context, &mut random, &base, Call::ALL[i / 20 % 7], 1);
        }
        if i % 20 == 19 || i + 1 == count as usize {
            context.tally.stage(&format!("random instances, {} of {count}", i + 1));
        }
    }
    if largest {
        whole::largest(&mut context, &mut random);
        context.tally.stage("the largest job");
    }
    context.tally.report()
}

/// One stage alone.
fn only(stage: &str, seed: u64, count: usize) -> bool {
    let mut tally = Tally::default();
    let random = &mut Random::new(seed);
    match stage {
        "loads" => loads::all(&mut tally, random, count),
        "recompose" => recompose::all(&mut tally, random, count),
        "ranges" => ranges::all(&mut tally, random, count),
        "mistyped" => mistyped::all(&mut tally, random, count),
        "sheds" => sheds::all(&mut tally, random, count),
        "many" => many::all(&mut tally, random, count),
        _ => panic!("no stage {stage}"),
    }
    tally.stage(stage);
    tally.report()
}

fn record(folder: &Path) -> bool {
    let mut context = Context::new(Some(Recorder::default()));
    let mut random = Random::new(1);
    context.leaves().all(&mut random, 20, 7);
    let base = whole::base(&mut random, whole::pair_parameters());
    families(&mut context, &mut random, &base, 1);
    whole::few(&mut context, &mut random);
    whole::one_kind(&mut context, &mut random, 0);
    whole::large_z(&mut context, &mut random, &base);
    whole::lossy(&mut context, &mut random);
    whole::apart(&mut context, &mut random, 0);
    context.tally.stage("recorded answers, made again");
    let recorder = context.recorder.take().expect("a recorder");
    recorder.write(folder).expect("the folder can be written");
    context.tally.report()
}

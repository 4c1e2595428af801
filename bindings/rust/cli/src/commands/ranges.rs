//! `labrador ranges`

use labrador::section_one::SectionOne;
use labrador::{ranges, Meets, RangeNorms, Refusal, Slice};

use crate::args::Args;
use crate::end::{refused, End, Outcome, Status};
use crate::files::read_slice;
use crate::help::Command;
use crate::json::Json;
use crate::numbers::{self, Numbers};

fn told(meets: Meets) -> &'static str {
    match meets {
        Meets::Every => "for every choice",
        Meets::SomeNotEvery => "for some choices but not every",
        Meets::None => "for no choice",
    }
}

fn line(vector: usize, norms: &RangeNorms, bound: u128) -> String {
    let RangeNorms { meets, least, greatest } = norms;
    format!("vector {vector}: meets A's bound {} (norm from {least} to {greatest}, bound {bound})\n", told(*meets))
}

fn json((vector, norms): (usize, &RangeNorms)) -> Json {
    let meets = match norms.meets {
        Meets::Every => "every",
        Meets::SomeNotEvery => "some",
        Meets::None => "none",
    };
    Json::Object(vec![
        ("vector", Json::Number(vector as u64)),
        ("meets", Json::text(meets)),
        ("least", Json::text(norms.least)),
        ("greatest", Json::text(norms.greatest)),
    ])
}

/// `A's bound is met for every choice by 2 of 3 vectors, for no choice by 1`
fn summary(vectors: &[RangeNorms]) -> String {
    let count = |meets: Meets| vectors.iter().filter(|norms| norms.meets == meets).count();
    let all = match vectors.len() {
        1 => "1 vector".to_string(),
        all => format!("{all} vectors"),
    };
    let first = format!("A's bound is met {} by {} of {all}", told(Meets::Every), count(Meets::Every));
    let rest = [Meets::SomeNotEvery, Meets::None].into_iter().filter(|meets| count(*meets) > 0);
    rest.fold(first, |said, meets| format!("{said}, {} by {}", told(meets), count(meets)))
}

/// A refusal, its length that of the whole file.
fn whole(refusal: Refusal, lows: &Numbers, highs: &Numbers) -> Refusal {
    match refusal {
        Refusal::RangesLength { list, place, expected, .. } => {
            let found = if list == "lows" { lows.length } else { highs.length };
            Refusal::RangesLength { list, place, found, expected }
        }
        refusal => refusal,
    }
}

pub fn run(command: &Command, args: &Args) -> Outcome {
    args.no_rest(command)?;
    let file = |name: &str| args.needed(command, name);
    let (job, lows, highs) = (file("--job")?, file("--lows")?, file("--highs")?);
    let job = read_slice(Slice::Job, &job)?.words;
    // as many numbers as the longest witness has, and one in its count's place, which settles the refusal
    let most = Slice::Witness.greatest_length();
    let (lows, highs) = (numbers::read(&lows, most)?, numbers::read(&highs, most)?);
    let vectors = ranges(&job, &lows.numbers, &highs.numbers).map_err(|refusal| {
        let refusal = whole(refusal, &lows, &highs);
        refused(&refusal, refusal.to_string())
    })?;
    let bound = SectionOne::read(&job).expect("the job is fit").bound("bound_A");
    let out = vectors.iter().enumerate().map(|(vector, norms)| line(vector, norms, bound)).collect();
    let fields =
        vec![("vectors", Json::List(vectors.iter().enumerate().map(json).collect())), ("bound_A", Json::text(bound))];
    let status = match vectors.iter().all(|norms| norms.meets == Meets::Every) {
        true => Status::Fine,
        false => Status::Failed,
    };
    Ok(End::new(status, summary(&vectors)).printing(out).with(fields))
}

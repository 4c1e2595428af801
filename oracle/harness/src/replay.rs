//! Reads recorded answers back, as a program with fixed buffers does.

use crate::cases::{Case, Expected, APART, CELLS, JUDGED, LARGE, MODELLED, REFUSED, WORKED};
use crate::leaves::{without_left, LEFT};
use crate::record::*;
use crate::tally::Tally;
use model::calls::{self, Leaf, LeafAnswer};
use model::refusals::Handed;
use model::{Answer, Call};
use std::path::Path;

/// The comparisons of a replay, beside those of the library's calls on whole slices.
const WHOLE: &str = "files with their last records";
const MODELLED_LEAF: &str = "model: leaf calls with the recorded ones";
const LEAF: &str = "library: leaf calls with the Rust's, recorded";
const MODELLED_CALL: &str = "model: calls on whole slices with the recorded ones";

/// Calls `take` with each record's kind and body; true where the file is whole.
fn records(path: &Path, mut take: impl FnMut(u32, &[u32])) -> bool {
    let bytes = std::fs::read(path).expect("the file can be read");
    let words: Vec<u32> =
        bytes.chunks_exact(4).map(|c| u32::from_le_bytes(c.try_into().expect("four bytes"))).collect();
    let mut at = 0;
    let mut count = 0;
    while at + 2 <= words.len() {
        let end = at + 2 + words[at + 1] as usize;
        let body = &words[at + 2..end];
        if words[at] == END {
            return body == [count] && end == words.len();
        }
        take(words[at], body);
        at = end;
        count += 1;
    }
    false
}

pub fn replay(folder: &Path) -> bool {
    let mut tally = Tally::default();
    tally.must_compare(&[
        WHOLE,
        MODELLED_LEAF,
        LEAF,
        MODELLED_CALL,
        WORKED,
        MODELLED,
        APART,
        LARGE,
        REFUSED,
        JUDGED,
        CELLS,
        LEFT,
    ]);
    let leaves_whole = records(&folder.join("leaves"), |kind, body| leaf(&mut tally, kind, body));
    tally.compare(WHOLE, &leaves_whole, &true, || "leaves".into());
    let mut slices = CAPACITY.map(|capacity| (vec![0; capacity], 0));
    let calls_whole = records(&folder.join("calls"), |kind, body| match kind {
        PUT => {
            let (words, _) = &mut slices[body[0] as usize];
            let at = body[1] as usize;
            words[at..at + body.len() - 2].copy_from_slice(&body[2..]);
        }
        LENGTH => slices[body[0] as usize].1 = body[1] as usize,
        CALL => call(&mut tally, &slices, body),
        _ => panic!("unknown record {kind}"),
    });
    tally.compare(WHOLE, &calls_whole, &true, || "calls".into());
    tally.stage("recorded answers, read back");
    tally.report()
}

fn leaf(tally: &mut Tally, kind: u32, body: &[u32]) {
    let leaf = Leaf::ALL[kind as usize - 1];
    let (operands, rest) = body.split_at(leaf.operands());
    let mut result = rest[2..].to_vec();
    result.resize(leaf.results(), 0);
    let recorded = LeafAnswer { number: rest[0], place: rest[1], result };
    let described = || format!("{} {operands:?}", leaf.name());
    let modelled = leaf.answer(operands, calls::value);
    tally.compare(MODELLED_LEAF, &modelled, &recorded, described);
    let ours = library::leaf(leaf, operands);
    let ((ours, our_left), (recorded, left)) = (without_left(leaf, ours), without_left(leaf, recorded));
    tally.compare(LEFT, &our_left, &left, described);
    if leaf != Leaf::RqLeft {
        tally.compare(LEAF, &ours, &recorded, described);
    }
}

fn call(tally: &mut Tally, slices: &[(Vec<u32>, usize); 4], body: &[u32]) {
    let slice = |k: usize| slices[k].0[..slices[k].1].to_vec();
    let figure = |at: usize| (0..4).map(|k| u128::from(body[at + k]) << (32 * k)).sum();
    let answer = Answer {
        number: body[3],
        index: body[4],
        place: u64::from(body[5]) | u64::from(body[6]) << 32,
        first: figure(7),
        second: figure(11),
        cells_left: u64::from(body[18]) | u64::from(body[19]) << 32,
    };
    let (start, length) = (body[16] as usize, body[17] as usize);
    let worked = match body[15] {
        UNTOUCHED => None,
        ZEROS => Some(vec![0; length]),
        OF_TRANSCRIPT => Some(slices[TRANSCRIPT].0[start..start + length].to_vec()),
        other => panic!("unknown output {other}"),
    };
    let call = Call::ALL[body[0] as usize];
    let third = if call == Call::Verify { TRANSCRIPT } else { WITNESS };
    let case = Case {
        purpose: "recorded",
        call,
        job: slice(JOB),
        randomness: slice(RANDOMNESS),
        third: slice(third),
        scratch: body[1] as usize,
        output: body[2] as usize,
        expected: Expected { answer, worked },
    };
    let handed = Handed {
        job: &case.job,
        randomness: &case.randomness,
        third: &case.third,
        scratch: case.scratch,
        output: case.output,
    };
    let (answer, worked) = model::whole(call, handed);
    let modelled = Expected { answer, worked };
    tally.compare(MODELLED_CALL, &modelled, &case.expected, || case.describe());
    tally.library(&case);
}

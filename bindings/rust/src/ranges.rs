//! A witness known within ranges.

use crate::ffi;
use crate::handed::Handed;
use crate::refusal::Refusal;
use crate::section_one::SectionOne;

/// For which choices within the ranges a vector's norm meets A's bound.
#[derive(Clone, Copy, Debug, PartialEq, Eq)]
pub enum Meets {
    Every,
    SomeNotEvery,
    None,
}

/// What is told of one witness vector.
#[derive(Clone, Copy, Debug, PartialEq, Eq)]
pub struct RangeNorms {
    pub meets: Meets,
    pub least: u128,
    pub greatest: u128,
}

/// For each witness vector, whether its norm meets A's bound, and its smallest and largest norm. `lows` and `highs` are
/// 64·r·n centred numbers each, in the witness's order.
pub fn ranges(job: &[u32], lows: &[i64], highs: &[i64]) -> Result<Vec<RangeNorms>, Refusal> {
    let answer = ffi::ranges(job, lows, highs);
    if answer.number != 0 {
        return Err(refusal(job, lows, highs, answer.number, answer.place));
    }
    let told = |vector: &ffi::RangeNorms| {
        let meets = match vector.meets {
            1 => Meets::Every,
            2 => Meets::SomeNotEvery,
            3 => Meets::None,
            _ => return None,
        };
        Some(RangeNorms {
            meets,
            least: ffi::joined(vector.least_hi, vector.least_lo),
            greatest: ffi::joined(vector.greatest_hi, vector.greatest_lo),
        })
    };
    Ok(answer.vectors.iter().map_while(told).collect())
}

fn refusal(job: &[u32], lows: &[i64], highs: &[i64], number: u32, place: u64) -> Refusal {
    let handed = Handed { job, ..Handed::default() };
    let pair = |numbers: &[i64]| usize::try_from(place).ok().and_then(|k| numbers.get(k)).copied().unwrap_or(0);
    let (low, high) = (pair(lows), pair(highs));
    match number {
        11 => {
            let p = SectionOne::read(job).expect("the job is fit").parameters;
            let expected = 64 * u64::from(p.r) * u64::from(p.n);
            let wrong_lows = lows.len() as u64 != expected;
            let (list, found) = if wrong_lows { ("lows", lows.len()) } else { ("highs", highs.len()) };
            Refusal::RangesLength { list, place, found: found as u64, expected }
        }
        36 => Refusal::Crossed { pair: place, low, high },
        37 => Refusal::Beyond { pair: place, low, high },
        number => handed.refusal(number, place),
    }
}

//! Document 02, Item 14: a witness known within ranges. Each coefficient is known "only from a lowest to a highest centred
//! number".

use crate::leaves::HALF;
use crate::refusals;
use crate::Answer;

/// The largest size of a centred number.
pub const LARGEST: i64 = HALF as i64;

/// What is told of one witness vector. `meets` is 1 for every choice, 2 for some but not every, 3 for none, 0 unused.
#[derive(Clone, Copy, Debug, Default, PartialEq, Eq)]
pub struct Vector {
    pub meets: u32,
    pub least: u128,
    pub greatest: u128,
}

#[derive(Clone, Copy, Debug, Default, PartialEq, Eq)]
pub struct Ranges {
    pub number: u32,
    pub place: u64,
    pub vectors: [Vector; 16],
}

fn refused(answer: Answer) -> Ranges {
    Ranges { number: answer.number, place: answer.place, ..Ranges::default() }
}

/// "a wrong length is an 11": its length where it is too short, the first surplus number where it is too long.
fn length(numbers: &[i64], need: usize) -> Result<(), Answer> {
    if numbers.len() == need {
        Ok(())
    } else {
        Err(Answer::refused(11, numbers.len().min(need)))
    }
}

fn square(x: i64) -> u128 {
    u128::from(x.unsigned_abs()).pow(2)
}

/// The smallest and the largest square from a low to a high.
pub fn squares(low: i64, high: i64) -> (u128, u128) {
    let ends = [square(low), square(high)];
    let least = if (low..=high).contains(&0) { 0 } else { ends[0].min(ends[1]) };
    (least, ends[0].max(ends[1]))
}

fn fit(job: &[u32], lows: &[i64], highs: &[i64]) -> Result<refusals::Parameters, Answer> {
    let p = refusals::job(job)?;
    let need = 64 * p.r * p.n;
    length(lows, need)?;
    length(highs, need)?;
    // 37 over all pairs, then 36
    let far = |x: &i64| !(-LARGEST..=LARGEST).contains(x);
    if let Some(place) = (0..need).find(|&k| far(&lows[k]) || far(&highs[k])) {
        return Err(Answer::refused(37, place));
    }
    if let Some(place) = (0..need).find(|&k| lows[k] > highs[k]) {
        return Err(Answer::refused(36, place));
    }
    Ok(p)
}

pub fn ranges(job: &[u32], lows: &[i64], highs: &[i64]) -> Ranges {
    let p = match fit(job, lows, highs) {
        Ok(p) => p,
        Err(answer) => return refused(answer),
    };
    let mut told = Ranges::default();
    for (i, vector) in told.vectors[..p.r].iter_mut().enumerate() {
        let run = 64 * p.n * i..64 * p.n * (i + 1);
        for k in run {
            let (least, greatest) = squares(lows[k], highs[k]);
            vector.least += least;
            vector.greatest += greatest;
        }
        let bound = p.bounds[0];
        vector.meets = match (vector.least <= bound, vector.greatest <= bound) {
            (_, true) => 1,
            (true, false) => 2,
            (false, false) => 3,
        };
    }
    told
}

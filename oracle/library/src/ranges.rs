//! The call on a witness known within ranges.

use crate::ffi::{self, joined};
use model::ranges::{Ranges, Vector};

pub fn ranges(job: &[u32], lows: &[i64], highs: &[i64]) -> Ranges {
    let a = ffi::ranges(job, lows, highs);
    Ranges {
        number: a.number,
        place: a.place,
        vectors: a.vectors.map(|v| Vector {
            meets: v.meets,
            least: joined(v.least_hi, v.least_lo),
            greatest: joined(v.greatest_hi, v.greatest_lo),
        }),
    }
}

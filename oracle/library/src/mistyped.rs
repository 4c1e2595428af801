//! The call that lists the constants which may be mistyped.

use crate::{ffi, Handed};

/// The call's number, place and number of entries; `handed.output` is the list.
pub fn mistyped(handed: Handed) -> (u32, u64, u64) {
    let a = ffi::mistyped(handed.job, handed.randomness, handed.third, handed.scratch, handed.output);
    (a.number, a.place, a.entries)
}

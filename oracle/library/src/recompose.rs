//! The calls of document 02, Item 2: number, place and value.

use crate::ffi::{self, WordAnswer};

fn words(a: WordAnswer) -> [u32; 3] {
    [a.number, a.place, a.value]
}

pub fn recompose(base: u32, digits: &[u32]) -> [u32; 3] {
    words(ffi::recompose(base, digits))
}

pub fn parts_needed(base: u32) -> [u32; 3] {
    words(ffi::parts_needed(base))
}

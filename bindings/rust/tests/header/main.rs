//! The C headers against the crate: the structs, the numbers of answers and their texts, the version.

#[allow(dead_code)]
#[path = "../../src/ffi.rs"]
mod ffi;

mod c;
mod structs;
mod texts;
mod version;

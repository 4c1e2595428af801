//! LaBRADOR from Rust: the proved calls of `liblabrador.a`, safe, with their answers as enums and in words.
//!
//! A store's prover turns a job (the statement), randomness and a witness into a transcript; a lender's verifier judges it.
//! All four are slices of words (`u32`), each made of sections after their counts. What an acceptance is worth, which of one transcript is
//! little, says [`worth`]; what a job does not force, [`review`].
//!
//! ```
//! use labrador::{load, prove, verify, Parameters};
//!
//! // a test load: a job, a witness that meets it, and randomness
//! let load = load(&Parameters { n: 8, ..Parameters::SMALL }, 2026)?;
//! let mut transcript = prove(&load.job, &load.randomness, &load.witness)?;
//! assert_eq!(verify(&load.job, &load.randomness, &transcript).to_string(), "accepted, 0 cells with something left");
//!
//! // a word that is no number modulo Q is refused, with its place
//! transcript[2] = u32::MAX;
//! assert_eq!(
//!     verify(&load.job, &load.randomness, &transcript).to_string(),
//!     "refusal 10: the transcript's word 2 is 4294967295, not below Q (section u1, element 0, coefficient 1)"
//! );
//! # Ok::<(), labrador::Refusal>(())
//! ```
//!
//! # The archive
//!
//! What is linked is `liblabrador.a`, the archive of proved calls, for x86-64: the one that the variable `LABRADOR_ARCHIVE` names when cargo
//! builds (a relative path counts from the crate's folder); else the repository's `target/staticlib/liblabrador.a`, which `./run` makes, if it
//! is newer than what `crates/` proves; else the one that cargo has the Rattle kit prove and build, which takes minutes and is said. [`Q`] is
//! the archive's.
#![deny(unsafe_code)]

mod constraints;
mod draw;
mod element;
#[allow(unsafe_code)]
mod ffi;
mod handed;
mod hashes;
mod load;
mod many;
pub mod meaning;
mod mistyped;
mod needs;
pub mod norms;
mod number;
mod place;
mod prover;
mod ranges;
mod reach;
mod refusal;
pub mod review;
mod rounds;
pub mod section_one;
pub mod sections;
mod sha256;
mod sheds;
pub mod statement;
mod verdict;
mod verifier;
pub mod worth;

#[cfg(feature = "system")]
pub use ffi::system;

pub use draw::draw;
pub use element::{ChallengeWords, DigitRows, Element};
pub use hashes::{sha256_of_words, ARCHIVE_SHA256};
pub use load::{load, load_into, load_needs, Load, LoadNeeds};
pub use many::{verify_all, verify_each, verify_many, verify_many_with, Sent};
pub use mistyped::{mistyped, mistyped_into, Mistyped};
pub use needs::{output_need, scratch_need};
pub use number::{parts_needed, projection_entry, recompose, Digits, Zq, HALF, Q};
pub use place::{expected, Place, Spot};
pub use prover::{prove, prove_into};
pub use ranges::{ranges, Meets, RangeNorms};
pub use refusal::Refusal;
pub use rounds::{round, round_into, Round};
pub use section_one::Parameters;
pub use sections::Slice;
pub use sha256::{hex, sha256};
pub use sheds::{
    add_projections, add_projections_into, shed_projection, shed_projection_into, shed_rows, shed_rows_into, Run,
    RunParts, PROJECTION_NEED,
};
pub use verdict::{FailedCheck, Verdict};
pub use verifier::{verify, verify_with};

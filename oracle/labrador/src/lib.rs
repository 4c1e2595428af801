//! The published Rust crate `labrador`, its text unchanged, over stand-ins for what its listed files only import.

// Warnings about the published text are not this project's to mend.
#![allow(warnings)]

pub mod commitments;
pub mod core;
pub mod leaves;
pub mod prover;
pub mod relation;
pub mod ring;
pub mod verifier;

/// The published file in a module that adds a call of its private `sample_challenge`.
pub mod transcript {
    include!("transcript/mod.rs");

    impl<S: Sponge> LabradorTranscript<S> {
        /// One challenge, before its operator norm is looked at.
        pub fn challenge(&mut self) -> Rq {
            self.sample_challenge()
        }
    }
}

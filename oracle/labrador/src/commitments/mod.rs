//! Stand-in: the modules of the folder.

pub mod common_instances;
pub mod outer_commitments;

pub use ajtai_commitment::CommitError;

/// The published file in a module that adds a constructor for any bound.
pub mod ajtai_commitment {
    include!("ajtai_commitment.rs");

    impl AjtaiScheme {
        /// A scheme with any norm bound: `new` refuses 0 and bounds from q² / rows³ on.
        pub fn with_any_bound(norm_bound_sq: u128, random_matrix: RqMatrix) -> Self {
            Self { norm_bound_sq, random_matrix }
        }
    }
}

//! The published Rust on words, the cases, and their comparison and recording.

pub mod cases;
pub mod instances;
pub mod leaves;
pub mod loads;
pub mod many;
pub mod mistyped;
pub mod random;
pub mod ranges;
pub mod recompose;
pub mod record;
pub mod replay;
pub mod rust;
pub mod sheds;
pub mod slices;
pub mod tally;
pub mod unfit;
pub mod whole;

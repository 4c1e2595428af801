//! Stand-in: the modules of the folder.

pub mod env_params;
pub mod statement;
pub mod witness;

//! Stand-in: the modules of the folder.

pub mod aggregate;
pub mod garbage_polynomials;
pub mod inner_product;
pub mod jl;

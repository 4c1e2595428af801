//! The crate's calls and words over the proved archive.

#[path = "../common/mod.rs"]
mod common;

mod answers;
mod any;
mod apart;
mod draw;
mod hashes;
mod layout;
mod leaves;
mod left;
mod lent;
mod linked;
mod many;
mod mistyped;
mod norms;
mod ratios;
mod review;
mod sheds;
mod statement;
mod worth;

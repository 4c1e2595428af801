//! The binary over files: each exit status, each kind of bad input, and what is written.

#[path = "../../../tests/common/mod.rs"]
mod common;

mod bad_files;
mod desk;
mod filed;
mod groups;
mod help;
mod interrupted;
mod manual;
mod many;
mod mistyped;
mod outputs;
mod pages;
mod pasted;
mod ranges;
mod render;
mod reviews;
mod run;
mod session;
mod sheds;
mod statement;
mod statuses;
mod streams;
mod terminal;
mod traps;
mod worth;

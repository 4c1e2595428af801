//! What an acceptance is worth: false statements, provers that deviate, and honest randomness drawn round after round from a
//! seed. Each test holds the verdicts and how many are accepted to the figures in `rates`. What many acceptances give away: `extraction`.
//!
//! `LABRADOR_SESSIONS=100000 cargo test --offline --release --test forgeries -- --nocapture` runs that many sessions of each
//! route that has a rate; `-- --ignored` in place of `-- --nocapture` runs what takes too long for every day.

#[allow(dead_code)]
#[path = "../common/mod.rs"]
mod common;

mod forger;
mod linear;
mod modular;
mod rates;
mod ring;
mod sessions;
mod slot;
mod statement;
mod without;
mod words;

mod extraction;
mod long_witness;
mod no_witness;
mod ring_constraint;
mod third;
mod total;

//! A session by rounds: what the desk draws, and what the store answers.

use labrador::Round;

use crate::common::with_answer;
use crate::desk::Desk;

mod docs;
mod draws;
mod rounds;
mod wrong;

/// A desk with the randomness up to each round in `r2` to `r5`.
fn drawn(name: &str) -> Desk {
    let case = with_answer(0);
    let desk = Desk::with(name, &case);
    for round in &Round::ALL[1..] {
        desk.put(&format!("r{}", round.number()), round.randomness(&case.randomness));
    }
    desk
}

/// The call of a round, with its randomness from round 2 on.
fn round(number: usize, output: &str) -> String {
    let randomness = if number == 1 { String::new() } else { format!(" --randomness r{number}") };
    format!("round {number} --job job{randomness} --witness witness --output {output}")
}

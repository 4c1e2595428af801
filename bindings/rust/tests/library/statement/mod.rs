//! Statement files and stock lists.

use labrador::section_one::BOUNDS;
use labrador::statement::Statement;
use labrador::{Parameters, HALF};

mod bounds;
mod check;
mod files;
mod jobs;
mod mistakes;
mod random;
mod seeds;
mod stated;
mod stocks;
mod trips;

/// Two elements a vector, three vectors: 128 lines each.
pub const P: Parameters = Parameters { n: 2, r: 3, kappa: 2, kappa_1: 2, kappa_2: 2, K: 0, l: 3, ..Parameters::SMALL };

pub const SEED: &str = "000102030405060708090a0b0c0d0e0f101112131415161718191a1b1c1d1e1f";

/// All lines but the totals, a name a line from line 2 on.
pub fn head() -> String {
    let parameters = "n 2\nr 3\nkappa 2\nkappa_1 2\nkappa_2 2\nlog_q 32\nb 256\nt_1 4\nt_2 4\nL 4\n";
    let bounds: String = BOUNDS.iter().map(|bound| format!("{} 1000000\n", bound.name)).collect();
    format!("statement 1\n{parameters}{bounds}seed {SEED}\n")
}

/// The line of a file's first total.
pub const TOTAL: usize = 19;

pub fn three() -> String {
    let last = format!("total 12 = s0[1] + s0[1] + {HALF} * s2\n");
    head() + "total 600 = s0\ntotal -7 = 3 * s1[0..64] - s2[5]\n" + &last
}

pub fn parsed(text: &str) -> Statement {
    Statement::parse(text).unwrap_or_else(|mistake| panic!("{mistake}"))
}

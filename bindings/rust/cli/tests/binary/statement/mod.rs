//! Statement files and stock lists on the command line.

use std::fs;

use labrador::statement::Statement;
use labrador::{load, prove};

use crate::desk::Desk;
use crate::run::run;

mod bounds;
mod checks;
pub mod docs;
mod held;
mod jobs;
mod stocks;
mod unfit;

pub const SEED: &str = "000102030405060708090a0b0c0d0e0f101112131415161718191a1b1c1d1e1f";

/// A statement that [`STOCK`] meets.
pub fn text() -> String {
    let parameters = "n 1\nr 2\nkappa 2\nkappa_1 2\nkappa_2 2\nlog_q 32\nb 256\nt_1 4\nt_2 4\nL 5\n";
    let bounds = ["beta_sq", "beta_prime_sq", "bound_A", "bound_B", "bound_C", "bound_D"];
    let bounds: String = bounds.map(|name| format!("{name} 99999999\n")).concat();
    format!("statement 1\n{parameters}{bounds}seed {SEED}\ntotal 60 = s0\ntotal -5 = s1[0..32] - 2 * s0[1]\n")
}

pub const STOCK: &str = "0,0,25\n0,1,35\n1,0,65\n";

impl Desk {
    pub fn text(&self, name: &str, text: &str) {
        fs::write(self.path(name), text).expect("a text of the test");
    }

    pub fn read(&self, name: &str) -> String {
        fs::read_to_string(self.path(name)).expect("a text")
    }
}

/// A desk with a statement and a stock list that meets it.
pub fn store(name: &str) -> Desk {
    let desk = Desk::new(name);
    desk.text("a.statement", &text());
    desk.text("a.stock", STOCK);
    desk
}

/// A desk with job and witness too.
pub fn made(name: &str) -> Desk {
    let desk = store(name);
    assert_eq!(run(&desk, "statement a.statement --job job").status, 0);
    assert_eq!(run(&desk, "stock a.stock --job job --witness witness").status, 0);
    desk
}

/// A desk with randomness and transcript too.
pub fn proved(name: &str) -> Desk {
    let desk = made(name);
    let p = *Statement::parse(&text()).unwrap().parameters();
    let randomness = load(&p, 1).unwrap().randomness;
    desk.put("transcript", &prove(&desk.words("job"), &randomness, &desk.words("witness")).unwrap());
    desk.put("randomness", &randomness);
    desk
}

//! Three sheds with a total each: statement, bounds, job, stock, proof and verdict: `cargo run --offline --example statement`.

use labrador::statement::{check, fit, Lines, Seed, Statement, Stock, Term, Total, GREATEST_BOUND};
use labrador::{load, prove, verify, Parameters};

/// A total of all lines of a shed.
fn total(right: i64, vector: u32) -> Total {
    Total { right, terms: vec![Term { factor: 1, lines: Lines::All { vector } }] }
}

fn main() -> Result<(), Box<dyn std::error::Error>> {
    let parameters = Parameters { n: 8, r: 3, L: 5, ..Parameters::SMALL };
    let totals = vec![total(5120, 0), total(600, 1), total(-20, 2)];
    let draft = Statement::new(parameters, [GREATEST_BOUND; 6], totals, Seed([7; 32]))?;
    // 512 lines a shed, in order; the rest of the last one is 0
    let stock = Stock::new(&parameters, &[vec![10; 512], vec![600], vec![0; 511], vec![-20]].concat())?;
    let statement = draft.with_bounds(fit(&draft, &stock, 10, 20)?.bounds);
    print!("{statement}");
    let (job, witness) = (statement.job(), stock.witness());
    for side in check(&job, &witness)?.sides {
        println!("left {}, right {}, difference {}", side.left, side.right, side.difference());
    }
    // a desk draws the randomness, round after round; this one is a test load's
    let randomness = load(statement.parameters(), 2026)?.randomness;
    println!("{}", verify(&job, &randomness, &prove(&job, &randomness, &witness)?));
    let wrong = Statement::parse(&statement.to_string().replace("= s2", "= s3")).unwrap_err();
    println!("{wrong}");
    Ok(())
}

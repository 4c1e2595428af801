//! Bounds that fit.

use labrador::norms::norms;
use labrador::section_one::SectionOne;
use labrador::statement::{fit, Stock};
use labrador::{load, prove, verify, Parameters, Verdict};

use super::{head, parsed, P};

fn stock() -> Stock {
    let numbers: Vec<i64> = (0..384).map(|k| k % 50).collect();
    Stock::new(&P, &numbers).unwrap()
}

/// The statement that this stock meets.
fn text() -> String {
    let sum: i64 = stock().numbers()[..128].iter().sum();
    format!("{}total {sum} = s0\n", head())
}

#[test]
fn every_session_passes_within_the_bounds() {
    let statement = parsed(&text());
    let plain = fit(&statement, &stock(), 0, 5).unwrap();
    assert_eq!(plain.most, plain.bounds);
    assert!(plain.verdicts.len() == 5 && plain.verdicts.iter().all(Verdict::is_accepted));
    let squares = |vector: usize| stock().numbers()[128 * vector..][..128].iter().map(|n| n * n).sum::<i64>();
    assert_eq!(plain.bounds[2], (0..3).map(squares).max().unwrap() as u128);
    let slack = fit(&statement, &stock(), 10, 5).unwrap();
    assert_eq!(slack.most, plain.most);
    assert_eq!(slack.bounds, plain.most.map(|most| most + most.div_ceil(10)));
    assert_eq!(fit(&statement, &stock(), 10, 5), Ok(slack));
    // more sessions need no less
    let more = fit(&statement, &stock(), 0, 8).unwrap();
    assert!(more.most.iter().zip(plain.most).all(|(more, five)| *more >= five));
}

/// One less than what is needed fails at least one session.
#[test]
fn the_bounds_are_what_is_needed() {
    let statement = parsed(&text());
    let plain = fit(&statement, &stock(), 0, 5).unwrap();
    let witness = stock().witness();
    for (k, number) in [(0, 21), (1, 23), (3, 14), (4, 15), (5, 16)] {
        let mut bounds = plain.most;
        bounds[k] -= 1;
        let less = statement.with_bounds(bounds).job();
        let free = statement.with_bounds([(1 << 96) - 1; 6]).job();
        let sessions = labrador::statement::sessions(&statement, 5);
        let numbers = sessions.map(|randomness| {
            let transcript = prove(&free, &randomness, &witness).unwrap();
            verify(&less, &randomness, &transcript).number()
        });
        let numbers: Vec<u32> = numbers.collect();
        assert!(numbers.contains(&number) && numbers.iter().all(|n| *n == 0 || *n == number), "{k}: {numbers:?}");
    }
}

#[test]
fn a_total_that_is_missed_passes_nowhere() {
    let statement = parsed(&text().replace(" = s0", " = 2*s0"));
    let missed = fit(&statement, &stock(), 10, 3).unwrap();
    assert!(missed.verdicts.iter().all(|verdict| verdict.number() == 22));
}

/// A whole run: file, stock, bounds, job, randomness of another kind, proof, verdict.
#[test]
fn a_whole_run_is_accepted() {
    let lacking: String = text().lines().filter(|l| !l.starts_with("b")).map(|l| format!("{l}\n")).collect();
    let draft =
        labrador::statement::Statement::parse_without_bounds(&lacking.replace("t_1 4", "b 256\nt_1 4")).unwrap();
    let bounds = fit(&draft, &stock(), 40, 10).unwrap().bounds;
    let statement = draft.with_bounds(bounds);
    let (job, witness) = (statement.job(), stock().witness());
    let p = Parameters { l: 1, ..P };
    for seed in 1..9 {
        let randomness = load(&p, seed).unwrap().randomness;
        let transcript = prove(&job, &randomness, &witness).unwrap();
        assert!(verify(&job, &randomness, &transcript).is_accepted(), "{seed}");
        let one = SectionOne::read(&job).unwrap();
        assert!(norms(&one, &transcript).unwrap().iter().all(|norm| norm.norm <= norm.limit));
    }
}

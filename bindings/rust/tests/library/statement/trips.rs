//! File, job, file, job: the same words, on random statements of a fixed seed.

use labrador::section_one::PARAMETERS;
use labrador::statement::{Lines, Seed, Statement, Term, Total};
use labrador::{output_need, Parameters, HALF, Q};

/// Numbers that anyone can repeat.
pub struct Draw(pub u64);

impl Draw {
    pub fn below(&mut self, limit: u64) -> u64 {
        self.0 = self.0.wrapping_mul(6364136223846793005).wrapping_add(1442695040888963407);
        (self.0 >> 33) % limit
    }

    pub fn within(&mut self, least: u32, greatest: u32) -> u32 {
        least + self.below(u64::from(greatest - least) + 1) as u32
    }

    /// A number within ±(Q - 1)/2, mostly small, at times at the limits.
    fn number(&mut self) -> i64 {
        let size = match self.below(5) {
            0 => i64::from(HALF) - self.below(2) as i64,
            1 => self.below(u64::from(HALF) + 1) as i64,
            _ => self.below(4) as i64,
        };
        if self.below(2) == 0 {
            size
        } else {
            -size
        }
    }

    fn term(&mut self, p: &Parameters) -> Term {
        let vector = self.within(0, p.r - 1);
        let first = self.within(0, 64 * p.n - 1);
        let end = if self.below(2) == 0 { first + 1 } else { self.within(first + 1, 64 * p.n) };
        let lines = if self.below(3) == 0 { Lines::All { vector } } else { Lines::Run { vector, first, end } };
        Term { factor: self.number(), lines }
    }

    fn statement(&mut self) -> Statement {
        let mut words = PARAMETERS.map(|p| self.within(p.least, p.greatest.min(p.least + 3)));
        words[7] = self.within(16, 32);
        let mut p = Parameters::from_words(words);
        p.L = p.least_aggregations() + self.within(0, 2);
        p.b = if self.below(2) == 0 { self.within(2, 300) } else { self.within(2, Q - 1) };
        let totals = (0..self.within(1, 5)).map(|_| {
            let terms = (0..self.within(1, 9)).map(|_| self.term(&p)).collect();
            Total { right: self.number(), terms }
        });
        let totals: Vec<Total> = totals.collect();
        let bounds = std::array::from_fn(|_| u128::from(self.below(1 << 31)) << self.below(66));
        let seed = Seed(std::array::from_fn(|_| self.below(256) as u8));
        Statement::new(p, bounds, totals, seed).unwrap_or_else(|mistake| panic!("{mistake}"))
    }
}

#[test]
fn a_statement_comes_back_from_its_job() {
    let mut draw = Draw(40);
    for trip in 0..150 {
        let statement = draw.statement();
        let job = statement.job();
        assert!(output_need(&job).is_ok(), "{trip}: {statement}");
        assert_eq!(Statement::parse(&statement.to_string()).as_ref(), Ok(&statement));
        let back =
            Statement::of_job(&job, statement.seed()).unwrap_or_else(|none| panic!("{trip}: {none}\n{statement}"));
        let text = back.to_string();
        let again = Statement::parse(&text).unwrap_or_else(|mistake| panic!("{trip}: {mistake}\n{text}"));
        assert!(again.job() == job, "{trip}: {statement}\n{text}");
        assert_eq!(Statement::of_job(&again.job(), again.seed()).unwrap().to_string(), text);
    }
}

//! Random edits of files: what is told stands where it is told, and what is read is whole.

use labrador::statement::{Found, Mistake, Statement, Stock};
use labrador::{output_need, Parameters};

use super::trips::Draw;
use super::{three, P};

const EDITS: [&str; 28] = [
    "",
    " ",
    "\t",
    "\n",
    "\r",
    "\r\n",
    "#",
    "+",
    "-",
    "*",
    "=",
    ",",
    "[",
    "]",
    "..",
    "s",
    "s0",
    "s3",
    "0",
    "1",
    "9",
    "2147483648",
    "é",
    "\u{feff}",
    "total 1 = s0\n",
    "n 2\n",
    "L 4\n",
    "\u{0}",
];

/// The text with a few characters taken out and an edit put in.
fn edited(draw: &mut Draw, text: &str) -> String {
    let mut letters: Vec<char> = text.chars().collect();
    for _ in 0..draw.within(1, 3) {
        let at = draw.within(0, letters.len() as u32) as usize;
        let end = (at + draw.below(3) as usize).min(letters.len());
        let edit = EDITS[draw.below(EDITS.len() as u64) as usize];
        letters.splice(at..end, edit.chars());
    }
    letters.into_iter().collect()
}

/// That what a mistake found stands at its place.
fn stands(text: &str, mistake: &Mistake) {
    let line = text.split('\n').nth(mistake.line - 1).unwrap_or_else(|| panic!("{mistake}\n{text}"));
    let rest: String = line.chars().skip(mistake.column - 1).collect();
    assert!(mistake.column >= 1 && mistake.column <= line.chars().count() + 1, "{mistake}\n{text}");
    let there = match &mistake.found {
        Found::Text(found) => rest.starts_with(found),
        Found::Comment => rest.starts_with('#'),
        Found::LineEnd => rest.is_empty() || rest == "\r",
        Found::FileEnd => rest.is_empty() && mistake.line == text.split('\n').count(),
        Found::Byte(_) => false,
    };
    assert!(there, "{mistake}\n{text}");
}

#[test]
fn statements() {
    let mut draw = Draw(7);
    let mut read = 0;
    for _ in 0..4000 {
        let text = edited(&mut draw, &three());
        match Statement::parse(&text) {
            Err(mistakes) => mistakes.all().iter().for_each(|mistake| stands(&text, mistake)),
            Ok(statement) => {
                read += 1;
                assert_eq!(Statement::parse(&statement.to_string()).as_ref(), Ok(&statement), "{text}");
                assert!(output_need(&statement.job()).is_ok(), "{text}");
            }
        }
    }
    assert!((50..3900).contains(&read), "{read}");
}

#[test]
fn stock_lists() {
    let p = Parameters { n: 1, r: 2, ..P };
    let mut draw = Draw(8);
    let mut read = 0;
    for list in ["5\n-7\n+3\n# end\n", "0,0,5\n1,63,-7\n 0 , 2 , 3\n"] {
        for _ in 0..2000 {
            let text = edited(&mut draw, list);
            match Stock::parse(&p, &text) {
                Err(mistakes) => mistakes.all().iter().for_each(|mistake| stands(&text, mistake)),
                Ok(stock) => {
                    read += 1;
                    assert_eq!(Stock::new(&p, stock.numbers()), Ok(stock), "{text}");
                }
            }
        }
    }
    assert!((50..3900).contains(&read), "{read}");
}

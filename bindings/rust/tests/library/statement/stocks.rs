//! Stock lists.

use labrador::statement::Stock;
use labrador::{Parameters, Slice, HALF, Q};

use super::P;

/// Two vectors of 64 lines.
const SHORT: Parameters = Parameters { n: 1, r: 2, ..P };

fn witness(list: &str) -> Vec<u32> {
    Stock::parse(&SHORT, list).unwrap_or_else(|mistake| panic!("{mistake}")).witness()
}

fn told(list: &str) -> String {
    Stock::parse(&SHORT, list).expect_err(list).to_string()
}

fn with(numbers: &[(usize, u32)]) -> Vec<u32> {
    let mut words = vec![0; 129];
    words[0] = 128;
    numbers.iter().for_each(|&(at, word)| words[1 + at] = word);
    words
}

#[test]
fn a_number_a_line() {
    assert_eq!(witness(""), with(&[]));
    assert_eq!(witness("# nothing\n\n"), with(&[]));
    let list = format!("5\n-3\r\n\n+{HALF} # most\n\t-{HALF}\n-0\n0007");
    assert_eq!(witness(&list), with(&[(0, 5), (1, Q - 3), (2, HALF), (3, HALF + 1), (5, 7)]));
    let all: String = (0..128).map(|k| format!("{k}\n")).collect();
    assert_eq!(witness(&all)[1..], (0..128).collect::<Vec<u32>>());
    assert_eq!(witness(&all).len() as u64, Slice::Witness.length(&SHORT));
}

#[test]
fn vector_line_and_number() {
    let list = "1,63,-9\n0,0,4\n # so\n 0 , 5 ,\t+6 \n0,05,0\n";
    assert_eq!(told(list), "line 5, column 1: 0,05,0 stands there; s0[5] has its number in line 4");
    assert_eq!(witness(&list.replace("0,05,0", "0,006,0")), with(&[(127, Q - 9), (0, 4), (5, 6)]));
}

#[test]
fn mistakes_with_their_place() {
    let number = format!("a line of stock has a number from -{HALF} to {HALF}");
    let above = [format!("{}", HALF + 1), format!("-{}", HALF + 1)];
    for wrong in [
        above[0].as_str(),
        &above[1],
        "five",
        "--5",
        "5.0",
        "- 5",
        "+",
        "1e3",
        "99999999999999999999999999999999999999999",
    ] {
        let shown = if wrong == "- 5" { "-".to_string() } else { wrong.chars().take(40).collect() };
        let more = if wrong.len() > 40 { "…" } else { "" };
        assert_eq!(told(&format!("1\n {wrong}\n")), format!("line 2, column 2: {shown}{more} stands there; {number}"));
        assert!(told(&format!("0,1,{wrong}\n")).starts_with("line 1, column 5: "), "{wrong}");
    }
    assert_eq!(told("5 6"), "line 1, column 3: 6 stands there; the line ends here");
    assert_eq!(told("0,0,5,6"), "line 1, column 6: ,6 stands there; the line ends here");
    assert_eq!(
        told("0,5"),
        "line 1, column 4: the line's end stands there; vector, line and number are parted by commas"
    );
    assert_eq!(told("0 5,5"), "line 1, column 3: 5 stands there; vector, line and number are parted by commas");
    assert_eq!(told("0,0,"), format!("line 1, column 5: the line's end stands there; {number}"));
    assert_eq!(told(",0,1"), "line 1, column 1: ,0 stands there; the vectors are s0 to s1");
    assert_eq!(told("2,0,1"), "line 1, column 1: 2 stands there; the vectors are s0 to s1");
    assert_eq!(told("-1,0,1"), "line 1, column 1: -1 stands there; the vectors are s0 to s1");
    assert_eq!(told("0,0,1\n1,64,1"), "line 2, column 3: 64 stands there; the lines of s1 are 0 to 63");
    assert_eq!(told("s1,0,1"), "line 1, column 1: s1 stands there; the vectors are s0 to s1");
}

#[test]
fn forms_are_not_mixed() {
    assert_eq!(
        told("\n5\n0,1,6 # so\n"),
        "line 3, column 1: 0,1,6 stands there; a number alone stands in every line, as in line 2"
    );
    assert_eq!(told("0,1,6\n5\n"), "line 2, column 1: 5 stands there; I,J,NUMBER stands in every line, as in line 1");
}

#[test]
fn more_numbers_than_lines() {
    let list = "1\n".repeat(129);
    assert_eq!(told(&list), "line 129, column 1: 1 stands there; the stock has 128 lines, and each has its number");
}

#[test]
fn every_mistake_is_told() {
    let list = "0,0,5\n2,0,1\n7\n0,0,x\n0,0,6\n0,64,1 # so\n1,1,1\n";
    let lines = [
        "line 2, column 1: 2 stands there; the vectors are s0 to s1",
        "line 3, column 1: 7 stands there; I,J,NUMBER stands in every line, as in line 1",
        &format!("line 4, column 5: x stands there; a line of stock has a number from -{HALF} to {HALF}"),
        "line 5, column 1: 0,0,6 stands there; s0[0] has its number in line 1",
        "line 6, column 3: 64 stands there; the lines of s0 are 0 to 63",
    ];
    assert_eq!(told(list).lines().collect::<Vec<_>>(), lines);
    // a wrong number has its place, and numbers beyond the last line are told once
    let list = format!("x\n{}", "1\n".repeat(140));
    let full = "line 129, column 1: 1 stands there; the stock has 128 lines, and each has its number";
    assert_eq!((told(&list).lines().count(), told(&list).lines().last()), (2, Some(full)));
}

#[test]
fn a_stock_is_made_of_numbers() {
    let numbers = [5, -3, 0, HALF.into()];
    let stock = Stock::new(&SHORT, &numbers).unwrap();
    assert_eq!((stock.numbers().len(), &stock.numbers()[..4]), (128, &numbers[..]));
    assert_eq!(Stock::of_witness(&SHORT, &stock.witness()), stock);
    assert_eq!(Stock::new(&SHORT, &[1, 1 << 31]).unwrap_err().first().line, 2);
    assert!(Stock::new(&SHORT, &[0; 129]).is_err());
}

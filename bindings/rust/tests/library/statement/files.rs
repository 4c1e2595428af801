//! What a file may be.

use labrador::statement::{Lines, Statement, Term, Total};
use labrador::{HALF, Q};

use super::{head, parsed, three, P};

#[test]
fn a_file_is_read_whole() {
    let statement = parsed(&three());
    assert_eq!(*statement.parameters(), P);
    assert_eq!(*statement.bounds(), [1000000; 6]);
    let term = |factor, lines| Term { factor, lines };
    let run = |vector, first, end| Lines::Run { vector, first, end };
    let totals = [
        Total { right: 600, terms: vec![term(1, Lines::All { vector: 0 })] },
        Total { right: -7, terms: vec![term(3, run(1, 0, 64)), term(-1, run(2, 5, 6))] },
        Total {
            right: 12,
            terms: vec![term(1, run(0, 1, 2)), term(1, run(0, 1, 2)), term(HALF.into(), Lines::All { vector: 2 })],
        },
    ];
    assert_eq!(statement.totals(), totals);
}

#[test]
fn a_statement_is_printed_as_it_is_read() {
    assert_eq!(parsed(&three()).to_string(), three());
}

#[test]
fn names_come_in_any_order() {
    let text = three();
    let (first, rest) = text.split_once('\n').unwrap();
    let mut lines: Vec<&str> = rest.lines().collect();
    lines[..17].reverse();
    assert_eq!(parsed(&format!("{first}\n{}", lines.join("\n"))), parsed(&text));
}

#[test]
fn blanks_comments_and_carriage_returns_are_passed_over() {
    let plain = parsed(&three());
    let comments = three().replace('\n', " # n 5\n\n \t \n# total\n");
    assert_eq!(parsed(&format!("\n# first\n\n{comments}")), plain);
    assert_eq!(parsed(&three().replace('\n', "\r\n")), plain);
    assert_eq!(parsed(&three().replace(' ', "\t \t")), plain);
    assert_eq!(parsed(&three().replace('\n', "\t\n \t")), plain);
    assert_eq!(parsed(three().trim_end()), plain);
    assert_eq!(parsed(&three().replace("s2[5]", "s2[5]#+ s1")), plain);
}

#[test]
fn blanks_around_signs_are_free() {
    let totals = |text: &str| parsed(&format!("{}{text}", head())).totals().to_vec();
    let plain = totals("total -5 = - 3 * s0[0..64] + s1 - 4 * s2[7]");
    for text in ["total -5=-3*s0[0..64]+s1-4*s2[7]", "total - 5 =- 3 *s0[0..64]\t+s1 -4* s2[7]  "] {
        assert_eq!(totals(text), plain, "{text}");
    }
    assert_eq!(totals("total 5 = + s0"), totals("total 5 = s0"));
}

#[test]
fn numbers_have_any_number_of_zeros_before_them() {
    let text = three().replace("n 2\n", "n 000000000000000000000000000000000000000000000002\n");
    let text = text.replace("s1[0..64]", "s01[00..064]").replace("total 600", "total 0600");
    assert_eq!(parsed(&text), parsed(&three()));
}

#[test]
fn the_limits_are_taken() {
    let text = three()
        .replace("b 256", &format!("b {}", Q - 1))
        .replace("bound_A 1000000", &format!("bound_A {}", (1u128 << 96) - 1));
    let statement = parsed(&text.replace("total 600", &format!("total -{HALF}")));
    assert_eq!((statement.parameters().b, statement.bounds()[2]), (Q - 1, (1 << 96) - 1));
    assert_eq!(statement.totals()[0].right, -i64::from(HALF));
    let text = head() + &"total 0 = 0*s0[127..128]\n".repeat(64);
    assert_eq!(parsed(&text).parameters().l, 64);
}

#[test]
fn bounds_may_lack_where_they_are_worked_out() {
    let lacking: String = three().lines().filter(|l| !l.starts_with("bound_B")).map(|l| format!("{l}\n")).collect();
    assert!(Statement::parse(&lacking).is_err());
    let bounds = *Statement::parse_without_bounds(&lacking).unwrap().bounds();
    assert_eq!(bounds, [1000000, 1000000, 1000000, (1 << 96) - 1, 1000000, 1000000]);
}

#[test]
fn a_statement_is_made_of_its_parts() {
    let read = parsed(&three());
    let (p, bounds, totals) = (*read.parameters(), *read.bounds(), read.totals().to_vec());
    assert_eq!(Statement::new(p, bounds, totals.clone(), read.seed()), Ok(read.clone()));
    let wrong =
        Statement::new(P, bounds, vec![Total { right: 1 << 40, ..totals[0].clone() }], read.seed()).unwrap_err();
    assert_eq!((wrong.first().line, wrong.first().column), (19, 7));
    let past = Lines::Run { vector: 0, first: 0, end: 129 };
    let terms = vec![Term { factor: 1, lines: past }];
    let wrong = Statement::new(P, bounds, vec![Total { right: 0, terms }], read.seed()).unwrap_err();
    assert_eq!(
        wrong.to_string(),
        "line 19, column 17: 129 stands there; a run from line 0 has an end from 1 to 128, which is not in it"
    );
}

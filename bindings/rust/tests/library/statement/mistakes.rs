//! Every mistake of a statement file: its place, what stands there and what may stand there.

use labrador::section_one::{BOUNDS, PARAMETERS};
use labrador::statement::{text_of, total_lines, Fault, Found, Statement};
use labrador::{HALF, Q};

use super::{head, three, SEED, TOTAL};

/// The first mistake of a file.
fn told(text: &str) -> String {
    Statement::parse(text).expect_err(text).first().to_string()
}

/// The mistake of a file whose first total is this line: it has no other.
fn in_total(line: &str) -> String {
    let told = all(&format!("{}{line}\n", head()));
    assert_eq!(told.lines().count(), 1, "{told}");
    let place = format!("line {TOTAL}, ");
    told.strip_prefix(&place).unwrap_or_else(|| panic!("{told}")).to_string()
}

/// All mistakes of a file, a line each.
fn all(text: &str) -> String {
    Statement::parse(text).expect_err(text).to_string()
}

/// The first mistake of a file with the line of a name replaced.
fn with(name: &str, line: &str) -> String {
    let replaced = |old: &str| if old.split(' ').next() == Some(name) { line.to_string() } else { old.to_string() };
    let lines: Vec<String> = head().lines().map(replaced).collect();
    told(&format!("{}\ntotal 1 = s0\n", lines.join("\n")))
}

#[test]
fn the_first_line() {
    let first = "the first line is: statement 1";
    assert_eq!(told(""), format!("line 1, column 1: the file's end stands there; {first}"));
    assert_eq!(told("# nothing\n\n"), format!("line 3, column 1: the file's end stands there; {first}"));
    assert_eq!(told("# nothing"), format!("line 1, column 10: the file's end stands there; {first}"));
    assert_eq!(told("n 2\n"), format!("line 1, column 1: n stands there; {first}"));
    assert_eq!(told("\n Statement 1\n"), format!("line 2, column 2: Statement stands there; {first}"));
    assert_eq!(told("statement\n"), format!("line 1, column 10: the line's end stands there; {first}"));
    assert_eq!(told("statement # 1\n"), format!("line 1, column 11: a comment stands there; {first}"));
    assert_eq!(told("statement 2\n"), format!("line 1, column 11: 2 stands there; {first}"));
    assert_eq!(told("statement 01\n"), format!("line 1, column 11: 01 stands there; {first}"));
    assert_eq!(told("statement1\n"), format!("line 1, column 1: statement1 stands there; {first}"));
    assert_eq!(told("statement 1 1\n"), "line 1, column 13: 1 stands there; the line ends here");
    assert_eq!(told("\u{feff}statement 1\n"), format!("line 1, column 1: U+FEFFstatement stands there; {first}"));
    assert_eq!(told("statement 1\r\r\n"), format!("line 1, column 11: 1U+000D stands there; {first}"));
}

#[test]
fn names() {
    let known = "a line begins with n, r, kappa, kappa_1, kappa_2, log_q, b, t_1, t_2, L, beta_sq, beta_prime_sq, \
                 bound_A, bound_B, bound_C, bound_D, seed or total";
    for name in ["K", "l", "N", "Total", "total5", "kappa1", "s0", "größe"] {
        assert_eq!(with("r", &format!(" {name} 3")), format!("line 3, column 2: {name} stands there; {known}"));
    }
    assert_eq!(with("r", "= 3"), format!("line 3, column 1: = stands there; {known}"));
    assert_eq!(with("r", "-3"), format!("line 3, column 1: -3 stands there; {known}"));
}

#[test]
fn a_name_given_twice() {
    assert_eq!(with("r", "n 2"), "line 3, column 1: n stands there; n is given once, in line 2");
    assert_eq!(
        with("b", "statement 1"),
        "line 8, column 1: statement stands there; statement is given once, in line 1"
    );
    for (k, name) in PARAMETERS.iter().map(|p| p.name).filter(|name| !["K", "l"].contains(name)).enumerate() {
        let again = format!("{}  {name} 4\ntotal 1 = s0\n", head());
        let line = k + 2;
        assert_eq!(
            told(&again),
            format!("line 19, column 3: {name} stands there; {name} is given once, in line {line}")
        );
    }
    for name in BOUNDS.iter().map(|b| b.name).chain(["seed"]) {
        let after = format!("{}{name} 4\n", three());
        assert!(told(&after).starts_with(&format!("line 22, column 1: {name} stands there; {name} is given once, in")));
    }
}

#[test]
fn a_name_not_given() {
    for name in head().lines().skip(1).map(|line| line.split(' ').next().unwrap()) {
        let lacking: String =
            three().lines().filter(|l| l.split(' ').next() != Some(name)).map(|l| format!("{l}\n")).collect();
        assert_eq!(
            told(&lacking),
            format!("line 18, column 1: total stands there; before the first total stands also {name}")
        );
    }
    let short = "statement 1\nn 2\nr 2\nkappa 1\nkappa_1 1\nkappa_2 1\nlog_q 32\nb 2\nt_1 1\nt_2 1\nL 4\n";
    let also = "before the first total stands also beta_sq, beta_prime_sq, bound_A, bound_B, bound_C, bound_D and seed";
    assert_eq!(told(short), format!("line 12, column 1: the file's end stands there; {also}"));
    assert_eq!(told(&format!("{short} total 1 = s0")), format!("line 12, column 2: total stands there; {also}"));
    let late = head().replace("L 4\n", "") + "total 1 = s0\nL 4\n";
    assert_eq!(told(&late), "line 18, column 1: total stands there; before the first total stands also L");
}

#[test]
fn parameters_out_of_their_limits() {
    for (name, least, greatest) in [("n", 1, 64), ("r", 1, 16), ("kappa", 1, 16), ("log_q", 16, 32), ("t_2", 1, 32)] {
        let column = name.len() + 2;
        for value in [least - 1, greatest + 1] {
            let told = with(name, &format!("{name} {value}"));
            let may = format!("column {column}: {value} stands there; {name} is a number from {least} to {greatest}");
            assert!(told.ends_with(&may), "{told}");
        }
    }
    let b = format!("b is a number from 2 to {}", Q - 1);
    assert_eq!(with("b", "b 1"), format!("line 8, column 3: 1 stands there; {b}"));
    assert_eq!(with("b", &format!("b {Q}")), format!("line 8, column 3: {Q} stands there; {b}"));
    assert_eq!(with("b", "b"), format!("line 8, column 2: the line's end stands there; {b}"));
    assert_eq!(with("b", "b   # 4"), format!("line 8, column 5: a comment stands there; {b}"));
    for wrong in ["two", "-2", "+2", "2.0", "2_0", "0x10", "1e3", "=2", "２"] {
        assert_eq!(with("b", &format!("b {wrong}")), format!("line 8, column 3: {wrong} stands there; {b}"));
    }
    assert_eq!(with("b", "b 2 2"), "line 8, column 5: 2 stands there; the line ends here");
    assert_eq!(with("b", "b 2 = 2"), "line 8, column 5: = stands there; the line ends here");
    let long = "9".repeat(60);
    assert_eq!(with("b", &format!("b {long}")), format!("line 8, column 3: {}… stands there; {b}", &long[..40]));
}

#[test]
fn too_few_aggregations() {
    assert_eq!(with("L", "L 3"), "line 11, column 3: 3 stands there; L is at least 4 where log_q is 32");
    assert_eq!(with("log_q", "log_q 31"), "line 11, column 3: 4 stands there; L is at least 5 where log_q is 31");
    // log_q behind L: the place is L's
    let exchanged = three().replace("log_q 32", "L  4").replace("L 4\n", "log_q 16\n");
    assert_eq!(told(&exchanged), "line 7, column 4: 4 stands there; L is at least 8 where log_q is 16");
    assert_eq!(with("L", "L 33"), "line 11, column 3: 33 stands there; L is a number from 1 to 32");
}

#[test]
fn bounds_and_seeds() {
    let bound = "bound_A is a number from 0 to 79228162514264337593543950335";
    let past = "79228162514264337593543950336";
    assert_eq!(with("bound_A", &format!("bound_A {past}")), format!("line 14, column 9: {past} stands there; {bound}"));
    assert_eq!(with("bound_A", "bound_A -1"), format!("line 14, column 9: -1 stands there; {bound}"));
    let seed = "a seed is 64 hex digits";
    assert_eq!(with("seed", "seed"), format!("line 18, column 5: the line's end stands there; {seed}"));
    assert_eq!(with("seed", "seed 12ab"), format!("line 18, column 6: 12ab stands there; {seed}"));
    let (shown, long) = (&SEED[..40], format!("{SEED}0"));
    for wrong in [&SEED[..63], &long, &SEED.replace("1e", "1g"), &SEED.replace("1f", "é")] {
        assert_eq!(with("seed", &format!("seed {wrong}")), format!("line 18, column 6: {shown}… stands there; {seed}"));
    }
    assert_eq!(
        with("seed", &format!("seed {SEED} {SEED}")),
        format!("line 18, column 71: {shown}… stands there; the line ends here")
    );
}

#[test]
fn totals_without_their_parts() {
    let right = format!("a total is a number from -{HALF} to {HALF}");
    assert_eq!(in_total("total"), format!("column 6: the line's end stands there; {right}"));
    assert_eq!(in_total("total = s0"), format!("column 7: = stands there; {right}"));
    let above = [format!("{}", HALF + 1), format!("-{}", HALF + 1)];
    for wrong in above.iter().map(String::as_str).chain(["+5", "--5", "x", "5.5"]) {
        assert_eq!(
            in_total(&format!("total {wrong} = s0")),
            format!("column 7: {} stands there; {right}", wrong.replace("--5", "-"))
        );
    }
    let equals = "behind the total stands =";
    assert_eq!(in_total("total 5"), format!("column 8: the line's end stands there; {equals}"));
    assert_eq!(in_total("total 5 s0"), format!("column 9: s0 stands there; {equals}"));
    assert_eq!(in_total("total 5 - 3 = s0"), format!("column 9: - stands there; {equals}"));
    let term = "a term is sI, sI[J] or sI[J..E], or NUMBER * and one of these";
    assert_eq!(in_total("total 5 ="), format!("column 10: the line's end stands there; {term}"));
    assert_eq!(in_total("total 5 =  # s0"), format!("column 12: a comment stands there; {term}"));
    assert_eq!(in_total("total 5 = = s0"), format!("column 11: = stands there; {term}"));
    assert_eq!(in_total("total 5 = s0 +"), format!("column 15: the line's end stands there; {term}"));
    assert_eq!(in_total("total 5 = + - s0"), format!("column 13: - stands there; {term}"));
    assert_eq!(in_total("total 5 = * s0"), format!("column 11: * stands there; {term}"));
}

#[test]
fn terms() {
    let sign = "before each further term stands + or -";
    assert_eq!(in_total("total 5 = s0 s1"), format!("column 14: s1 stands there; {sign}"));
    assert_eq!(in_total("total 5 = s0 * 3"), format!("column 14: * stands there; {sign}"));
    assert_eq!(in_total("total 5 = s0 = s1"), format!("column 14: = stands there; {sign}"));
    assert_eq!(in_total("total 5 = s0 total 6 = s1"), format!("column 14: total stands there; {sign}"));
    let factor = format!("a factor is a number from 0 to {HALF}");
    let above = HALF + 1;
    assert_eq!(in_total(&format!("total 5 = {above} * s0")), format!("column 11: {above} stands there; {factor}"));
    assert_eq!(in_total("total 5 = 3s0"), format!("column 11: 3s0 stands there; {factor}"));
    assert_eq!(in_total("total 5 = 3.5 * s0"), format!("column 11: 3.5 stands there; {factor}"));
    let times = "behind a factor stands *";
    assert_eq!(in_total("total 5 = 3"), format!("column 12: the line's end stands there; {times}"));
    assert_eq!(in_total("total 5 = 3 s0"), format!("column 13: s0 stands there; {times}"));
    assert_eq!(in_total("total 5 = s0 + 3 + s1"), format!("column 18: + stands there; {times}"));
    let run = "a run of lines is sI, sI[J] or sI[J..E]";
    assert_eq!(in_total("total 5 = 3 *"), format!("column 14: the line's end stands there; {run}"));
    assert_eq!(in_total("total 5 = 3 * 4 * s0"), format!("column 15: 4 stands there; {run}"));
    assert_eq!(in_total("total 5 = 3 * -s0"), format!("column 15: -s0 stands there; {run}"));
    for wrong in ["s", "S0", "t0", "s[0]", "s0[", "s0]", "s0[]", "s0[..5]", "s0[5..]", "s0[..]", "s0[1...5]", "s0[1,5]"]
    {
        assert_eq!(
            in_total(&format!("total 5 = {wrong}")),
            format!("column 11: {wrong} stands there; {run}"),
            "{wrong}"
        );
    }
    for wrong in ["s0[x]", "s0x", "s0[1..x]", "sx[1]", "s0[1]]", "s0[1]x", "s0[[1]", "s0(1)", "s0[1:5]", "s0.."] {
        assert_eq!(
            in_total(&format!("total 5 = {wrong}")),
            format!("column 11: {wrong} stands there; {run}"),
            "{wrong}"
        );
    }
    // blanks are free around signs alone
    assert_eq!(in_total("total 5 = s0 [1]"), format!("column 14: [1] stands there; {sign}"));
    assert_eq!(in_total("total 5 = s0[1 ..5]"), format!("column 11: s0[1 stands there; {run}"));
    assert_eq!(in_total("total 5 = s0[1-5]"), format!("column 11: s0[1 stands there; {run}"));
}

#[test]
fn vectors_and_lines_that_are_not_there() {
    let vectors = "the vectors are s0 to s2";
    assert_eq!(in_total("total 5 = s0 + s3"), format!("column 16: s3 stands there; {vectors}"));
    assert_eq!(
        in_total("total 5 = 2 * s99999999999999[5]"),
        format!("column 15: s99999999999999[5] stands there; {vectors}")
    );
    let lines = "the lines of s1 are 0 to 127";
    assert_eq!(in_total("total 5 = s1[128]"), format!("column 14: 128 stands there; {lines}"));
    assert_eq!(in_total("total 5 = s1[128..129]"), format!("column 14: 128 stands there; {lines}"));
    assert_eq!(in_total("total 5 = 2*s001[0999]"), format!("column 18: 0999 stands there; {lines}"));
    let end = |first: u32| format!("a run from line {first} has an end from {} to 128, which is not in it", first + 1);
    assert_eq!(in_total("total 5 = s1[0..129]"), format!("column 17: 129 stands there; {}", end(0)));
    assert_eq!(in_total("total 5 = s1[64..64]"), format!("column 18: 64 stands there; {}", end(64)));
    assert_eq!(in_total("total 5 = s1[64..3]"), format!("column 18: 3 stands there; {}", end(64)));
    assert_eq!(in_total("total 5 = s1[127..0]"), format!("column 19: 0 stands there; {}", end(127)));
    let one = told(&(head().replace("r 3", "r 1") + "total 5 = s1"));
    assert_eq!(one, "line 19, column 11: s1 stands there; the only vector is s0");
}

#[test]
fn too_few_and_too_many_totals() {
    assert_eq!(told(&head()), "line 19, column 1: the file's end stands there; a statement has 1 to 64 totals");
    let many = head() + &"total 1 = s0\n".repeat(65);
    assert_eq!(told(&many), "line 83, column 1: total stands there; a statement has at most 64 totals");
}

#[test]
fn columns_are_characters() {
    let told = told("statement 1\n\tn\té\n");
    assert_eq!(told, "line 2, column 4: é stands there; n is a number from 1 to 64");
    let wrong = Statement::parse("statement 1\nn 2 ĝĝ 5 x").unwrap_err().first().clone();
    assert_eq!((wrong.line, wrong.column, wrong.fault), (2, 5, Fault::Behind));
    let odd = Statement::parse("statement 1\nn \u{a0}5\u{7}").unwrap_err().first().clone();
    assert_eq!(odd.found.to_string(), "U+00A05U+0007");
    assert_eq!(odd.found, Found::Text("\u{a0}5\u{7}".to_string()));
}

/// After a mistake reading goes on in the next line, and what is not known is judged by what it can be at the most.
#[test]
fn every_mistake_is_told() {
    let text = three().replace("n 2\n", "n 65\n").replace("kappa_1 2", "kapa_1 2").replace("t_2 4", "t_2 4 4");
    let text = text.replace("bound_C 1000000\n", "bound_A 7\n").replace("= s0\n", "= s3\n")
        + "total 9 = s0[4096] s1\ntotals\n";
    let names = "a line begins with n, r, kappa, kappa_1, kappa_2, log_q, b, t_1, t_2, L, beta_sq, beta_prime_sq, bound_A, bound_B, \
                 bound_C, bound_D, seed or total";
    let lines = [
        "line 2, column 3: 65 stands there; n is a number from 1 to 64",
        &format!("line 5, column 1: kapa_1 stands there; {names}"),
        "line 10, column 7: 4 stands there; the line ends here",
        "line 16, column 1: bound_A stands there; bound_A is given once, in line 14",
        "line 19, column 1: total stands there; before the first total stands also kappa_1 and bound_C",
        "line 19, column 13: s3 stands there; the vectors are s0 to s2",
        // n is not known, and no n has so many lines
        "line 22, column 14: 4096 stands there; the lines of s0 are 0 to 4095",
        &format!("line 23, column 1: totals stands there; {names}"),
    ];
    assert_eq!(all(&text).lines().collect::<Vec<_>>(), lines);
    let wrong = Statement::parse(&text).unwrap_err();
    assert_eq!((wrong.all().len(), wrong.first().line), (lines.len(), 2));
    assert_eq!(wrong.all()[4].fault, Fault::Missing { names: vec!["kappa_1", "bound_C"] });
}

/// One mistake makes no others.
#[test]
fn what_follows_of_a_mistake_is_not_told() {
    let lines = |text: &str| all(text).lines().count();
    // lines and vectors that can be there with another n or r
    let far = "total 1 = s2[4095] + s2[100..4096]\n";
    assert_eq!(lines(&(head().replace("n 2\n", "n x\n") + far)), 1);
    assert_eq!(lines(&(head().replace("r 3\n", "r 0\n") + "total 1 = s15\n")), 1);
    // a name that is missing is told at the first total alone, and one that is given behind it is not told again
    assert_eq!(lines(&(head().replace("L 4\n", "") + "total 1 = s0\ntotal 2 = s0\nL 4\n")), 1);
    // L and log_q are held against each other once, in either order, and not where one of them is wrong
    for (l, log_q) in [("L 3", "log_q 32"), ("L 33", "log_q 16"), ("L 3", "log_q 3")] {
        let text = three().replace("L 4", "X").replace("log_q 32", "Y");
        for (first, second) in [(l, log_q), (log_q, l)] {
            assert_eq!(lines(&text.replace('X', first).replace('Y', second)), 1, "{first}, {second}");
        }
    }
    // the 65th total, and not those behind it
    assert_eq!(lines(&(head() + &"total 1 = s0\n".repeat(70))), 1);
    // a total that is wrong is one
    assert_eq!(lines(&(head() + "total 1 = s9\n")), 1);
    // of a wrong first line nothing more is read
    assert_eq!(lines(&three().replace("statement 1", "statement 2").replace("n 2", "n 65")), 1);
}

#[test]
fn without_any_total() {
    let lacking = all("statement 1\nn 2\n");
    let end = "line 3, column 1: the file's end stands there; ";
    let told: Vec<&str> = lacking.lines().map(|line| line.strip_prefix(end).unwrap()).collect();
    assert!(told.len() == 2 && told[0].starts_with("before the first total stands also r, kappa, "), "{told:?}");
    assert_eq!(told[1], "a statement has 1 to 64 totals");
}

#[test]
fn a_thousand_mistakes_are_told() {
    let text = head() + &"x\n".repeat(5000);
    let wrong = Statement::parse(&text).unwrap_err();
    assert_eq!(wrong.all().len(), 1001);
    assert_eq!(
        wrong.all()[1000].to_string(),
        "line 1019, column 1: x stands there; 1000 mistakes are told before, and the rest is not read"
    );
}

#[test]
fn the_lines_of_totals() {
    let text = three().replace("total -7", "# total\n\n total\t-7") + "total-5=s0";
    assert_eq!(total_lines(&text), [19, 22, 23, 24]);
}

#[test]
fn a_text_is_utf_8() {
    assert_eq!(text_of(b"n 2"), Ok("n 2"));
    let wrong = text_of(b"statement 1\nn \xc3\xa9\xff 2\n").unwrap_err();
    assert_eq!(wrong.to_string(), "line 2, column 4: the byte ff stands there; the file is text in UTF-8");
}

//! What digits leave: of numbers, of elements, and of the cells that an acceptance counts.

use labrador::norms::elements;
use labrador::sections::words_of;
use labrador::{parts_needed, verify, Element, Parameters, Slice, Verdict, Zq, HALF, Q};

use crate::common::{made, with_answer, Case, NOT_BELOW};

#[test]
fn of_numbers() {
    let left = |number, base, parts| Zq(number).digits(base, parts).unwrap().left;
    // 7 is -1 + 2·4
    assert_eq!((left(7, 4, 1), left(7, 4, 2)), (2, 0));
    assert_eq!((left(1234, 10, 2), left(Q - 1234, 10, 2)), (12, 12));
    for base in [2, 3, 256, Q - 1] {
        let needed = parts_needed(base).unwrap();
        assert_eq!(left(HALF, base, needed), 0);
        assert!(needed == 1 || left(HALF, base, needed - 1) > 0, "{base}");
    }
}

#[test]
fn of_elements() {
    let mut sizes = [0; 64];
    sizes[63] = 12;
    let element = Element::monomial(Q - 1234, 63);
    assert_eq!(element.left(10, 2), Ok(sizes));
    assert_eq!(element.left(10, 32), Ok([0; 64]));
    let numbers = Element { coeffs: std::array::from_fn(|k| 67108859 * k as u32) };
    let each = numbers.coeffs.map(|number| Zq(number).digits(3, 5).unwrap().left);
    assert_eq!(numbers.left(3, 5), Ok(each));
}

#[test]
fn refusals_are_those_of_digits() {
    let bad = Element::monomial(Q, 63);
    let told = |base, parts| bad.left(base, parts).unwrap_err().to_string();
    assert_eq!(told(1, 33), format!("refusal 4: the base is 1, not from 2 to {}", Q - 1));
    assert_eq!(told(4, 33), "refusal 4: the number of parts is 33, not from 1 to 32");
    assert_eq!(told(4, 2), format!("refusal 6: word 65 of the operands is {Q}, {NOT_BELOW}"));
}

fn verdict(case: &Case) -> Verdict {
    verify(&case.job, &case.randomness, &case.transcript)
}

/// The cells of a section of the transcript that have something left.
fn cells(p: &Parameters, case: &Case, name: &str, parts: u32) -> u64 {
    let words = words_of(Slice::Transcript, p, name, &case.transcript);
    elements(words).filter(|cell| cell.left(p.b, parts).unwrap() != [0; 64]).count() as u64
}

/// The number that an acceptance states of this base and these parts.
fn stated(b: u32, t_1: u32, t_2: u32) -> u64 {
    let p = Parameters { n: 2, r: 2, b, t_1, t_2, ..Parameters::SMALL };
    let case = made(&p, 8);
    let cells_left = cells(&p, &case, "t", t_1) + cells(&p, &case, "g", t_2) + cells(&p, &case, "h", t_1);
    assert_eq!(verdict(&case), Verdict::Accepted { cells_left }, "{p:?}");
    cells_left
}

#[test]
fn an_acceptance_counts_its_cells() {
    assert!(stated(2, 1, 31) > 0);
    assert!(stated(2, 31, 1) > 0);
    // 8 cells of t, 3 of g and 3 of h
    assert_eq!(stated(2, 1, 1), 14);
    for (base, parts) in [(2, 31), (256, 4), (65536, 2), (Q - 1, 1)] {
        assert_eq!(stated(base, parts, parts), 0, "{base}");
    }
}

#[test]
fn the_number_is_told() {
    let told = |cells_left| Verdict::Accepted { cells_left }.to_string();
    assert_eq!(told(0), "accepted, 0 cells with something left");
    assert_eq!(told(1), "accepted, 1 cell with something left");
    assert_eq!(told(14), "accepted, 14 cells with something left");
    assert_eq!(verdict(&with_answer(0)), Verdict::Accepted { cells_left: 0 });
}

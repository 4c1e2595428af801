//! The table of sections against the loads that the proved call makes.

use labrador::section_one::{SectionOne, COUNT};
use labrador::sections::placed;
use labrador::{load, load_needs, Parameters, Slice};

use crate::common::made;

fn shapes() -> Vec<Parameters> {
    let small = Parameters::SMALL;
    vec![
        small,
        Parameters { n: 1, r: 1, K: 1, l: 0, ..small },
        Parameters { r: 2, K: 0, l: 3, kappa_1: 2, kappa_2: 5, t_1: 3, t_2: 5, ..small },
        Parameters { n: 3, kappa: 8, log_q: 16, L: 8, ..small },
        Parameters { kappa: 1, L: 32, ..small },
        Parameters { n: 2, kappa: 16, log_q: 31, L: 5, ..small },
    ]
}

#[test]
fn every_count_of_a_load_is_the_tables() {
    for p in shapes() {
        let case = made(&p, 3);
        let slices = [&case.job, &case.randomness, &case.witness, &case.transcript];
        for (slice, words) in Slice::ALL.into_iter().zip(slices) {
            let sections = placed(slice, &p);
            for s in &sections {
                assert_eq!(u64::from(words[s.count_at as usize]), s.section.count(), "{p:?} {}", s.section.name);
            }
            assert_eq!(sections.last().map(|s| s.end()), Some(words.len() as u64));
            assert_eq!(slice.length(&p), words.len() as u64);
            assert!(slice.greatest_length() > words.len() as u64);
        }
        let one = SectionOne::read(&case.job).expect("section one");
        assert_eq!(one.parameters, p);
        assert_eq!(one.bounds, [(1 << 96) - 1; 6]);
    }
}

#[test]
fn the_needs_of_a_load_are_the_tables() {
    for p in shapes() {
        let needs = load_needs(&p).expect("fit parameters");
        let lengths = [Slice::Job, Slice::Witness, Slice::Randomness].map(|slice| slice.length(&p));
        assert_eq!([needs.job, needs.witness, needs.randomness], lengths);
    }
}

#[test]
fn a_word_is_told_by_its_axes() {
    let p = Parameters::SMALL;
    let told = |slice, name: &str, index| {
        let section = placed(slice, &p).into_iter().find(|s| s.section.name == name).expect("a section").section;
        let axes = section.told(index);
        axes.iter().map(|(axis, number)| format!("{axis} {number}")).collect::<Vec<_>>().join(", ")
    };
    assert_eq!(told(Slice::Job, "phi'", 64 * (12 + 4) + 17), "constraint 1, vector 1, element 0, coefficient 17");
    assert_eq!(told(Slice::Job, "a", 64 * 4 + 1), "constraint 0, cell (2,1), coefficient 1");
    assert_eq!(told(Slice::Job, "parameters", 0), "field n");
    assert_eq!(told(Slice::Job, "parameters", COUNT as u64 - 1), "field bound_D, word 2");
    assert_eq!(told(Slice::Randomness, "projection", 64 * 4 * 256 + 65), "vector 1, row 0, element 1, coefficient 1");
    assert_eq!(told(Slice::Transcript, "p", 255), "entry 255");
}

#[test]
fn a_load_repeats() {
    let p = Parameters::SMALL;
    assert_eq!(load(&p, 5), load(&p, 5));
    assert_ne!(load(&p, 5), load(&p, 6));
}

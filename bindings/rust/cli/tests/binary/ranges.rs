//! A witness known within ranges.

use std::fs;

use labrador::{Parameters, HALF};

use crate::common::{made, set_bound};
use crate::desk::Desk;
use crate::run::run;

const RANGES: &str = "ranges --job job --lows lows --highs highs";

/// 64·r·n of a small job.
const COUNT: usize = 768;

impl Desk {
    fn put_numbers(&self, name: &str, numbers: &[i64]) {
        let bytes: Vec<u8> = numbers.iter().flat_map(|number| number.to_le_bytes()).collect();
        fs::write(self.path(name), bytes).expect("a file of the test");
    }
}

/// A desk with a job whose bound of A is 256, four elements a vector; each vector's coefficients are within its own range.
fn within(name: &str, ranges: [(i64, i64); 3]) -> Desk {
    let mut case = made(&Parameters::SMALL, 1);
    set_bound(&mut case.job, "bound_A", 256);
    let desk = Desk::with(name, &case);
    desk.put_numbers("lows", &ranges.map(|(low, _)| vec![low; COUNT / 3]).concat());
    desk.put_numbers("highs", &ranges.map(|(_, high)| vec![high; COUNT / 3]).concat());
    desk
}

#[test]
fn all_within_the_bound_is_0() {
    let desk = within("ranges_all", [(0, 1), (-1, 0), (-1, 1)]);
    let told = run(&desk, RANGES);
    let line = |vector| format!("vector {vector}: meets A's bound for every choice (norm from 0 to 256, bound 256)\n");
    assert_eq!((told.status, told.out), (0, [0, 1, 2].map(line).concat()));
    assert_eq!(told.line, "labrador: A's bound is met for every choice by 3 of 3 vectors\n");
}

#[test]
fn a_vector_that_may_miss_the_bound_is_1() {
    let desk = within("ranges_some", [(0, 1), (-2, 0), (3, 3)]);
    let told = run(&desk, RANGES);
    assert_eq!(told.status, 1);
    let lines = [
        "vector 0: meets A's bound for every choice (norm from 0 to 256, bound 256)",
        "vector 1: meets A's bound for some choices but not every (norm from 0 to 1024, bound 256)",
        "vector 2: meets A's bound for no choice (norm from 2304 to 2304, bound 256)",
    ];
    assert_eq!(told.out.lines().collect::<Vec<_>>(), lines);
    let line =
        "A's bound is met for every choice by 1 of 3 vectors, for some choices but not every by 1, for no choice by 1";
    assert_eq!(told.line, format!("labrador: {line}\n"));
    let json = run(&desk, &format!("{RANGES} --json"));
    let vectors = "\"vectors\":[{\"vector\":0,\"meets\":\"every\",\"least\":\"0\",\"greatest\":\"256\"},\
                   {\"vector\":1,\"meets\":\"some\",\"least\":\"0\",\"greatest\":\"1024\"},\
                   {\"vector\":2,\"meets\":\"none\",\"least\":\"2304\",\"greatest\":\"2304\"}],\"bound_A\":\"256\"}";
    assert_eq!((json.status, json.out), (1, format!("{{\"status\":1,\"says\":\"{line}\",{vectors}\n")));
}

#[test]
fn refusals_have_their_place_in_words() {
    let desk = within("ranges_refused", [(0, 1); 3]);
    let told = |call: &str| {
        let ran = run(&desk, call);
        assert_eq!((ran.status, ran.out.as_str()), (2, ""), "{call}");
        ran.line
    };
    let mut lows = vec![0; COUNT];
    lows[5] = 2;
    desk.put_numbers("crossed", &lows);
    let line = "labrador: refusal 36: pair 5 goes from 2 to 1, which is below\n";
    assert_eq!(told(&RANGES.replace("lows lows", "lows crossed")), line);
    lows[700] = -i64::from(HALF) - 1;
    desk.put_numbers("beyond", &lows);
    let line = format!("labrador: refusal 37: pair 700 goes from {} to 1, beyond ±{HALF}\n", lows[700]);
    assert_eq!(told(&RANGES.replace("lows lows", "lows beyond")), line);
    desk.put_numbers("short", &lows[1..]);
    let short = told(&RANGES.replace("highs highs", "highs short"));
    assert_eq!(short, "labrador: refusal 11: there are 767 highs, and 64·r·n is 768\n");
    // more than any job has: the length is the whole file's
    desk.put_numbers("long", &vec![0; 100_000]);
    let long = told(&RANGES.replace("lows lows", "lows long"));
    assert_eq!(long, "labrador: refusal 11: there are 100000 lows, and 64·r·n is 768\n");
    let json = run(&desk, &RANGES.replace("lows lows", "lows crossed --json")).out;
    assert!(json.starts_with("{\"status\":2,") && json.ends_with("\"number\":36,\"place\":5}\n"), "{json}");
    let job = told(&RANGES.replace("--job job", "--job witness"));
    assert!(job.starts_with("labrador: refusal 3: "), "{job}");
}

#[test]
fn files_that_are_no_numbers() {
    let desk = within("ranges_files", [(0, 1); 3]);
    for length in [12, 1001] {
        fs::write(desk.path("odd"), vec![0; length]).unwrap();
        for call in [RANGES.replace("lows lows", "lows odd"), RANGES.replace("highs highs", "highs odd")] {
            let ran = run(&desk, &call);
            let line =
                format!("labrador: odd has {length} bytes, which is no whole number of i64 words (8 bytes each)\n");
            assert_eq!((ran.status, ran.line), (2, line), "{call}");
        }
    }
    fs::create_dir(desk.path("folder")).unwrap();
    for file in ["nothing", "folder"] {
        assert_eq!(run(&desk, &RANGES.replace("lows lows", &format!("lows {file}"))).status, 3, "{file}");
    }
    let endless = run(&desk, &RANGES.replace("lows lows", "lows /dev/zero"));
    assert_eq!(endless.status, 2, "{}", endless.line);
    assert!(endless.line.starts_with("labrador: refusal 11: there are "), "{}", endless.line);
    for call in ["ranges", "ranges --job job --lows lows", &format!("{RANGES} job")] {
        assert_eq!(run(&desk, call).status, 64, "{call}");
    }
}

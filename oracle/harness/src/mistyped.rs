//! Which constant was mistyped: the library's call with the model's.

use crate::instances::{small, Instance, Size, LOOSE};
use crate::random::Random;
use crate::tally::Tally;
use crate::whole::modelled;
use model::checks;
use model::leaves::{add, canonical, centre, mul, neg, Q};
use model::mistyped::{mistyped, smallest, Mistyped};
use model::refusals::Handed;
use model::words::{join, Job, Parameters, Randomness, Transcript, PARAMETERS};

pub const ANSWERS: &str = "answers of the call on mistyped constants";
pub const COUNTS: &str = "entries of a list of mistyped constants";
pub const ORDERS: &str = "neighbours in a list of mistyped constants";
pub const KINDS: &str = "weights of the rows of check 22";

/// The comparisons.
pub const LISTS: &str = "library: the list of mistyped constants with the model's";
pub const PLANTED: &str = "model: answers of the call on mistyped constants with what was planted";
pub const MENDED: &str = "model: check 22 with each entry's number put in";
pub const SEARCHED: &str = "model: the smallest number with a search by rising size";
pub const ORDERED: &str = "model: which of two entries of a list comes first, from document 02's words";

const SPARE: usize = 7;
const MARK: u32 = 0xc0de_c0de;

/// Divisors of 2^32 − 1: its primes and products of them.
const DIVISORS: [u32; 10] = [3, 5, 17, 257, 65537, 15, 51, 255, 65535, 1431655765];

/// What is handed to the call.
#[derive(Clone)]
struct Given {
    job: Vec<u32>,
    randomness: Vec<u32>,
    transcript: Vec<u32>,
    scratch: usize,
    list: usize,
}

impl Given {
    fn new(instance: &Instance, sent: &Transcript) -> Self {
        Given {
            job: instance.job_words(),
            randomness: instance.randomness_words(),
            transcript: join(&sent.sections()),
            scratch: instance.parameters.scratch_need(),
            list: 2 * instance.parameters.constant,
        }
    }

    fn model(&self) -> Mistyped {
        mistyped(Handed {
            job: &self.job,
            randomness: &self.randomness,
            third: &self.transcript,
            scratch: self.scratch,
            output: self.list,
        })
    }

    /// The library's answer; the words of scratch and list that must stay or be zero are looked at here.
    fn library(&self, worked: bool) -> (u32, u64, u64, Option<Vec<u32>>) {
        let mut scratch = vec![MARK; self.scratch + SPARE];
        let mut list = vec![MARK; self.list + SPARE];
        let need = if worked { Parameters::read(&self.job[1..1 + PARAMETERS]).scratch_need() } else { 0 };
        let (number, place, entries) = library::mistyped::mistyped(library::Handed {
            job: &self.job,
            randomness: &self.randomness,
            third: &self.transcript,
            scratch: &mut scratch[..self.scratch],
            output: &mut list[..self.list],
        });
        let stays = |words: &[u32]| words.iter().all(|&w| w == MARK);
        assert!(scratch[..need].iter().all(|&w| w == 0) && stays(&scratch[need..]), "the scratch");
        let need = if worked { 2 * self.job[7] as usize } else { 0 };
        assert!(stays(&list[need..]), "words beyond the list");
        list.truncate(need);
        (number, place, entries, worked.then_some(list))
    }
}

fn compare(tally: &mut Tally, purpose: &str, given: &Given) -> Mistyped {
    let expected = given.model();
    let ours = given.library(expected.list.is_some());
    let theirs = (expected.number, expected.place, expected.entries, expected.list.clone());
    tally.compare(LISTS, &ours, &theirs, || {
        format!("{purpose}: {:?}", given.job.get(1..1 + PARAMETERS).map(Parameters::read))
    });
    tally.occurred(ANSWERS, format!("{:>2}", expected.number));
    if expected.number == 0 {
        tally.occurred(COUNTS, expected.entries.min(4));
        in_order(tally, &expected);
    }
    expected
}

/// How an entry stands to the one after it. The first is what equal sizes were ordered by before Item 12.
const NEIGHBOURS: [&str; 5] = [
    "a negative number of a higher index before a positive one of its size",
    "a negative number of a lower index before a positive one of its size",
    "two negative numbers of one size",
    "two positive numbers of one size",
    "a smaller size",
];

/// Two entries, each an index and a centred number, in the order that "Smallest size still leads", "negative numbers first,
/// then by lower l" asks for, or none where it asks for the other one.
fn neighbours(first: (u32, i64), second: (u32, i64)) -> Option<&'static str> {
    let by_index = |kind: usize| (first.0 < second.0).then_some(NEIGHBOURS[kind]);
    if first.1.abs() != second.1.abs() {
        return (first.1.abs() < second.1.abs()).then_some(NEIGHBOURS[4]);
    }
    match (first.1 < 0, second.1 < 0) {
        (true, false) if first.0 > second.0 => Some(NEIGHBOURS[0]),
        (true, false) => Some(NEIGHBOURS[1]),
        (false, true) => None,
        (true, true) => by_index(2),
        (false, false) => by_index(3),
    }
}

/// Each entry with the one after it.
fn in_order(tally: &mut Tally, told: &Mistyped) {
    let list = told.list.as_deref().unwrap_or_default();
    let entries: Vec<(u32, i64)> =
        list.chunks(2).take(told.entries as usize).map(|entry| (entry[0], centre(entry[1]))).collect();
    for pair in entries.windows(2) {
        let kind = neighbours(pair[0], pair[1]);
        tally.compare(ORDERED, &kind.is_some(), &true, || format!("{entries:?}"));
        if let Some(kind) = kind {
            tally.occurred(ORDERS, kind);
        }
    }
}

/// Check 22 with each entry's number put in: no row is left.
fn put_in(tally: &mut Tally, given: &Given, told: &Mistyped) {
    let Some(list) = &told.list else { return };
    let p = Parameters::read(&given.job[1..1 + PARAMETERS]);
    let x = Randomness::read(&p, &given.randomness);
    let sent = Transcript::read(&p, &given.transcript);
    for entry in list.chunks(2).take(told.entries as usize) {
        let mut job = Job::read(&given.job);
        job.b0[entry[0] as usize] = add(job.b0[entry[0] as usize], entry[1]);
        let left = (0..p.aggregations)
            .filter(|&k| {
                let (value, computed) = checks::row_values(&job, &x, k, &sent.b2, &sent.p);
                value != computed
            })
            .count();
        tally.compare(MENDED, &left, &0, || format!("{entry:?}"));
    }
}

/// An answer that is known beforehand.
fn planted(tally: &mut Tally, purpose: &str, given: &Given, aim: (u32, usize)) {
    let told = compare(tally, purpose, given);
    tally.compare(PLANTED, &(told.number, told.place), &(aim.0, aim.1 as u64), || format!("{purpose}: {aim:?}"));
}

/// How the weights of the rows are made.
#[derive(Clone, Copy, Debug)]
enum Weights {
    Drawn,
    /// Multiples of one of the divisors.
    Multiples,
    /// The first index's column at every index, as it is or negated.
    Alike,
    /// Both.
    AlikeMultiples,
    /// Zero in some rows.
    SomeZero,
    /// Each index one of the divisors times the first.
    Multiplied,
    /// Each index the first one's column times 1, 3 or 5, as it is or negated: several sizes, each with both signs.
    Tied,
}

const WEIGHTS: [Weights; 7] = [
    Weights::Drawn,
    Weights::Multiples,
    Weights::Alike,
    Weights::AlikeMultiples,
    Weights::SomeZero,
    Weights::Multiplied,
    Weights::Tied,
];

/// Sets the rows of psi.
fn weigh(random: &mut Random, instance: &mut Instance, weights: Weights) {
    let l = instance.parameters.constant;
    let factor = random.pick(&DIVISORS);
    let signs: Vec<bool> = (0..l).map(|_| random.below(2) == 0).collect();
    for (k, row) in instance.randomness[1].chunks_mut(l.max(1)).enumerate() {
        match weights {
            Weights::Drawn => {}
            Weights::Multiples => row.iter_mut().for_each(|w| *w = mul(*w, factor)),
            Weights::Alike | Weights::AlikeMultiples => {
                let times = if matches!(weights, Weights::Alike) { 1 } else { factor };
                let first = mul(row[0], times);
                for (w, &negated) in row.iter_mut().zip(&signs) {
                    *w = if negated { neg(first) } else { first };
                }
            }
            Weights::SomeZero => {
                if (k + signs.len()).is_multiple_of(3) {
                    row.fill(0);
                }
            }
            Weights::Multiplied => {
                let first = row[0];
                for (i, w) in row.iter_mut().enumerate().skip(1) {
                    *w = mul(first, DIVISORS[i % DIVISORS.len()]);
                }
            }
            Weights::Tied => {
                let first = row[0];
                for (i, (w, &negated)) in row.iter_mut().zip(&signs).enumerate() {
                    let times = mul(first, [1, 3, 5][i / 2 % 3]);
                    *w = if negated { neg(times) } else { times };
                }
            }
        }
    }
}

/// A number to be added to a constant, small ones and small multiples of 15 more often.
fn error(random: &mut Random) -> u32 {
    match random.below(4) {
        0 => canonical(random.below(41) as i64 - 20),
        1 => canonical(15 * (random.below(41) as i64 - 20)),
        2 => mul(random.pick(&DIVISORS), random.number()),
        _ => random.number(),
    }
}

/// One wrong constant, then two, then a wrong constant coefficient of b''; with the list longer than needed too.
fn wrong(tally: &mut Tally, random: &mut Random, instance: &Instance, sent: &Transcript) {
    let l = instance.parameters.constant;
    let mut changed = instance.clone();
    for round in 0..3 {
        if l > 0 && round < 2 {
            let at = random.below(l);
            let error = error(random);
            changed.job[2][at] = add(changed.job[2][at], error);
        }
        let mut sent = sent.clone();
        if round == 2 {
            let k = random.below(sent.b2.len());
            sent.b2[k][0] = add(sent.b2[k][0], 1 + random.below(5) as u32);
        }
        let mut given = Given::new(&changed, &sent);
        given.list += random.below(3);
        given.scratch += random.below(3);
        let told = compare(tally, "wrong constants", &given);
        put_in(tally, &given, &told);
    }
}

/// Each verdict that is not a 22, and the refusals before the work.
fn others(tally: &mut Tally, random: &mut Random, instance: &Instance, sent: &Transcript) {
    let given = Given::new(instance, sent);
    planted(tally, "a good transcript", &given, (32, 0));
    let figures = instance.figures(sent);
    for (k, number) in [(1, 14), (2, 15), (3, 16)] {
        if figures.digits[k - 1] > 0 {
            let mut tight = instance.clone();
            tight.parameters.bounds[k] = (figures.digits[k - 1] - 1).min(LOOSE);
            planted(tally, "a bound below its figure", &Given::new(&tight, sent), (number, 0));
        }
    }
    for section in [0, 1, 3, 4, 5, 6, 7] {
        let mut sections = sent.sections();
        let at = random.below(sections[section].len());
        sections[section][at] = add(sections[section][at], 1);
        let mut damaged = given.clone();
        damaged.transcript = join(&sections);
        compare(tally, "a damaged section", &damaged);
    }
    unfit(tally, &given, &instance.parameters);
}

fn unfit(tally: &mut Tally, given: &Given, p: &Parameters) {
    let set = |words: &[u32], at: usize, word: u32| {
        let mut words = words.to_vec();
        words[at] = word;
        words
    };
    let last = given.job.len() - 1;
    let changed = |change: &dyn Fn(&mut Given)| {
        let mut given = given.clone();
        change(&mut given);
        given
    };
    let need = 2 * p.constant;
    let mut faults = vec![
        (changed(&|g| g.job.clear()), (3, 0)),
        (changed(&|g| g.job = set(&g.job, 1, 65)), (4, 1)),
        (changed(&|g| g.job = set(&g.job, 12, 1)), (5, 12)),
        (changed(&|g| g.job = set(&g.job, last, Q)), (6, last)),
        (changed(&|g| g.randomness.clear()), (7, 0)),
        (changed(&|g| g.randomness = set(&g.randomness, 1, Q)), (8, 1)),
        (changed(&|g| g.transcript.clear()), (9, 0)),
        (changed(&|g| g.transcript = set(&g.transcript, 1, Q)), (10, 1)),
        (changed(&|g| g.scratch -= 1), (1, p.scratch_need())),
    ];
    if need > 0 {
        faults.push((changed(&|g| g.list = need - 1), (2, need)));
        faults.push((changed(&|g| g.list = 0), (2, need)));
    }
    for (fault, aim) in faults {
        planted(tally, "one fault", &fault, aim);
        // every other refusal comes before 2
        let mut short = fault.clone();
        short.list = 0;
        planted(tally, "one fault and no list", &short, aim);
    }
}

/// The model's smallest number with a search: 0, 1, −1, 2, −2, …
fn searched(tally: &mut Tally, random: &mut Random) {
    let weight = mul(random.pick(&DIVISORS), random.number());
    let other = mul(random.pick(&DIVISORS), random.number());
    let x = canonical(random.below(401) as i64 - 200);
    let rows = [(weight, mul(weight, x)), (other, mul(other, x))];
    let solves = |x: u32| rows.iter().all(|&(weight, error)| mul(weight, x) == error);
    let by_size = (0..=200_i64).flat_map(|size| [canonical(size), canonical(-size)]);
    let found = by_size.into_iter().find(|&x| solves(x));
    tally.compare(SEARCHED, &smallest(&rows), &found, || format!("{rows:?}"));
}

/// All cases, on `count` random jobs.
pub fn all(tally: &mut Tally, random: &mut Random, count: usize) {
    tally.must_compare(&[LISTS, PLANTED, MENDED, SEARCHED, ORDERED]);
    for kind in NEIGHBOURS {
        tally.must_occur(ORDERS, kind);
    }
    for number in (0..=10).chain([14, 15, 16, 32, 33]) {
        tally.must_occur(ANSWERS, format!("{number:>2}"));
    }
    for entries in 1..=4 {
        tally.must_occur(COUNTS, entries);
    }
    for i in 0..count {
        searched(tally, random);
        let mut parameters = small(random, i);
        parameters.constant = [1, 2, 4, 6, 0, 3, 5, 6][i % 8];
        let weights = WEIGHTS[i % WEIGHTS.len()];
        tally.occurred(KINDS, format!("{weights:?}"));
        let mut instance = Instance::random(random, parameters, Size::Bits(2));
        weigh(random, &mut instance, weights);
        let sent = modelled(&instance);
        wrong(tally, random, &instance, &sent);
        if i < 8 {
            others(tally, random, &instance, &sent);
        }
    }
    for weights in WEIGHTS {
        tally.must_occur(KINDS, format!("{weights:?}"));
    }
}

/// The number of recorded cases.
const RECORDED: u32 = 20;

/// What recorded case k hands to the call: a load with five constants, whose columns of psi are alike, negated and multiplied, from case 16 on with the signs in
/// turn; the constants wrong after.
fn recorded(k: u32) -> Given {
    let sizes = [1, 1, 4, 1, 1, 1, 5, 32, 256, 4, 4, 4];
    let lengths = model::load::needs(sizes).expect("parameters within their limits");
    let made = model::load::load(sizes, k, lengths).expect("the buffers are long enough");
    let p = Parameters::read(&made.job[1..1 + PARAMETERS]);
    let mut randomness = made.randomness;
    let psi = 2 + 16384 * p.n * p.r;
    let factor = [1, 3, 5, 17, 257, 65537, 255, 65535][k as usize % 8];
    for row in randomness[psi..psi + p.aggregations * 5].chunks_mut(5) {
        let first = mul(row[0], factor);
        let columns = if k < 16 {
            [first, first, neg(first), mul(first, 3), row[4]]
        } else {
            [first, neg(first), first, neg(first), mul(first, 3)]
        };
        row.copy_from_slice(&columns);
    }
    if k % 4 == 3 {
        randomness[psi..psi + 5].fill(0);
    }
    if k == 13 {
        randomness[psi..psi + p.aggregations * 5].fill(0);
    }
    let job = Job::read(&made.job);
    let s = model::words::read_witness(&p, &made.witness);
    let sent = model::formulas::transcript(&job, &Randomness::read(&p, &randomness), &s).0;
    let mut transcript = join(&sent.sections());
    let mut job = made.job;
    let b0 = 1 + PARAMETERS + p.job_counts()[1..3].iter().map(|count| 1 + count).sum::<usize>() + 1;
    let error = [7, neg(7), 3, neg(65537), 1000003, neg(1)][k as usize % 6];
    let at = b0 + k as usize % 5;
    if k != 15 {
        job[at] = add(job[at], error);
    }
    if k == 12 {
        job[b0 + 4] = add(job[b0 + 4], 11);
    }
    if k == 13 {
        let at = 1 + 64 * p.kappa1 + 1 + 256 + 1;
        transcript[at] = add(transcript[at], 1);
    }
    Given {
        scratch: p.scratch_need(),
        list: if k == 14 { 9 } else { 10 + k as usize % 2 },
        job,
        randomness,
        transcript,
    }
}

/// The model's answers to the recorded cases as rows of `bindings/test.c`: number, place, entries, and the first ten words of the list.
pub fn print_sums() {
    for k in 0..RECORDED {
        let told = recorded(k).model();
        let listed = match told.list {
            Some(words) => words.iter().map(|w| format!("{w}u")).collect(),
            None => vec!["MARK".to_string(); 10],
        }
        .join(", ");
        println!("    {{{}, {}, {}, {{{listed}}}}},", told.number, told.place, told.entries);
    }
}

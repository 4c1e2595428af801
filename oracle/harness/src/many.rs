//! Many transcripts, one reading of the job: the library's call with the model's, and each verdict with the library's single call.

use crate::instances::{apart, one_kind, small, Instance, Size, LOOSE};
use crate::random::Random;
use crate::tally::Tally;
use crate::whole::modelled;
use model::leaves::{add, HALF, Q};
use model::many::{part, verify_many, Many, UNUSED};
use model::words::{join, Parameters, Transcript, PARAMETERS};
use model::{Answer, Call};

pub const ANSWERS: &str = "answers of the call on many transcripts";
pub const VERDICTS: &str = "verdicts of the call on many transcripts";
pub const COUNTS: &str = "numbers of transcripts";

/// The comparisons.
pub const MANY: &str = "library: the call on many transcripts with the model's";
pub const SINGLE: &str = "library: each verdict of many with the library's single call";
pub const PLANTED: &str = "model: answers of the call on many transcripts with what was planted";

/// Guard words before and behind the scratch.
const GUARD: usize = 9;

/// What is handed to the call.
#[derive(Clone)]
struct Given {
    job: Vec<u32>,
    count: u32,
    randomness: Vec<u32>,
    transcripts: Vec<u32>,
    scratch: usize,
}

/// A job with randomness and transcripts of its own length each.
struct Desk {
    parameters: Parameters,
    job: Vec<u32>,
    randomness: Vec<Vec<u32>>,
    sent: Vec<Transcript>,
    /// The norms of the digits of t, g and h of each.
    digits: Vec<[u128; 3]>,
}

impl Desk {
    fn given(&self, order: &[usize]) -> Given {
        let words = |m: usize| join(&self.sent[m].sections());
        Given {
            job: self.job.clone(),
            count: order.len() as u32,
            randomness: order.iter().flat_map(|&m| self.randomness[m].clone()).collect(),
            transcripts: order.iter().flat_map(|&m| words(m)).collect(),
            scratch: order.len() * self.parameters.scratch_need(),
        }
    }

    /// The lengths of one randomness and one transcript.
    fn lengths(&self) -> (usize, usize) {
        (self.randomness[0].len(), join(&self.sent[0].sections()).len())
    }
}

fn shown(given: &Given) -> String {
    let sizes = given.job.get(1..1 + PARAMETERS).map(Parameters::read);
    format!(
        "{} transcripts, {} words of randomness and {} of transcripts, {sizes:?}",
        given.count,
        given.randomness.len(),
        given.transcripts.len()
    )
}

/// The single call of the library with a part of each slice and enough scratch.
fn single(given: &Given, m: usize) -> Answer {
    let p = Parameters::read(&given.job[1..1 + PARAMETERS]);
    let length = |counts: Vec<usize>| counts.iter().map(|count| 1 + count).sum();
    let count = given.count as usize;
    let mut scratch = vec![0; p.scratch_need()];
    library::whole(
        Call::Verify,
        library::Handed {
            job: &given.job,
            randomness: part(&given.randomness, length(p.randomness_counts()), count, m),
            third: part(&given.transcripts, length(p.transcript_counts()), count, m),
            scratch: &mut scratch,
            output: &mut [],
        },
    )
}

fn compare(tally: &mut Tally, random: &mut Random, purpose: &str, given: &Given) -> Many {
    let Given { job, count, randomness, transcripts, scratch } = given;
    let expected = verify_many(job, *count, randomness, transcripts, *scratch);
    let before: Vec<u32> = (0..scratch + 2 * GUARD).map(|_| random.word()).collect();
    let mut after = before.clone();
    let ours = library::many::verify_many(job, *count, randomness, transcripts, &mut after[GUARD..GUARD + scratch]);
    let mut left = before;
    if expected.number == 0 {
        let need = *count as usize * Parameters::read(&job[1..1 + PARAMETERS]).scratch_need();
        left[GUARD..GUARD + need].fill(0);
    }
    tally.compare(MANY, &(ours, after == left), &(expected, true), || format!("{purpose}: {}", shown(given)));
    tally.occurred(ANSWERS, format!("{:>2}", expected.number));
    if expected.number == 0 {
        tally.occurred(COUNTS, count);
        for (m, verdict) in ours.verdicts[..*count as usize].iter().enumerate() {
            tally.compare(SINGLE, verdict, &single(given, m), || format!("{purpose}, {m}: {}", shown(given)));
        }
        for verdict in expected.verdicts {
            tally.occurred(VERDICTS, verdict_row(verdict.number));
        }
    }
    expected
}

fn verdict_row(number: u32) -> String {
    if number == UNUSED {
        "unused".to_string()
    } else {
        format!("{number:>2}")
    }
}

/// Verdicts' numbers and places that are known beforehand, by transcript.
fn planted(tally: &mut Tally, random: &mut Random, purpose: &str, given: &Given, aims: &[(u32, usize)]) {
    let told = compare(tally, random, purpose, given);
    let numbers: Vec<(u32, usize)> =
        told.verdicts.iter().take(aims.len()).map(|v| (v.number, v.place as usize)).collect();
    tally.compare(PLANTED, &(told.number, &numbers[..]), &(0, aims), || format!("{purpose}: {}", shown(given)));
    let unused = told.verdicts[aims.len()..].iter().all(|v| *v == Answer { number: UNUSED, ..Answer::FINE });
    tally.compare(PLANTED, &unused, &true, || format!("{purpose}: verdicts past {}", aims.len()));
}

fn refused(tally: &mut Tally, random: &mut Random, purpose: &str, given: &Given, aim: (u32, usize)) {
    let told = compare(tally, random, purpose, given);
    let zeros = told.verdicts == [Answer::FINE; 8];
    tally.compare(PLANTED, &(told.number, told.place, zeros), &(aim.0, aim.1 as u64, true), || {
        format!("{purpose}: {}", shown(given))
    });
}

/// How the transcripts of a desk differ.
#[derive(Clone, Copy, PartialEq)]
enum Kind {
    /// One witness, other randomness for each: all are accepted.
    OneWitness,
    /// Constraints that say nothing, and a witness for each: all are accepted.
    Witnesses,
    /// As that, with the bound of B (0), C (1) or D (2) in the middle of what the transcripts have.
    Bound(usize),
    /// A witness for each under constraints that the first meets.
    Unmet,
}

/// Small sizes: from n 5 on the rows of A are taken by kept transforms.
fn narrow(random: &mut Random, mut parameters: Parameters, kind: Kind) -> Parameters {
    (parameters.n, parameters.r) = (random.pick(&[1, 2, 5]), 1 + random.below(2));
    if parameters.ring > 0 {
        parameters.ring = 1 + random.below(4);
    }
    if kind == Kind::OneWitness || kind == Kind::Witnesses {
        // a base in which a large z has a large second part
        parameters.b = random.pick(&[2, 3, 4, 7, 10, 16, 255, 256]);
    }
    parameters
}

/// Sizes at which the rows of B, C and D are taken by transforms for all transcripts together, and vectors are summed with the challenges.
fn wide(random: &mut Random) -> Parameters {
    Parameters {
        n: 20,
        r: 3,
        ring: 2,
        constant: 2,
        log_q: 32,
        kappa: 4,
        kappa1: 3,
        kappa2: 3,
        b: random.pick(&[3, 256, 65538]),
        t1: 4,
        t2: 4,
        aggregations: 4,
        ..small(random, 0)
    }
}

/// Eight transcripts for one job; the limits of 21 and 23 are those that the transcripts themselves reach, and a little more.
fn desk(random: &mut Random, mut parameters: Parameters, kind: Kind) -> Desk {
    let mut first = Instance::random(random, parameters, Size::Bits(2));
    if matches!(kind, Kind::Witnesses | Kind::Bound(_)) {
        first.job[..6].iter_mut().for_each(|section| section.fill(0));
    }
    let mut made = vec![];
    for m in 0..8 {
        let mut instance = first.clone();
        let drawn = Instance::random(random, parameters, Size::Bits(1 + m % 3));
        instance.randomness = drawn.randomness;
        if kind != Kind::OneWitness && m > 0 {
            instance.witness = drawn.witness;
        }
        let sent = modelled(&instance);
        let figures = instance.figures(&sent);
        made.push((instance.randomness_words(), sent, figures));
    }
    let most = |f: &dyn Fn(&crate::instances::Figures) -> u128| made.iter().map(|(_, _, x)| f(x)).max().expect("eight");
    parameters.beta_sq = most(&|x| x.projection) / 128 + 1;
    parameters.beta_prime_sq = (most(&|x| x.sum) + (1 << 40)).min(LOOSE);
    if let Kind::Bound(k) = kind {
        let mut norms: Vec<u128> = made.iter().map(|(_, _, x)| x.digits[k]).collect();
        norms.sort();
        parameters.bounds[1 + k] = norms[3];
    }
    first.parameters = parameters;
    let digits = made.iter().map(|(_, _, x)| x.digits).collect();
    let (randomness, sent) = made.into_iter().map(|(randomness, sent, _)| (randomness, sent)).unzip();
    Desk { parameters, job: first.job_words(), randomness, sent, digits }
}

/// What is done to one transcript, or to its randomness, to get an answer.
const DAMAGES: [u32; 13] = [7, 8, 9, 10, 21, 22, 23, 24, 25, 26, 27, 28, 29];

/// Damages transcript m, in place, and gives the place of its refusal.
fn damage(random: &mut Random, desk: &Desk, given: &mut Given, m: usize, number: u32) -> usize {
    let p = &desk.parameters;
    let (each, sent) = desk.lengths();
    let starts = |counts: Vec<usize>| -> Vec<usize> {
        counts.iter().scan(0, |at, count| Some(std::mem::replace(at, *at + 1 + count))).collect()
    };
    let (drawn, written) = (starts(p.randomness_counts()), starts(p.transcript_counts()));
    let randomness = &mut given.randomness[each * m..each * (m + 1)];
    let transcript = &mut given.transcripts[sent * m..sent * (m + 1)];
    let raise = |word: &mut u32| *word = add(*word, 1);
    match number {
        7 => {
            let place = random.pick(&drawn);
            randomness[place] += 1;
            place
        }
        8 => {
            let place = random.pick(&[1, drawn[2] + 1, drawn[5] + 1, drawn[6] - 1]);
            randomness[place] = Q;
            place
        }
        9 => {
            let place = random.pick(&written);
            transcript[place] = random.word() | 1;
            place
        }
        10 => {
            let place = random.pick(&[1, written[4] + 1, sent - 1]);
            transcript[place] = Q;
            place
        }
        21 => {
            transcript[written[1] + 1..written[2]].fill(HALF);
            0
        }
        23 => {
            transcript[written[4] + 1..written[5]].fill(HALF);
            0
        }
        // the constant coefficient of any row of b'', then any other one
        22 => {
            raise(&mut transcript[written[2] + 1 + 64 * random.below(p.aggregations)]);
            0
        }
        27 => {
            raise(&mut transcript[written[2] + 2 + 64 * random.below(p.aggregations) + random.below(63)]);
            0
        }
        // any word of t, g, h, u1 or u2
        _ => {
            let section = [5, 6, 7, 0, 3][[24, 25, 26, 28, 29].iter().position(|&n| n == number).expect("a check")];
            let end = written.get(section + 1).copied().unwrap_or(sent);
            raise(&mut transcript[written[section] + 1 + random.below(end - written[section] - 1)]);
            0
        }
    }
}

/// All good, in several numbers and orders.
fn good(tally: &mut Tally, random: &mut Random, desk: &Desk) {
    for count in [1, 2, 8, 3 + random.below(5)] {
        let mut order: Vec<usize> = (0..8).collect();
        (0..8).for_each(|k| order.swap(k, random.below(8)));
        let mut given = desk.given(&order[..count]);
        given.scratch += random.below(3);
        planted(tally, random, "all good", &given, &vec![(0, 0); count]);
    }
}

/// Digits above a bound, of some and not of others.
fn above(tally: &mut Tally, random: &mut Random, desk: &Desk, k: usize) {
    let given = desk.given(&[0, 1, 2, 3, 4, 5, 6, 7]);
    let is_above = |digits: &[u128; 3]| digits[k] > desk.parameters.bounds[1 + k];
    let aims: Vec<(u32, usize)> =
        desk.digits.iter().map(|digits| (if is_above(digits) { 14 + k as u32 } else { 0 }, 0)).collect();
    planted(tally, random, "digits above a bound", &given, &aims);
}

/// Each damage to one of them among good ones, then one for every transcript.
fn damaged(tally: &mut Tally, random: &mut Random, desk: &Desk) {
    let order: Vec<usize> = (0..8).collect();
    for number in DAMAGES {
        let count = 1 + random.below(4);
        let m = random.below(count);
        let mut given = desk.given(&order[..count]);
        let mut aims = vec![(0, 0); count];
        aims[m].1 = damage(random, desk, &mut given, m, number);
        aims[m].0 = number;
        planted(tally, random, "one of them damaged", &given, &aims);
    }
    for _ in 0..3 {
        let mut given = desk.given(&order);
        let mut aims = vec![(0, 0); 8];
        for (m, aim) in aims.iter_mut().enumerate().filter(|(m, _)| m % 4 != 1) {
            aim.0 = random.pick(&DAMAGES);
            aim.1 = damage(random, desk, &mut given, m, aim.0);
        }
        planted(tally, random, "most of them damaged", &given, &aims);
    }
    let mut given = desk.given(&order);
    given.transcripts.fill(Q);
    planted(tally, random, "all refused", &given, &[(9, 0); 8]);
    given.randomness.fill(Q);
    planted(tally, random, "all refused", &given, &[(7, 0); 8]);
}

/// Slices that end early or go on: in the last transcript, in the first, nowhere, behind the end.
fn cut(tally: &mut Tally, random: &mut Random, desk: &Desk) {
    let count = 1 + random.below(4);
    let order: Vec<usize> = (0..count).collect();
    let (each, sent) = desk.lengths();
    let ends = |one: usize| {
        let all = count * one;
        [0, 1, one / 2, one - 1, one, one + 1, all - one, all - one / 3, all - 1, all + 1, all + 70]
    };
    for (randomness_end, end) in ends(each).into_iter().zip(ends(sent)) {
        for which in 0..3 {
            let mut given = desk.given(&order);
            let mut aims = vec![(0, 0); count];
            if which != 1 {
                given.transcripts.resize(end, 7);
                early(&mut aims, sent, end, 9);
            }
            if which != 0 {
                given.randomness.resize(randomness_end, 7);
                early(&mut aims, each, randomness_end, 7);
            }
            planted(tally, random, "slices cut", &given, &aims);
        }
    }
    // more and fewer than there are
    let mut given = desk.given(&order);
    given.count += 1;
    given.scratch += desk.parameters.scratch_need();
    let mut aims = vec![(0, 0); count];
    aims.push((7, 0));
    planted(tally, random, "one transcript more than there are", &given, &aims);
    if count > 1 {
        given.count -= 2;
        let mut aims = vec![(0, 0); count - 1];
        aims[count - 2] = (7, each);
        planted(tally, random, "one transcript less than there are", &given, &aims);
    }
}

/// The layout refusals of parts of a length whose slice ends there.
fn early(aims: &mut [(u32, usize)], length: usize, end: usize, number: u32) {
    let last = aims.len() - 1;
    for (m, aim) in aims.iter_mut().enumerate() {
        let part = end.saturating_sub(m * length);
        if part < length {
            *aim = (number, part);
        } else if m == last && part > length {
            *aim = (number, length);
        }
    }
}

/// Refusals of the whole call in their order, which touch nothing.
fn whole_call(tally: &mut Tally, random: &mut Random, desk: &Desk) {
    let order: Vec<usize> = (0..1 + random.below(8)).collect();
    let given = desk.given(&order);
    let need = given.scratch;
    let last = given.job.len() - 1;
    let changed = |change: &dyn Fn(&mut Given)| {
        let mut given = given.clone();
        change(&mut given);
        given
    };
    let mut faults = vec![];
    for count in [0, 9, 10, u32::MAX] {
        faults.push((changed(&|g| g.count = count), (35, 0)));
    }
    faults.extend([
        (changed(&|g| g.job.clear()), (3, 0)),
        (changed(&|g| g.job[1] = 65), (4, 1)),
        (changed(&|g| g.job[12] = 1), (5, 12)),
        (changed(&|g| g.job.truncate(last)), (3, last)),
        (changed(&|g| g.job.push(0)), (3, last + 1)),
        (changed(&|g| g.job[last] = Q), (6, last)),
        (changed(&|g| g.scratch -= 1), (1, need)),
        (changed(&|g| g.scratch = 0), (1, need)),
        (changed(&|g| g.scratch = need / g.count as usize - 1), (1, need)),
    ]);
    for (k, (fault, aim)) in faults.iter().enumerate() {
        refused(tally, random, "one fault", fault, *aim);
        // each comes before what is tested after it
        let mut more = fault.clone();
        more.randomness.clear();
        more.transcripts.truncate(1);
        refused(tally, random, "a fault and unfit slices", &more, *aim);
        more.scratch = 0;
        refused(tally, random, "a fault and no scratch", &more, *aim);
        if k < 4 {
            more.job.clear();
            refused(tally, random, "a number of transcripts and no job", &more, *aim);
        }
    }
}

/// Words changed anywhere, any number of transcripts.
fn anything(tally: &mut Tally, random: &mut Random, desk: &Desk) {
    let count = 1 + random.below(8);
    let order: Vec<usize> = (0..count).map(|_| random.below(8)).collect();
    let mut given = desk.given(&order);
    for _ in 0..random.below(4) {
        let words = if random.below(3) == 0 { &mut given.randomness } else { &mut given.transcripts };
        let at = random.below(words.len());
        words[at] = random.pick(&[Q, 0, add(words[at] % Q, 1), words[at] ^ 1]);
    }
    if random.below(3) == 0 {
        given.count = random.below(10) as u32;
    }
    if random.below(4) == 0 {
        let at = random.below(given.job.len());
        given.job[at] = random.pick(&[Q, 0, add(given.job[at] % Q, 1)]);
    }
    given.scratch = (given.scratch + 1 - random.below(3)).max(1);
    compare(tally, random, "words changed", &given);
}

/// All cases, on `count` random jobs.
pub fn all(tally: &mut Tally, random: &mut Random, count: usize) {
    tally.must_compare(&[MANY, SINGLE, PLANTED]);
    for number in [0, 1, 3, 4, 5, 6, 35] {
        tally.must_occur(ANSWERS, format!("{number:>2}"));
    }
    for number in [0, 14, 15, 16, UNUSED].into_iter().chain(DAMAGES) {
        tally.must_occur(VERDICTS, verdict_row(number));
    }
    for number in 1..=8 {
        tally.must_occur(COUNTS, number);
    }
    for i in 0..count {
        let parameters = match i / 4 % 3 {
            0 => small(random, 5 * i),
            1 => one_kind(random, i),
            _ => apart(random, i),
        };
        let kind = [Kind::OneWitness, Kind::Witnesses, Kind::Bound(i / 4 % 3), Kind::Unmet][i % 4];
        let parameters = narrow(random, parameters, kind);
        let desk = desk(random, parameters, kind);
        if let Kind::Bound(k) = kind {
            above(tally, random, &desk, k);
        }
        if kind == Kind::OneWitness || kind == Kind::Witnesses {
            good(tally, random, &desk);
            damaged(tally, random, &desk);
            cut(tally, random, &desk);
            whole_call(tally, random, &desk);
        }
        for _ in 0..6 {
            anything(tally, random, &desk);
        }
    }
    for _ in 0..count.div_ceil(20) {
        let parameters = wide(random);
        let desk = desk(random, parameters, Kind::OneWitness);
        good(tally, random, &desk);
        damaged(tally, random, &desk);
    }
}

//! Projection worked by shed: the library's calls on runs of witness vectors with the model's, and their sums with the whole call's transcript.

use crate::instances::{apart, one_kind, small, Instance, Size};
use crate::random::Random;
use crate::tally::Tally;
use crate::whole::modelled;
use model::leaves::{HALF, Q};
use model::sheds::{add_projections, shed_projection, shed_rows, Made, Run};
use model::words::{join, split, Parameters, PARAMETERS};
use model::{Answer, Call};
use std::slice::from_ref;

pub const RUNS: &str = "answers of the calls on a run";
pub const ADDED: &str = "answers of the call that adds two p";
pub const SPLITS: &str = "runs of a split";

/// The comparisons.
pub const PROJECTION: &str = "library: a run's p with the model's";
pub const ROWS: &str = "library: a run's rows of t with the model's";
pub const ADDING: &str = "library: two p added with the model's";
pub const SUMS: &str = "library: the sum of the runs' p with that of the library's whole call";
pub const LAID: &str = "library: the runs' rows laid next to each other with t of the library's whole call";
pub const WHOLE: &str = "model: p and t of the runs with the model's whole transcript";
pub const PLANTED: &str = "model: refusals of the calls on a run with the fault planted";

/// Guard words before and behind a lent buffer.
const GUARD: usize = 9;

/// A lent buffer between guards, filled with words that a call finds there.
struct Lent {
    before: Vec<u32>,
    length: usize,
}

impl Lent {
    fn new(random: &mut Random, length: usize) -> Self {
        let before = (0..length + 2 * GUARD).map(|_| random.word()).collect();
        Lent { before, length }
    }

    /// The whole buffer where its first words became these.
    fn with(&self, first: &[u32]) -> Vec<u32> {
        let mut words = self.before.clone();
        words[GUARD..GUARD + first.len()].copy_from_slice(first);
        words
    }
}

/// What is handed to a run call. The projection words are there for both; only one takes them.
#[derive(Clone)]
struct Given {
    job: Vec<u32>,
    first: u32,
    end: u32,
    projection: Vec<u32>,
    vectors: Vec<u32>,
    scratch: usize,
    output: usize,
    /// Whether the call is that for p.
    takes_projection: bool,
}

impl Given {
    fn new(instance: &Instance, first: usize, end: usize, takes_projection: bool) -> Self {
        let p = &instance.parameters;
        let part = |words: &[u32], each: usize| join(&[words[each * first..each * end].to_vec()]);
        Given {
            job: instance.job_words(),
            first: first as u32,
            end: end as u32,
            projection: part(&instance.randomness[0], 16384 * p.n),
            vectors: part(&instance.witness, 64 * p.n),
            scratch: p.scratch_need(),
            output: if takes_projection { 257 } else { 1 + 64 * p.kappa * (end - first) },
            takes_projection,
        }
    }

    fn taken(&self) -> Option<&[u32]> {
        self.takes_projection.then_some(&self.projection)
    }

    fn model(&self) -> Made {
        let run = Run {
            job: &self.job,
            first: self.first,
            end: self.end,
            projection: self.taken(),
            vectors: &self.vectors,
            scratch: self.scratch,
            output: self.output,
        };
        if self.takes_projection {
            shed_projection(run)
        } else {
            shed_rows(run)
        }
    }

    /// The library's answer, and both buffers with their guards.
    fn library(&self, scratch: &Lent, output: &Lent) -> (Answer, Vec<u32>, Vec<u32>) {
        let (mut lent_scratch, mut lent_output) = (scratch.before.clone(), output.before.clone());
        let answer = library::sheds::run(library::sheds::Run {
            job: &self.job,
            first: self.first,
            end: self.end,
            projection: self.taken(),
            vectors: &self.vectors,
            scratch: &mut lent_scratch[GUARD..GUARD + scratch.length],
            output: &mut lent_output[GUARD..GUARD + output.length],
        });
        (answer, lent_scratch, lent_output)
    }
}

fn compare(tally: &mut Tally, random: &mut Random, purpose: &str, given: &Given) -> Made {
    let (answer, made) = given.model();
    let scratch = Lent::new(random, given.scratch);
    let output = Lent::new(random, given.output);
    let need = match made {
        Some(_) => Parameters::read(&given.job[1..1 + PARAMETERS]).scratch_need(),
        None => 0,
    };
    let words = made.clone().unwrap_or_default();
    let theirs = (answer, scratch.with(&vec![0; need]), output.with(&words));
    let ours = given.library(&scratch, &output);
    let kind = if given.takes_projection { PROJECTION } else { ROWS };
    tally.compare(kind, &(ours.0, ours.1 == theirs.1, &ours.2), &(theirs.0, true, &theirs.2), || {
        let sizes = given.job.get(1..1 + PARAMETERS).map(Parameters::read);
        format!("{purpose}: {} to {} of {sizes:?}", given.first, given.end)
    });
    tally.occurred(RUNS, row(given.takes_projection, answer.number));
    (answer, made)
}

fn row(takes_projection: bool, number: u32) -> String {
    format!("{} {number:>2}", if takes_projection { "p" } else { "t" })
}

/// An answer that is known beforehand.
fn planted(tally: &mut Tally, random: &mut Random, purpose: &str, given: &Given, aim: (u32, usize)) {
    let (answer, _) = compare(tally, random, purpose, given);
    tally.compare(PLANTED, &(answer.number, answer.place), &(aim.0, aim.1 as u64), || {
        format!("{purpose}: {aim:?}, {} to {}", given.first, given.end)
    });
}

fn add(tally: &mut Tally, random: &mut Random, p: &[u32], other: &[u32], length: usize) -> Made {
    let (answer, made) = add_projections(p, other, length);
    let output = Lent::new(random, length);
    let mut lent = output.before.clone();
    let ours = library::sheds::add(p, other, &mut lent[GUARD..GUARD + length]);
    let words = made.clone().unwrap_or_default();
    tally.compare(ADDING, &(ours, lent), &(answer, output.with(&words)), || {
        format!("{} and {} words into {length}", p.len(), other.len())
    });
    tally.occurred(ADDED, format!("{:>2}", answer.number));
    (answer, made)
}

/// The ends of the runs of a split of 0 to r: none, each, or some of the inner indexes are ends.
fn draw_split(random: &mut Random, r: usize, turn: usize) -> Vec<usize> {
    let inner = (1..r).filter(|_| match turn {
        0 => false,
        1 => true,
        _ => random.below(2) == 0,
    });
    inner.collect::<Vec<usize>>().into_iter().chain([r]).collect()
}

/// Sections p and t of the library's whole call, with their counts.
fn whole_call(instance: &Instance) -> (Vec<u32>, Vec<u32>) {
    let p = &instance.parameters;
    let mut scratch = vec![0; p.scratch_need()];
    let mut output = vec![0; p.transcript_counts().iter().map(|count| 1 + count).sum()];
    let handed = library::Handed {
        job: &instance.job_words(),
        randomness: &instance.randomness_words(),
        third: &instance.witness_words(),
        scratch: &mut scratch,
        output: &mut output,
    };
    assert!(library::whole(Call::Prove, handed).is_fine(), "a transcript");
    let sections = split(&output);
    (join(&sections[1..2]), join(&sections[5..6]))
}

/// One split: each run's p, added two by two in some order; its rows, laid next to each other.
fn one_split(tally: &mut Tally, random: &mut Random, instance: &Instance, turn: usize) {
    let ends = draw_split(random, instance.parameters.r, turn);
    let whole = whole_call(instance);
    tally.occurred(SPLITS, ends.len().min(4));
    let mut first = 0;
    let mut sums = vec![];
    let mut rows = vec![];
    for &end in &ends {
        for takes_projection in [true, false] {
            let mut given = Given::new(instance, first, end, takes_projection);
            given.output += random.below(3);
            given.scratch += random.below(3);
            let (_, made) = compare(tally, random, "a run of a split", &given);
            let made = made.expect("the run is worked");
            if takes_projection {
                sums.push(made);
            } else {
                rows.extend_from_slice(&made[1..]);
            }
        }
        first = end;
    }
    // any two of what is there, until one is left
    while sums.len() > 1 {
        let p = sums.swap_remove(random.below(sums.len()));
        let other = sums.swap_remove(random.below(sums.len()));
        let length = 257 + random.below(3);
        sums.push(add(tally, random, &p, &other, length).1.expect("two p are added"));
    }
    let rows = join(&[rows]);
    let sent = modelled(instance);
    let case = || format!("{ends:?} of {:?}", instance.parameters);
    tally.compare(SUMS, &sums[0], &whole.0, case);
    tally.compare(LAID, &rows, &whole.1, case);
    tally.compare(WHOLE, &(sums.swap_remove(0), rows), &(join(from_ref(&sent.p)), join(&sent.sections()[5..6])), case);
}

/// A's bound at each vector's norm and one below: 13 names the run's first vector above it, counted over the whole job. The
/// bounds of B, C and D are those of no run call.
fn bounds(tally: &mut Tally, random: &mut Random, instance: &Instance) {
    let p = &instance.parameters;
    let norms = instance.figures(&modelled(instance)).witness;
    for bound in norms.iter().flat_map(|&norm| [norm, norm.saturating_sub(1)]) {
        let mut tight = instance.clone();
        tight.parameters.bounds = [bound, 0, 0, 0];
        for first in 0..p.r {
            let end = first + 1 + random.below(p.r - first);
            let aim = (first..end).find(|&i| norms[i] > bound).map_or((0, 0), |i| (13, i));
            planted(tally, random, "A's bound at a norm", &Given::new(&tight, first, end, false), aim);
            planted(tally, random, "A's bound at a norm", &Given::new(&tight, first, end, true), (0, 0));
        }
    }
}

/// One fault: what it does, and the answer that it gives alone.
struct Fault {
    name: &'static str,
    change: Box<dyn Fn(&mut Given)>,
    aim: (u32, usize),
}

fn fault(name: &'static str, aim: (u32, usize), change: impl Fn(&mut Given) + 'static) -> Fault {
    Fault { name, change: Box::new(change), aim }
}

fn set(words: &mut [u32], at: usize, word: u32) {
    if let Some(w) = words.get_mut(at) {
        *w = word;
    }
}

/// The faults of a run call in the order of their refusals. Of two, the earlier one is refused.
fn faults(given: &Given, p: &Parameters) -> Vec<Fault> {
    let (job, vectors, projection) = (given.job.len(), given.vectors.len(), given.projection.len());
    let (scratch, output, r) = (p.scratch_need(), given.output, p.r as u32);
    let mut all = vec![
        fault("no job", (3, 0), |g| g.job.clear()),
        fault("a parameter", (4, 1), |g| set(&mut g.job, 1, 65)),
        fault("a parameter that no section depends on", (5, 12), |g| set(&mut g.job, 12, 1)),
        fault("a job that ends early", (3, job - 1), move |g| g.job.truncate(job - 1)),
        fault("a job word", (6, job - 1), move |g| set(&mut g.job, job - 1, Q)),
    ];
    let most = u32::MAX;
    let empty = [(0, 0), (1, 1), (r, r), (3, 2), (most, 0), (most, most)];
    let past = [(0, r + 1), (r - 1, r + 1), (r, r + 1), (0, most), (most - 1, most)];
    all.extend(empty.into_iter().chain(past).map(|(first, end)| {
        fault("a run outside the vectors", (34, first as usize), move |g| (g.first, g.end) = (first, end))
    }));
    if given.takes_projection {
        all.extend([
            fault("no projection words", (7, 0), |g| g.projection.clear()),
            fault("the projection's count", (7, 0), |g| g.projection[0] += 1),
            fault("projection words that end early", (7, projection - 1), move |g| {
                g.projection.truncate(projection - 1)
            }),
            fault("a projection word too many", (7, projection), |g| g.projection.push(0)),
            fault("the first projection word", (8, 1), |g| set(&mut g.projection, 1, Q)),
            fault("the last projection word", (8, projection - 1), move |g| set(&mut g.projection, projection - 1, Q)),
        ]);
    }
    all.extend([
        fault("no vectors", (11, 0), |g| g.vectors.clear()),
        fault("the vectors' count", (11, 0), |g| g.vectors[0] -= 1),
        fault("vectors that end early", (11, vectors - 1), move |g| g.vectors.truncate(vectors - 1)),
        fault("a vector too many", (11, vectors), |g| g.vectors.extend([0; 64])),
        fault("the first word of a vector", (12, 1), |g| set(&mut g.vectors, 1, Q)),
        fault("the last word of a vector", (12, vectors - 1), move |g| set(&mut g.vectors, vectors - 1, Q)),
        fault("no scratch", (1, scratch), |g| g.scratch = 0),
        fault("scratch one word short", (1, scratch), |g| g.scratch -= g.scratch.min(1)),
        fault("no output", (2, output), |g| g.output = 0),
        fault("output one word short", (2, output), |g| g.output -= g.output.min(1)),
    ]);
    if !given.takes_projection {
        // the least bound of A, whose refusal comes in the work
        all.push(fault("A's bound", (13, given.first as usize), |g| set_bound(&mut g.job, 0)));
    }
    all
}

fn set_bound(job: &mut [u32], bound: u32) {
    for k in 0..3 {
        set(job, 19 + k, if k == 0 { bound } else { 0 });
    }
}

/// Each fault alone and each pair that does not change the same thing twice.
fn unfit(tally: &mut Tally, random: &mut Random, instance: &Instance, first: usize, end: usize) {
    for takes_projection in [true, false] {
        let given = Given::new(instance, first, end, takes_projection);
        let all = faults(&given, &instance.parameters);
        for (k, one) in all.iter().enumerate() {
            let mut changed = given.clone();
            (one.change)(&mut changed);
            planted(tally, random, one.name, &changed, one.aim);
            for later in all[k + 1..].iter().filter(|later| is_later(one, later)) {
                let mut changed = given.clone();
                (later.change)(&mut changed);
                (one.change)(&mut changed);
                planted(tally, random, later.name, &changed, one.aim);
            }
        }
    }
}

/// Whether two faults have refusals of different places in the order, and the second leaves the first one's place.
fn is_later(one: &Fault, later: &Fault) -> bool {
    let moves = later.name == "a vector too many" || later.name == "a projection word too many";
    one.aim.0 != later.aim.0 && !(moves && [7, 11].contains(&one.aim.0))
}

/// A slice cut, lengthened or with another word, anywhere.
fn damage(random: &mut Random, words: &mut Vec<u32>) {
    let at = random.below(words.len());
    match random.below(4) {
        0 => words.truncate(at),
        1 => words.extend(random.numbers(1 + at % 70)),
        2 => words[at] = random.pick(&[Q, Q - 1, 0, words[at].wrapping_add(1)]),
        _ => words[0] = random.word(),
    }
}

/// Any run with the slices of another, damaged or as they are.
fn damaged(tally: &mut Tally, random: &mut Random, instance: &Instance) {
    let r = instance.parameters.r;
    let first = random.below(r);
    let end = first + 1 + random.below(r - first);
    let takes_projection = random.below(2) == 0;
    let mut given = Given::new(instance, first, end, takes_projection);
    if random.below(3) == 0 {
        given.first = random.below(r + 1) as u32;
        given.end = random.below(r + 2) as u32;
    }
    match random.below(5) {
        0 => damage(random, &mut given.job),
        1 => damage(random, &mut given.projection),
        2 | 3 => damage(random, &mut given.vectors),
        _ => {}
    }
    given.scratch = (given.scratch + 1 - random.below(3)).max(1);
    given.output = (given.output + 1 - random.below(3)).max(1);
    compare(tally, random, "damaged slices", &given);
    let mut both = [0, 1].map(|_| join(&[random.numbers(256)]));
    let which = random.below(2);
    damage(random, &mut both[which]);
    let length = 256 + random.below(3);
    add(tally, random, &both[0], &both[1], length);
}

/// The first p unfit, the second, both, and a short output.
fn unfit_sums(tally: &mut Tally, random: &mut Random) {
    let p = join(&[random.numbers(256)]);
    let other = join(&[random.numbers(256)]);
    let changed = |words: &[u32], change: &dyn Fn(&mut Vec<u32>)| {
        let mut words = words.to_vec();
        change(&mut words);
        words
    };
    let unfit = |words: &[u32]| {
        [
            (changed(words, &|w| w.clear()), (9, 0)),
            (changed(words, &|w| w[0] = 255), (9, 0)),
            (changed(words, &|w| w.truncate(256)), (9, 256)),
            (changed(words, &|w| w.truncate(1)), (9, 1)),
            (changed(words, &|w| w.push(Q)), (9, 257)),
            (changed(words, &|w| w[1] = Q), (10, 1)),
            (changed(words, &|w| w[256] = Q), (10, 256)),
        ]
    };
    let mut planted = |p: &[u32], other: &[u32], length: usize, aim: (u32, usize)| {
        let (answer, _) = add(tally, random, p, other, length);
        tally.compare(PLANTED, &(answer.number, answer.place), &(aim.0, aim.1 as u64), || format!("two p: {aim:?}"));
    };
    for (wrong, aim) in unfit(&p) {
        planted(&wrong, &other, 257, aim);
        for (second, _) in unfit(&other) {
            planted(&wrong, &second, 0, aim);
        }
    }
    for (wrong, aim) in unfit(&other) {
        planted(&p, &wrong, 257, aim);
        planted(&p, &wrong, 256, aim);
    }
    for length in [0, 1, 256] {
        planted(&p, &other, length, (2, 257));
    }
    planted(&p, &p, 257, (0, 0));
    let ends = join(&[[Q - 1, 0, 1, HALF + 1].repeat(64)]);
    planted(&ends, &ends, 260, (0, 0));
}

/// All cases, on `count` random jobs.
pub fn all(tally: &mut Tally, random: &mut Random, count: usize) {
    tally.must_compare(&[PROJECTION, ROWS, ADDING, SUMS, LAID, WHOLE, PLANTED]);
    for number in [0, 1, 2, 3, 4, 5, 6, 7, 8, 11, 12, 34] {
        tally.must_occur(RUNS, row(true, number));
    }
    for number in [0, 1, 2, 3, 4, 5, 6, 11, 12, 13, 34] {
        tally.must_occur(RUNS, row(false, number));
    }
    for number in [0, 2, 9, 10] {
        tally.must_occur(ADDED, format!("{number:>2}"));
    }
    for runs in 1..=4 {
        tally.must_occur(SPLITS, runs);
    }
    unfit_sums(tally, random);
    for i in 0..count {
        let mut parameters = match i % 4 {
            0 => one_kind(random, i),
            1 => apart(random, i),
            _ => small(random, i),
        };
        parameters.r = [1, 2, 5, 3, 4, 6, 3][i % 7];
        if i == 1 {
            (parameters.n, parameters.r) = (1, 16);
        }
        let size = random.pick(&[Size::Bits(2), Size::Any, Size::Ends, Size::Zero]);
        let instance = Instance::random(random, parameters, size);
        for turn in 0..3 {
            one_split(tally, random, &instance, turn);
        }
        for _ in 0..8 {
            damaged(tally, random, &instance);
        }
        if i % 4 == 2 {
            let instance = Instance::random(random, Parameters { r: 3, ..parameters }, Size::Bits(2));
            bounds(tally, random, &instance);
        }
        if i < 3 {
            let instance = Instance::random(random, Parameters { n: 1, r: 3, ..parameters }, Size::Bits(2));
            let (first, end) = [(1, 3), (0, 1), (0, 3)][i];
            unfit(tally, random, &instance, first, end);
        }
    }
}

/// Words in one number: FNV-1a, a word at a time.
fn sum(words: &[u32]) -> u64 {
    words.iter().fold(14695981039346656037, |sum, &w| (sum ^ u64::from(w)).wrapping_mul(1099511628211))
}

/// The model's answers to twelve runs of loads as rows of `bindings/test.c`; from the ninth on with a bound of A that some vectors are above.
pub fn print_sums() {
    for k in 0..12_u32 {
        let n = 1 + k % 2;
        let (r, kappa) = (5 - n, 1 + k % 8);
        let first = k % r;
        let end = first + 1 + k / 3 % (r - first);
        let sizes = [n, r, kappa, 1, 1, 1, 1, 32, 256, 4, 4, 4];
        let lengths = model::load::needs(sizes).expect("parameters within their limits");
        let mut load = model::load::load(sizes, k, lengths).expect("the buffers are long enough");
        if k >= 8 {
            set_bound(&mut load.job, 42 * n);
        }
        let part =
            |words: &[u32], each: u32| join(&[words[1 + (each * first) as usize..1 + (each * end) as usize].to_vec()]);
        let (projection, vectors) = (part(&load.randomness, 16384 * n), part(&load.witness, 64 * n));
        let run = Run {
            job: &load.job,
            first,
            end,
            projection: Some(&projection),
            vectors: &vectors,
            scratch: usize::MAX,
            output: usize::MAX,
        };
        let p = shed_projection(run).1.expect("a run's p");
        let (answer, rows) = shed_rows(Run { projection: None, ..run });
        let rows = rows.expect("a run's rows");
        println!(
            "    {{{n}, {r}, {kappa}, {k}, {first}, {end}, {}, {}, {:#018x}u, {:#018x}u}},",
            answer.number,
            answer.place,
            sum(&p),
            sum(&rows)
        );
    }
}

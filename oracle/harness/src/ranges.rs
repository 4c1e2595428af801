//! A witness known within ranges: the library's call with the model's, and with the prover's refusal 13.

use crate::instances::{small, Instance, Size, LOOSE};
use crate::random::Random;
use crate::tally::Tally;
use model::leaves::canonical;
use model::ranges::{ranges, squares, Ranges, LARGEST};
use model::words::{join, Parameters};
use model::Call;

pub const ANSWERS: &str = "answers of the call on ranges";
pub const MEETS: &str = "what the call on ranges tells of a vector";

/// The comparisons.
pub const RANGES: &str = "library: the call on ranges with the model's";
pub const PLANTED: &str = "model: refusals of ranges with the fault planted";
pub const CHOICES: &str = "model: least and greatest squares with every number of a range";
pub const EXACT: &str = "library: single numbers in the call on ranges with the prover's 13";

/// How wide the ranges are and where they lie.
#[derive(Clone, Copy, Debug)]
enum Width {
    AroundZero,
    Above,
    Below,
    Single,
    Whole,
    AnyOrder,
}

const WIDTHS: [Width; 6] =
    [Width::AroundZero, Width::Above, Width::Below, Width::Single, Width::Whole, Width::AnyOrder];

/// A number from 0 to the largest, small ones and the ends more often.
fn size(random: &mut Random) -> i64 {
    match random.below(4) {
        0 => random.below(5) as i64,
        1 => random.pick(&[0, 1, LARGEST - 1, LARGEST]),
        2 => random.below(1 << 16) as i64,
        _ => random.below(LARGEST as usize + 1) as i64,
    }
}

fn range(random: &mut Random, width: Width) -> (i64, i64) {
    let (a, b) = (size(random), size(random));
    match width {
        Width::AroundZero => (-a, b),
        Width::Above => (a.min(b), a.max(b)),
        Width::Below => (-a.max(b), -a.min(b)),
        Width::Single => {
            let x = random.pick(&[a, -a]);
            (x, x)
        }
        Width::Whole => (-LARGEST, LARGEST),
        Width::AnyOrder => {
            let width = random.pick(&WIDTHS[..5]);
            range(random, width)
        }
    }
}

fn compare(tally: &mut Tally, purpose: &str, job: &[u32], lows: &[i64], highs: &[i64]) -> Ranges {
    let expected = ranges(job, lows, highs);
    let ours = library::ranges::ranges(job, lows, highs);
    tally.compare(RANGES, &ours, &expected, || {
        format!("{purpose}: a job of {} words, {} lows, {} highs", job.len(), lows.len(), highs.len())
    });
    tally.occurred(ANSWERS, format!("{:>2}", expected.number));
    for vector in expected.vectors {
        tally.occurred(MEETS, vector.meets);
    }
    expected
}

/// The job with another bound of A.
fn with_bound(instance: &Instance, bound: u128) -> Vec<u32> {
    let mut changed =
        Instance { parameters: instance.parameters, job: instance.job.clone(), randomness: vec![], witness: vec![] };
    changed.parameters.bounds[0] = bound.min(LOOSE);
    changed.job_words()
}

/// Bounds at each norm, one above and one below.
fn bounds(tally: &mut Tally, instance: &Instance, lows: &[i64], highs: &[i64]) {
    let loose = compare(tally, "loose bound", &with_bound(instance, LOOSE), lows, highs);
    for vector in &loose.vectors[..instance.parameters.r] {
        for norm in [vector.least, vector.greatest] {
            for bound in [norm.saturating_sub(1), norm, norm + 1] {
                compare(tally, "bound at a norm", &with_bound(instance, bound), lows, highs);
            }
        }
    }
}

/// A fault of the lists, planted in a fit input: its number and place are known.
fn planted(tally: &mut Tally, job: &[u32], lows: &[i64], highs: &[i64], aim: (u32, usize)) {
    let told = compare(tally, "a fault planted", job, lows, highs);
    tally.compare(PLANTED, &(told.number, told.place), &(aim.0, aim.1 as u64), || format!("{aim:?}"));
}

fn faults(tally: &mut Tally, random: &mut Random, job: &[u32], lows: &[i64], highs: &[i64]) {
    let need = lows.len();
    for length in [0, need - 64, need - 1, need + 1, need + 64] {
        let cut = |list: &[i64]| -> Vec<i64> { list.iter().copied().chain([0; 64]).take(length).collect() };
        let place = length.min(need);
        planted(tally, job, &cut(lows), highs, (11, place));
        planted(tally, job, lows, &cut(highs), (11, place));
        planted(tally, job, &cut(lows), &cut(highs), (11, place));
        // lows before highs
        planted(tally, job, &cut(lows), &[], (11, place));
    }
    let far = [LARGEST + 1, -LARGEST - 1, i64::MAX, -i64::MAX, i64::MIN];
    for at in [0, random.below(need), need - 1] {
        for x in far {
            let set = |list: &[i64], at: usize| {
                let mut list = list.to_vec();
                list[at] = x;
                list
            };
            planted(tally, job, &set(lows, at), highs, (37, at));
            planted(tally, job, lows, &set(highs, at), (37, at));
            // the first of two
            let other = random.below(need);
            planted(tally, job, &set(lows, at), &set(highs, other), (37, at.min(other)));
        }
        let (mut crossed_lows, mut crossed_highs) = (lows.to_vec(), highs.to_vec());
        let low = size(random) - LARGEST + 1;
        (crossed_lows[at], crossed_highs[at]) = (low, low - 1);
        planted(tally, job, &crossed_lows, &crossed_highs, (36, at));
        // 37 over all pairs before 36, wherever it stands
        let other = random.below(need);
        let mut both = crossed_lows.clone();
        both[other] = random.pick(&far);
        planted(tally, job, &both, &crossed_highs, (37, other));
    }
}

/// Jobs that are refused, with lists that are unfit too.
fn unfit_jobs(tally: &mut Tally, job: &[u32], lows: &[i64], highs: &[i64]) {
    let set = |at: usize, word: u32| {
        let mut job = job.to_vec();
        job[at] = word;
        job
    };
    let last = job.len() - 1;
    let jobs = [
        (vec![], (3, 0)),
        (job[..last].to_vec(), (3, last)),
        (set(1, 65), (4, 1)),
        (set(12, 3), (5, 12)),
        (set(last, u32::MAX), (6, last)),
    ];
    for (job, aim) in jobs {
        planted(tally, &job, lows, highs, aim);
        planted(tally, &job, &[i64::MIN], &[], aim);
    }
}

/// Every number of narrow ranges against the model's two squares.
fn choices(tally: &mut Tally) {
    for low in -6..=6_i64 {
        for high in low..=6 {
            let all = (low..=high).map(|x| (x * x) as u128);
            let ends = (all.clone().min().expect("a number"), all.max().expect("a number"));
            tally.compare(CHOICES, &squares(low, high), &ends, || format!("{low} to {high}"));
        }
    }
}

/// Single numbers: the prover's refusal 13 of the witness with those coefficients.
fn exact(tally: &mut Tally, instance: &Instance, lows: &[i64]) {
    let p = &instance.parameters;
    let witness = join(&[lows.iter().map(|&x| canonical(x)).collect::<Vec<u32>>()]);
    let norms: Vec<u128> = compare(tally, "single numbers", &instance.job_words(), lows, lows).vectors[..p.r]
        .iter()
        .map(|v| v.least)
        .collect();
    let middle = norms[norms.len() / 2];
    for bound in [0, middle.saturating_sub(1), middle, LOOSE] {
        let job = with_bound(instance, bound);
        let told = compare(tally, "single numbers", &job, lows, lows);
        let first = told.vectors.iter().position(|v| v.meets == 3);
        let mut scratch = vec![0; p.scratch_need()];
        let mut output = vec![0; p.transcript_counts().iter().map(|count| 1 + count).sum()];
        let proved = library::whole(
            Call::Prove,
            library::Handed {
                job: &job,
                randomness: &instance.randomness_words(),
                third: &witness,
                scratch: &mut scratch,
                output: &mut output,
            },
        );
        let expected = first.map_or((0, 0), |i| (13, i as u64));
        tally.compare(EXACT, &(proved.number, proved.place), &expected, || format!("{p:?}"));
        let some_only = told.vectors.iter().any(|v| v.meets == 2);
        let one_norm = told.vectors.iter().all(|v| v.least == v.greatest);
        tally.compare(EXACT, &(some_only, one_norm), &(false, true), || format!("{p:?}"));
    }
}

/// All cases, on `count` random jobs.
pub fn all(tally: &mut Tally, random: &mut Random, count: usize) {
    tally.must_compare(&[RANGES, PLANTED, CHOICES, EXACT]);
    for number in [0, 3, 4, 5, 6, 11, 36, 37] {
        tally.must_occur(ANSWERS, format!("{number:>2}"));
    }
    for meets in 0..4 {
        tally.must_occur(MEETS, meets);
    }
    choices(tally);
    for i in 0..count {
        let mut parameters = small(random, 5 * i);
        if i == 1 {
            parameters.r = 16;
        }
        one(tally, random, parameters, WIDTHS[i % WIDTHS.len()], i < 12);
    }
}

fn one(tally: &mut Tally, random: &mut Random, parameters: Parameters, width: Width, with_faults: bool) {
    let instance = Instance::random(random, parameters, Size::Zero);
    let count = 64 * parameters.r * parameters.n;
    let pairs: Vec<(i64, i64)> = (0..count).map(|_| range(random, width)).collect();
    let lows: Vec<i64> = pairs.iter().map(|pair| pair.0).collect();
    let highs: Vec<i64> = pairs.iter().map(|pair| pair.1).collect();
    bounds(tally, &instance, &lows, &highs);
    exact(tally, &instance, &lows);
    if with_faults {
        let job = instance.job_words();
        faults(tally, random, &job, &lows, &highs);
        unfit_jobs(tally, &job, &lows, &highs);
    }
}

/// The job of recorded case k: a load whose A's bound is put in after.
fn recorded_job(k: u32) -> Vec<u32> {
    let sizes = [1 + k % 2, 1 + k % 3, 4, 1, 1, 1, 1, 32, 256, 4, 4, 4];
    let lengths = model::load::needs(sizes).expect("parameters within their limits");
    model::load::load(sizes, k, lengths).expect("the buffers are long enough").job
}

/// The lows and highs of recorded case k: ranges about zero, narrow and wide; the last four with a fault.
fn recorded_ranges(k: u32, count: usize) -> (Vec<i64>, Vec<i64>) {
    let spread = [7, 100, 65536, 2000000000][k as usize % 4];
    let width = [1, 5, 1000, 147483647][k as usize / 4];
    let mut state = 100 + k;
    let mut next = || {
        state = state.wrapping_mul(1664525).wrapping_add(1013904223);
        i64::from(state)
    };
    let (mut lows, mut highs): (Vec<i64>, Vec<i64>) = (0..count)
        .map(|_| {
            let low = next() % spread - spread / 2;
            (low, low + next() % width)
        })
        .unzip();
    match k {
        12 => lows[5] = highs[5] + 1,
        13 => lows[6] = -2147483648,
        14 => lows.truncate(count - 1),
        15 => highs.push(0),
        _ => {}
    }
    (lows, highs)
}

/// The model's answers to sixteen cases as rows of `bindings/test.c`: A's bound in three words, and the answer's numbers in one.
pub fn print_sums() {
    for k in 0..16 {
        let mut job = recorded_job(k);
        let count = 64 * job[1] as usize * job[2] as usize;
        let (lows, highs) = recorded_ranges(k, count);
        let first = ranges(&job, &lows, &highs).vectors[0];
        let bound = [first.least, first.greatest, first.least.saturating_sub(1)][k as usize % 3];
        let words = [bound as u32, (bound >> 32) as u32, (bound >> 64) as u32];
        job[19..22].copy_from_slice(&words);
        let told = ranges(&job, &lows, &highs);
        let mut sum = 14695981039346656037_u64;
        let mut add = |x: u64| {
            for half in [x & 0xffff_ffff, x >> 32] {
                sum = (sum ^ half).wrapping_mul(1099511628211);
            }
        };
        add(u64::from(told.number));
        add(told.place);
        for v in told.vectors {
            let halves = |x: u128| [(x >> 64) as u64, x as u64];
            add(u64::from(v.meets));
            [v.least, v.greatest].into_iter().flat_map(halves).for_each(&mut add);
        }
        println!(
            "    {{{{{}u, {}u, {}u}}, {}, {}, {sum:#018x}u}},",
            words[0], words[1], words[2], told.number, told.place
        );
    }
}

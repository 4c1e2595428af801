//! The call that makes a test load, compared with the model word for word, and its b0 and b with the Rust's `calculate_b_constraint`.

use crate::random::Random;
use crate::rust;
use crate::tally::Tally;
use model::load::{load, needs};
use model::refusals::LIMITS;
use model::words::split;
use model::Answer;

/// The comparisons.
const ANSWER: &str = "library: a test load's answer with the model's";
const WORDS: &str = "library: a test load's buffers, word for word, with the model's";
const NEEDS: &str = "library: a test load's lengths with the model's";
const RIGHT_SIDES: &str = "library: a test load's b0 and b with the Rust's";

const GUARD: usize = 16;
const MARK: u32 = 0xc0de_c0de;

/// Twelve parameters within their limits; sizes are small, and K and l also at 0, 1 and 64, not both 0. κ and L are the
/// least L, apart, or at their limits.
fn twelve(random: &mut Random, i: usize) -> [u32; 12] {
    let log_q = 16 + random.below(17) as u32;
    let least = 128_u32.div_ceil(log_q);
    let any = least + random.below(33 - least as usize) as u32;
    let aggregations = [least, any, 32][i % 3];
    let kappa = [least, 1 + random.below(16) as u32, 16][i / 3 % 3];
    let mut small = |most: usize| 1 + random.below(most) as u32;
    let ends = [small(6), 1, 64, 0];
    let both_zero = i % 16 == 15;
    [
        small(3),
        small(4),
        kappa,
        small(3),
        small(3),
        ends[i % 4],
        if both_zero { 1 } else { ends[i / 4 % 4] },
        log_q,
        2 + random.below(1 << 20) as u32,
        random.pick(&[1, 2, 3, 32]),
        random.pick(&[1, 2, 3, 32]),
        aggregations,
    ]
}

/// One call with buffers of these lengths: answer, every word, and guard words on both sides.
fn one(tally: &mut Tally, words: [u32; 12], seed: u32, lengths: [usize; 3]) {
    let expected = load(words, seed, lengths);
    let mut kept: [Vec<u32>; 3] = lengths.map(|length| vec![MARK; length + 2 * GUARD]);
    let [a, b, c] = &mut kept;
    let inner = |v: &mut Vec<u32>| {
        let end = v.len() - GUARD;
        &mut v[GUARD..end] as *mut [u32]
    };
    let buffers = [inner(a), inner(b), inner(c)].map(|part| unsafe { &mut *part });
    let answer = library::load::load(words, seed, buffers);
    let (number, filled) = match &expected {
        Ok(made) => (Answer::FINE, [&made.job[..], &made.witness, &made.randomness]),
        Err(refusal) => (*refusal, [&[][..]; 3]),
    };
    let case = || format!("{words:?} seed {seed} lengths {lengths:?}");
    tally.occurred("answers of loads", number.number);
    tally.compare(ANSWER, &answer, &number, case);
    for (k, (made, buffer)) in filled.into_iter().zip(&kept).enumerate() {
        let mut words = vec![MARK; buffer.len()];
        words[GUARD..GUARD + made.len()].copy_from_slice(made);
        tally.compare(WORDS, buffer, &words, || format!("buffer {k} of {}", case()));
    }
}

/// b0 and b of a load that the library makes, with those that the Rust makes of the load's constraints and witness.
fn right_sides(tally: &mut Tally, words: [u32; 12], seed: u32, lengths: [usize; 3]) {
    let mut made = lengths.map(|length| vec![0; length]);
    let [job, witness, randomness] = &mut made;
    library::load::load(words, seed, [job, witness, randomness]);
    let [job, witness, _] = made;
    let mut sections = split(&job);
    let ours = [3, 6].map(|k| std::mem::take(&mut sections[k]));
    let job = rust::Job::new(&job);
    let theirs = rust::right_sides(&job, &rust::witness(&job, &witness));
    tally.compare(RIGHT_SIDES, &ours, &theirs, || format!("{words:?} seed {seed}"));
}

fn lengths_of(tally: &mut Tally, words: [u32; 12]) {
    let found = library::load::needs(words);
    let expected = match needs(words) {
        Ok(lengths) => (Answer::FINE, lengths.map(|n| n as u64)),
        Err(refusal) => (refusal, [0; 3]),
    };
    tally.compare(NEEDS, &found, &expected, || format!("{words:?}"));
}

/// Words in one number: FNV-1a, a word at a time.
fn sum(words: &[u32]) -> u64 {
    let step = |h: u64, &w: &u32| (h ^ u64::from(w)).wrapping_mul(1099511628211);
    words.iter().fold(14695981039346656037, step)
}

/// The model's loads of sixteen parameter sets as rows of `bindings/test.c`: the parameters, the seed, and each slice's words in one number.
pub fn print_sums() {
    for i in 0..16 {
        let mut random = Random::new(i);
        let words = twelve(&mut random, i as usize);
        let words = [words[0].min(2), words[1].min(2)].iter().chain(&words[2..]).copied().collect::<Vec<_>>();
        let words: [u32; 12] = words.try_into().expect("twelve words");
        let seed = [0, 1, u32::MAX, random.word()][i as usize % 4];
        let lengths = needs(words).expect("parameters within their limits");
        let Ok(made) = load(words, seed, lengths) else {
            panic!("the buffers are long enough");
        };
        let listed = words.map(|w| w.to_string()).join(", ");
        let sums = [made.job, made.witness, made.randomness].map(|words| format!("{:#018x}u", sum(&words)));
        println!("    {{{{{listed}}}, {seed}u, {}}},", sums.join(", "));
    }
}

/// `count` parameter sets, each whole, with longer buffers, with each buffer one word short, and with parameters outside their limits.
pub fn all(tally: &mut Tally, random: &mut Random, count: usize) {
    for number in [0, 2, 4, 5] {
        tally.must_occur("answers of loads", number);
    }
    tally.must_compare(&[ANSWER, WORDS, NEEDS, RIGHT_SIDES]);
    for i in 0..count {
        let words = twelve(random, i);
        let word = random.word();
        let seed = random.pick(&[0, 1, u32::MAX, word]);
        let exact = needs(words).expect("parameters within their limits");
        lengths_of(tally, words);
        one(tally, words, seed, exact);
        right_sides(tally, words, seed, exact);
        one(tally, words, seed, exact.map(|n| n + random.below(5)));
        let mut short = exact;
        short[i % 3] -= 1 + random.below(exact[i % 3]);
        one(tally, words, seed, short);
        one(tally, words, seed, exact.map(|n| n - 1));
        let mut wrong = words;
        let k = i % 12;
        wrong[k] = random.pick(&[LIMITS[k].0.wrapping_sub(1), LIMITS[k].1.wrapping_add(1), u32::MAX]);
        lengths_of(tally, wrong);
        one(tally, wrong, seed, exact);
        wrong = words;
        wrong[11] = 1 + random.below(128_usize.div_ceil(words[7] as usize) - 1) as u32;
        lengths_of(tally, wrong);
        one(tally, wrong, seed, [0; 3]);
    }
}

//! The cases of the calls on whole slices, family after family.

use crate::cases::Context;
use crate::instances::*;
use crate::random::Random;
use crate::unfit::unfit;
use model::formulas::{cell_digits, digits_norms, elements_norm, outer_u1, outer_u2};
use model::leaves::{add, mul, HALF, Q};
use model::recompose::parts_needed;
use model::words::*;
use model::Call;

/// Which bound stands just at its figure or just below.
#[derive(Clone, Copy, Debug, PartialEq, Eq)]
enum Tight {
    Loose,
    /// Every bound equals its figure.
    Equal,
    /// Of A, B, C or D.
    Below(usize),
    ProjectionBelow,
    SumBelow,
}

const TIGHT: [Tight; 8] = [
    Tight::Loose,
    Tight::Equal,
    Tight::Below(0),
    Tight::Below(1),
    Tight::Below(2),
    Tight::Below(3),
    Tight::ProjectionBelow,
    Tight::SumBelow,
];

impl Tight {
    fn name(self) -> &'static str {
        match self {
            Tight::Loose => "bounds loose",
            Tight::Equal => "bounds equal to their figures",
            Tight::Below(0) => "A's bound below a vector's norm",
            Tight::Below(1) => "B's bound below the norm of t's digits",
            Tight::Below(2) => "C's bound below the norm of g's digits",
            Tight::Below(_) => "D's bound below the norm of h's digits",
            Tight::ProjectionBelow => "128·beta_sq below the projection's norm",
            Tight::SumBelow => "beta_prime_sq below the sum of digit norms",
        }
    }
}

fn below(figure: u128) -> u128 {
    figure.saturating_sub(1).min(LOOSE)
}

/// Sets the bounds by the figures of a transcript.
fn tighten(p: &mut Parameters, figures: &Figures, tight: Tight) {
    let largest = *figures.witness.iter().max().expect("r is at least 1");
    match tight {
        Tight::Loose => {}
        Tight::Equal => {
            p.bounds = [largest, figures.digits[0], figures.digits[1], figures.digits[2]];
            p.beta_sq = figures.projection.div_ceil(128);
            p.beta_prime_sq = figures.sum;
        }
        Tight::Below(0) => p.bounds[0] = below(largest),
        Tight::Below(k) => p.bounds[k] = below(figures.digits[k - 1]),
        Tight::ProjectionBelow => p.beta_sq = below(figures.projection) / 128,
        Tight::SumBelow => p.beta_prime_sq = below(figures.sum),
    }
}

/// The transcript of an instance by the model.
pub fn modelled(instance: &Instance) -> Transcript {
    let p = &instance.parameters;
    model::formulas::transcript(
        &Job::read(&instance.job_words()),
        &Randomness::read(p, &instance.randomness_words()),
        &read_witness(p, &instance.witness_words()),
    )
    .0
}

/// A random instance: its statement met or not, its bounds loose, equal or below; then random damage to the transcript.
pub fn random_instance(context: &mut Context, random: &mut Random, parameters: Parameters) {
    let size = random.pick(&[
        Size::Bits(0),
        Size::Bits(3),
        Size::Bits(8),
        Size::Bits(16),
        Size::Any,
        Size::Ends,
        Size::Sixteens,
        Size::Zero,
    ]);
    let mut instance = Instance::random(random, parameters, size);
    let off = match random.below(2) {
        0 => Off::Met,
        _ => random.pick(&Off::ALL),
    };
    instance.put_off(random, off);
    let tight = random.pick(&TIGHT);
    if tight != Tight::Loose {
        let figures = instance.figures(&modelled(&instance));
        tighten(&mut instance.parameters, &figures, tight);
    }
    let purpose = if tight == Tight::Loose { off.name() } else { tight.name() };
    let spare = random.below(4);
    if let Some(transcript) = context.prover(purpose, &instance, spare) {
        damage_at_random(context, random, &instance, &transcript);
    }
}

/// One word of the transcript changed.
fn damage_at_random(context: &mut Context, random: &mut Random, instance: &Instance, transcript: &[u32]) {
    let mut sections = split(transcript);
    let k = random.below(sections.len());
    let word = {
        let at = random.below(sections[k].len());
        &mut sections[k][at]
    };
    *word = match random.below(3) {
        0 => random.number(),
        1 => add(*word, 1),
        _ => 0,
    };
    context.verifier("one word of the transcript changed", instance, &join(&sections), 0);
}

/// Sizes at their limits, one or two at a time.
pub fn limits(context: &mut Context, random: &mut Random) {
    let base = Parameters {
        n: 1,
        r: 1,
        kappa: 4,
        kappa1: 1,
        kappa2: 1,
        ring: 1,
        constant: 1,
        log_q: 32,
        b: 16,
        t1: 2,
        t2: 2,
        aggregations: 4,
        beta_sq: LOOSE,
        beta_prime_sq: LOOSE,
        bounds: [LOOSE; 4],
    };
    let eight = Parameters { log_q: 16, kappa: 8, aggregations: 8, ..base };
    let all = [
        ("n at its limit", Parameters { n: 64, ..base }),
        ("r at its limit", Parameters { r: 16, ..base }),
        ("κ1 and κ2 at their limits", Parameters { kappa1: 16, kappa2: 16, ..base }),
        ("κ at its limit", Parameters { kappa: 16, ..base }),
        ("L at its limit", Parameters { aggregations: 32, ..base }),
        ("κ and L at their limits", Parameters { kappa: 16, aggregations: 32, ..base }),
        ("K at its limit", Parameters { ring: 64, ..base }),
        ("l at its limit", Parameters { constant: 64, ..base }),
        ("log_q at its least", eight),
        ("log_q 31", Parameters { log_q: 31, kappa: 5, aggregations: 5, ..base }),
        ("log_q 32", base),
        ("b at its least, t1 and t2 at their limits", Parameters { b: 2, t1: 32, t2: 32, ..base }),
        ("b at its limit", Parameters { b: Q - 1, ..base }),
        ("t1 and t2 at their least", Parameters { t1: 1, t2: 1, r: 2, ..base }),
        ("t1 at its limit", Parameters { t1: 32, r: 2, b: 3, ..eight }),
        ("t2 at its limit", Parameters { t2: 32, r: 2, b: 3, ..base }),
    ];
    for (purpose, parameters) in all {
        for size in [Size::Bits(4), Size::Ends] {
            at_bounds(context, random, purpose, parameters, size);
        }
    }
}

/// An instance with every bound equal to its figure.
fn at_bounds(context: &mut Context, random: &mut Random, purpose: &'static str, parameters: Parameters, size: Size) {
    let mut instance = Instance::random(random, parameters, size);
    let figures = instance.figures(&modelled(&instance));
    tighten(&mut instance.parameters, &figures, Tight::Equal);
    context.prover(purpose, &instance, 1);
}

/// Every size at its limit at once, κ = L at the greatest that the Rust takes: about 33 million words.
pub fn largest(context: &mut Context, random: &mut Random) {
    let parameters = Parameters {
        n: 64,
        r: 16,
        kappa: 8,
        kappa1: 16,
        kappa2: 16,
        ring: 64,
        constant: 64,
        log_q: 16,
        b: 2,
        t1: 32,
        t2: 32,
        aggregations: 8,
        beta_sq: LOOSE,
        beta_prime_sq: LOOSE,
        bounds: [LOOSE; 4],
    };
    let instance = Instance::random(random, parameters, Size::Any);
    context.prover("every size at its limit", &instance, 1);
}

/// Parameters of a small instance with two vectors.
pub fn pair_parameters() -> Parameters {
    Parameters {
        n: 1,
        r: 2,
        kappa: 4,
        kappa1: 1,
        kappa2: 2,
        ring: 2,
        constant: 2,
        log_q: 32,
        b: 65536,
        t1: 2,
        t2: 1,
        aggregations: 4,
        beta_sq: LOOSE,
        beta_prime_sq: LOOSE,
        bounds: [LOOSE; 4],
    }
}

/// A few small instances: log_q from 16 to 32, bases and parts at and inside their limits.
pub fn few(context: &mut Context, random: &mut Random) {
    let with = |n, r, log_q: usize, b, t1, t2| Parameters {
        n,
        r,
        log_q,
        kappa: 128_usize.div_ceil(log_q),
        aggregations: 128_usize.div_ceil(log_q),
        b,
        t1,
        t2,
        ..pair_parameters()
    };
    let all = [
        (with(1, 1, 16, 2, 4, 32), Size::Any),
        (with(1, 1, 19, Q - 1, 1, 1), Size::Ends),
        (with(1, 1, 22, 3, 2, 3), Size::Bits(16)),
        (with(1, 1, 25, 10, 3, 2), Size::Any),
        (with(1, 1, 26, 65537, 2, 2), Size::Ends),
        (with(1, 1, 31, HALF + 1, 1, 2), Size::Zero),
        (with(2, 1, 32, 256, 4, 4), Size::Bits(8)),
        (with(1, 3, 32, 16, 2, 8), Size::Bits(0)),
    ];
    for (parameters, size) in all {
        at_bounds(context, random, "log_q, b, t1 and t2 within their limits", parameters, size);
    }
}

/// κ and L apart (document 02, Item 6): κ below and above L, L at its least, above it and 32, each also with the least
/// log_q; statements met and not met, bounds at their figures and just below, damaged transcripts and, with pairs as
/// often as asked, unfit slices of each call.
pub fn apart(context: &mut Context, random: &mut Random, pairs: usize) {
    let with = |log_q: usize, kappa: usize, aggregations: usize| Parameters {
        log_q,
        kappa,
        aggregations,
        ..pair_parameters()
    };
    let all = [
        with(32, 2, 4),
        with(32, 16, 4),
        with(32, 5, 5),
        with(31, 4, 5),
        with(16, 1, 9),
        with(16, 16, 8),
        with(32, 3, 17),
        with(32, 16, 32),
        with(16, 8, 32),
    ];
    for (k, parameters) in all.into_iter().enumerate() {
        // two vectors in the first two, one in the others, whose randomness is shorter
        let r = if k < 2 { 2 } else { 1 };
        let instance = base(random, Parameters { r, ..parameters });
        let mut tight = instance.clone();
        let figures = instance.figures(&modelled(&instance));
        tighten(&mut tight.parameters, &figures, Tight::Equal);
        context.prover("κ and L apart, bounds equal to their figures", &tight, 1);
        let mut unmet = instance.clone();
        unmet.put_off(random, Off::ALL[1 + k % 7]);
        context.prover("κ and L apart, constraints off", &unmet, 0);
        // an error that the last psi row alone shows
        let rows = parameters.aggregations - 1;
        unmet = instance.clone();
        unmet.put_off(random, Off::AllConstant);
        unmet.randomness[1][..rows * parameters.constant].fill(0);
        context.prover("κ and L apart, the last psi row shows an error", &unmet, 0);
        if k == 1 || k == 7 {
            damaged_sections(context, &instance);
            for call in Call::ALL {
                unfit(context, random, &instance, call, pairs);
            }
        }
    }
}

/// Statements of one kind only: met and not met, with every bound at its figure and just below, damaged transcripts
/// and, with pairs as often as asked, unfit slices of each call.
pub fn one_kind(context: &mut Context, random: &mut Random, pairs: usize) {
    for (ring, constant) in [(0, 2), (2, 0)] {
        let parameters = Parameters { ring, constant, ..pair_parameters() };
        let instance = base(random, parameters);
        bounds(context, &instance);
        for off in Off::ALL {
            let mut unmet = instance.clone();
            unmet.put_off(random, off);
            context.prover(off.name(), &unmet, 0);
        }
        damaged_sections(context, &instance);
        free_words(context, &instance);
        for call in Call::ALL {
            unfit(context, random, &instance, call, pairs);
        }
    }
}

/// The sum of check 23 with two digits of z, as the Rust takes it.
fn two_digits_sum(p: &Parameters, sent: &Transcript) -> u128 {
    elements_norm(&cell_digits(p.b, 2, &sent.z)) + digits_norms(p, &sent.t, &sent.g, &sent.h).iter().sum::<u128>()
}

/// Witnesses with large words in small bases: of z something is left after two digits (document 02, Item 9), and the
/// limit of check 23 stands at the sum with two digits and at the sum with the whole rest, and just below each.
pub fn large_z(context: &mut Context, random: &mut Random, instance: &Instance) {
    for (b, size) in [(2, Size::Bits(16)), (16, Size::Any), (255, Size::Ends)] {
        let mut large = instance.clone();
        large.parameters.b = b;
        large.witness.fill_with(|| coefficient(random, size));
        large.meet();
        let sent = modelled(&large);
        let whole = large.figures(&sent).sum;
        let digits = two_digits_sum(&large.parameters, &sent);
        for (purpose, limit) in [
            ("beta_prime_sq below the sum with two digits of z", digits - 1),
            ("beta_prime_sq at the sum with two digits of z", digits),
            ("beta_prime_sq below the sum with the whole rest of z", whole - 1),
            ("beta_prime_sq at the sum with the whole rest of z", whole),
        ] {
            large.parameters.beta_prime_sq = limit;
            context.prover(purpose, &large, 0);
        }
    }
}

/// Parts too few for some cells and for all, exactly enough and one too few; and one cell with one coefficient alone
/// that has something left (document 02, Item 5).
pub fn lossy(context: &mut Context, random: &mut Random) {
    let with = |b, t1, t2| Parameters { r: if t1 > 4 { 1 } else { 2 }, b, t1, t2, ..pair_parameters() };
    let needed = |b| parts_needed(b) as usize;
    let all = [
        ("t1 and t2 too small for all cells", with(2, 1, 1), Size::Any),
        ("t1 too small", with(256, 1, needed(256)), Size::Any),
        ("t2 too small", with(256, needed(256), 1), Size::Any),
        ("t1 and t2 exactly enough", with(65536, needed(65536), needed(65536)), Size::Ends),
        ("t1 and t2 exactly enough", with(3, needed(3), needed(3)), Size::Any),
        ("t1 and t2 one part too few", with(3, needed(3) - 1, needed(3) - 1), Size::Any),
    ];
    for (purpose, parameters, size) in all {
        let instance = Instance::random(random, parameters, size);
        context.prover(purpose, &instance, 0);
    }
    // t and h are zero, and so is g but for coefficient 0 of its first cell
    let mut single = Instance::random(random, with(65536, 2, 1), Size::Zero);
    for section in [0, 1, 3, 4, 6] {
        single.job[section].fill(0);
    }
    single.randomness[2].fill(0);
    single.witness[0] = 300;
    single.meet();
    context.prover("one coefficient of one cell with something left", &single, 0);
}

/// An instance for the families below, whose projection's norm 128 divides.
pub fn base(random: &mut Random, parameters: Parameters) -> Instance {
    Instance::random(random, parameters, Size::Sixteens)
}

/// Every bound at its figure and just below.
pub fn bounds(context: &mut Context, instance: &Instance) {
    let r = instance.parameters.r;
    let figures = instance.figures(&modelled(instance));
    assert_eq!(figures.projection % 128, 0, "128·beta_sq can equal it");
    for tight in TIGHT {
        let mut instance = instance.clone();
        tighten(&mut instance.parameters, &figures, tight);
        context.prover(tight.name(), &instance, 0);
    }
    // the lowest vector above A's bound
    let mut rising = instance.clone();
    for (i, chunk) in rising.witness.chunks_mut(64 * instance.parameters.n).enumerate() {
        chunk.fill(0);
        chunk[0] = 1 + i as u32;
    }
    for i in 0..r {
        rising.parameters.bounds[0] = (1 + i as u128).pow(2) - 1;
        context.prover("A's bound below the norm of each vector in turn", &rising, 0);
    }
    let mut zero = instance.clone();
    zero.parameters.bounds[0] = 0;
    context.prover("A's bound 0", &zero, 0);
    // bounds from q² / rows³ on, which the Rust's constructor refuses
    let mut wide = instance.clone();
    wide.parameters.bounds = [1 << 64; 4];
    context.prover("bounds of 2^64", &wide, 0);
    // the least limit of check 21 that needs more than three words
    let mut long = instance.clone();
    long.parameters.beta_sq = (1 << 96) - 1;
    context.prover("a limit of check 21 beyond three words", &long, 0);
}

/// Constraints off, and weights under which an error does not show.
pub fn statements(context: &mut Context, random: &mut Random, instance: &Instance) {
    let p = &instance.parameters;
    let (l, rows) = (p.constant, p.aggregations);
    for off in Off::ALL {
        let mut unmet = instance.clone();
        unmet.put_off(random, off);
        context.prover(off.name(), &unmet, 0);
    }
    let mut unmet = instance.clone();
    unmet.put_off(random, Off::All);

    let mut hidden = unmet.clone();
    hidden.randomness[1].fill(0);
    hidden.randomness[3].fill(0);
    context.prover("errors under psi and alpha of zero", &hidden, 0);

    let mut last = unmet.clone();
    last.randomness[1][..(rows - 1) * l].fill(0);
    context.prover("errors that only the last psi row shows", &last, 0);

    let mut zero = unmet;
    zero.witness.fill(0);
    context.prover("a witness of zeros for another's statement", &zero, 0);

    // two numbers whose product is 0 modulo 2^32 − 1; a prime has none
    if mul(65537, 65535) == 0 {
        let mut divisors = instance.clone();
        let right_sides = [(2, 0), (5, 0)];
        for (section, at) in right_sides {
            divisors.job[section][at] = add(divisors.job[section][at], 65537);
        }
        for row in 0..rows {
            divisors.randomness[1][row * l] = 65535;
        }
        divisors.randomness[3][..64].fill(0);
        divisors.randomness[3][0] = 65535;
        context.prover("errors that are zero under their weights", &divisors, 0);
    }

    // opposite errors under equal weights
    if l > 1 && p.ring > 1 {
        let mut cancel = instance.clone();
        for row in 0..rows {
            cancel.randomness[1][row * l + 1] = cancel.randomness[1][row * l];
        }
        cancel.randomness[3].copy_within(..64, 64);
        for (section, at, error) in [(2, 0, 5), (2, 1, Q - 5), (5, 7, 5), (5, 64 + 7, Q - 5)] {
            cancel.job[section][at] = add(cancel.job[section][at], error);
        }
        context.prover("errors that cancel", &cancel, 0);
    }

    // check 27 doubles, which loses nothing modulo an odd Q
    let mut half = instance.clone();
    half.job[5][3] = add(half.job[5][3], HALF + 1);
    context.prover("a ring error of half of Q + 1", &half, 0);
}

/// The verifier's checks and refusals in their order.
const ORDER: [u32; 12] = [21, 22, 23, 24, 25, 26, 27, 14, 15, 28, 16, 29];

/// An instance and a transcript on which exactly the given checks fail.
fn break_checks(instance: &Instance, made: &Transcript, broken: &[u32]) -> (Instance, Transcript) {
    let mut instance = instance.clone();
    let mut sent = made.clone();
    let one_more = |word: &mut u32| *word = add(*word, 1);
    let breaks = |number: u32| broken.contains(&number);
    if breaks(22) {
        one_more(&mut instance.job[2][0]);
    }
    if breaks(24) {
        one_more(&mut instance.job[6][0]);
    }
    if breaks(27) {
        one_more(&mut instance.job[5][0]);
    }
    if breaks(25) {
        // a and a' are zero, so check 27 does not see g
        one_more(&mut sent.g[0][5]);
    }
    if breaks(26) {
        // check 27 sees h's diagonal only
        one_more(&mut sent.h[cell(1, 0)][5]);
    }
    let job = Job::read(&instance.job_words());
    sent.u1 = outer_u1(&job, &sent.t, &sent.g);
    sent.u2 = outer_u2(&job, &sent.h);
    if breaks(28) {
        one_more(&mut sent.u1[0][63]);
    }
    if breaks(29) {
        one_more(&mut sent.u2[0][63]);
    }
    let figures = instance.figures(&sent);
    let p = &mut instance.parameters;
    if breaks(21) {
        tighten(p, &figures, Tight::ProjectionBelow);
    }
    if breaks(23) {
        tighten(p, &figures, Tight::SumBelow);
    }
    for k in 1..4 {
        if breaks(13 + k as u32) {
            tighten(p, &figures, Tight::Below(k));
        }
    }
    (instance, sent)
}

/// A comparison of the tally.
pub const BROKEN: &str = "model: the first check broken with the Rust's verdict";

/// Transcripts and jobs on which each check fails alone, and each two together.
pub fn broken_checks(context: &mut Context, instance: &Instance) {
    let mut instance = instance.clone();
    instance.job[0].fill(0);
    instance.job[3].fill(0);
    instance.meet();
    let made = modelled(&instance);
    let run = |context: &mut Context, purpose: &'static str, broken: &[u32]| {
        let (instance, sent) = break_checks(&instance, &made, broken);
        let answer = context.verifier(purpose, &instance, &join(&sent.sections()), 0);
        context
            .tally
            .compare(BROKEN, &Some(answer.number), &broken.first().copied().or(Some(0)), || format!("{broken:?}"));
    };
    run(context, "no check broken", &[]);
    for (k, &first) in ORDER.iter().enumerate() {
        run(context, "one check broken", &[first]);
        for &second in &ORDER[k + 1..] {
            run(context, "two checks broken", &[first, second]);
        }
    }
    run(context, "all checks broken", &ORDER);
}

/// The first and the last word of each section of the transcript changed, and a transcript of zeros.
pub fn damaged_sections(context: &mut Context, instance: &Instance) {
    let sections = modelled(instance).sections();
    for k in 0..sections.len() {
        for at in [0, sections[k].len() - 1] {
            let mut sections = sections.clone();
            sections[k][at] = add(sections[k][at], 1);
            context.verifier("one end of a section changed", instance, &join(&sections), 0);
        }
    }
    let zeros: Vec<Vec<u32>> = sections.iter().map(|s| vec![0; s.len()]).collect();
    context.verifier("a transcript of zeros", instance, &join(&zeros), 0);
}

/// Words that are free: shuffle words and the bounds' words, all 2^32 − 1.
pub fn free_words(context: &mut Context, instance: &Instance) {
    let mut instance = instance.clone();
    instance.randomness[6].fill(u32::MAX);
    context.prover("free words of 2^32 - 1", &instance, 0);
}

//! Jobs with randomness and witness that document 01 accepts.

use crate::random::Random;
use model::checks::norm_sum;
use model::formulas::{digits_norms, garbage_g, left_side};
use model::leaves::{add, canonical, norm, Element, HALF, Q};
use model::words::*;

/// A bound that no figure reaches.
pub const LOOSE: u128 = (1 << 96) - 1;

/// The least and the greatest word that is no number modulo Q.
pub const ABOVE: &[u32] = if Q == u32::MAX { &[Q] } else { &[Q, u32::MAX] };

/// How large the witness's coefficients are.
#[derive(Clone, Copy, Debug)]
pub enum Size {
    Zero,
    /// At most two to this power.
    Bits(u32),
    /// Any number below Q.
    Any,
    /// Numbers about the ends of the centred range.
    Ends,
    /// Multiples of 16 up to 1600, so that 128 divides the projection's norm.
    Sixteens,
}

pub fn coefficient(random: &mut Random, size: Size) -> u32 {
    match size {
        Size::Zero => 0,
        Size::Bits(k) => {
            let bound = 1_i64 << k;
            canonical(random.below(2 * bound as usize + 1) as i64 - bound)
        }
        Size::Any => random.number(),
        Size::Ends => random.pick(&[0, 1, HALF - 1, HALF, HALF + 1, Q - 1]),
        Size::Sixteens => canonical(16 * (random.below(201) as i64 - 100)),
    }
}

/// Which constraints the witness does not meet.
#[derive(Clone, Copy, Debug, PartialEq, Eq)]
pub enum Off {
    Met,
    OneConstant,
    AllConstant,
    OneRing,
    AllRing,
    /// One of each kind.
    OneOfBoth,
    All,
    /// Ring constraints off in their constant coefficient alone.
    RingConstantTerm,
}

impl Off {
    pub const ALL: [Off; 8] = [
        Off::Met,
        Off::OneConstant,
        Off::AllConstant,
        Off::OneRing,
        Off::AllRing,
        Off::OneOfBoth,
        Off::All,
        Off::RingConstantTerm,
    ];

    pub fn name(&self) -> &'static str {
        match self {
            Off::Met => "statement met",
            Off::OneConstant => "one constant-term constraint off",
            Off::AllConstant => "all constant-term constraints off",
            Off::OneRing => "one ring constraint off",
            Off::AllRing => "all ring constraints off",
            Off::OneOfBoth => "one constraint of each kind off",
            Off::All => "all constraints off",
            Off::RingConstantTerm => "ring constraints off in the constant term",
        }
    }
}

/// Section one stands in `parameters`; `job` has the other ten sections.
#[derive(Clone)]
pub struct Instance {
    pub parameters: Parameters,
    pub job: Vec<Vec<u32>>,
    pub randomness: Vec<Vec<u32>>,
    pub witness: Vec<u32>,
}

/// What is compared with the bounds.
#[derive(Clone, Debug)]
pub struct Figures {
    pub witness: Vec<u128>,
    /// Of t, g and h.
    pub digits: [u128; 3],
    pub projection: u128,
    pub sum: u128,
}

impl Instance {
    /// Random values everywhere, the witness meeting every constraint, the bounds loose.
    pub fn random(random: &mut Random, parameters: Parameters, size: Size) -> Self {
        let p = &parameters;
        let job = p.job_counts()[1..].iter().map(|&count| random.numbers(count)).collect();
        let counts = p.randomness_counts();
        let mut randomness: Vec<Vec<u32>> = counts[..5].iter().map(|&c| random.numbers(c)).collect();
        randomness.push((0..counts[5]).map(|_| random.word() & 1).collect());
        randomness.push((0..counts[6]).map(|_| random.word()).collect());
        let witness = (0..p.witness_counts()[0]).map(|_| coefficient(random, size)).collect();
        let mut instance = Instance { parameters, job, randomness, witness };
        instance.meet();
        instance
    }

    /// Sets the right sides to what the witness gives.
    pub fn meet(&mut self) {
        let job = Job::read(&self.job_words());
        let s = read_witness(&self.parameters, &self.witness_words());
        let g = garbage_g(&s);
        self.job[2] = job.constant.iter().map(|c| left_side(c, &s, &g)[0]).collect();
        let b: Vec<Element> = job.ring.iter().map(|c| left_side(c, &s, &g)).collect();
        self.job[5] = flat(&b);
    }

    /// Adds errors to the right sides.
    pub fn put_off(&mut self, random: &mut Random, off: Off) {
        let mut error = || 1 + random.next_u64() as u32 % (Q - 1);
        let (constant, ring) = (self.parameters.constant, self.parameters.ring);
        let mut constant_off = vec![];
        let mut ring_off = vec![];
        match off {
            Off::Met => {}
            Off::OneConstant => constant_off.extend((0..constant.min(1)).map(|_| error() as usize % constant)),
            Off::AllConstant => constant_off.extend(0..constant),
            Off::OneRing => ring_off.extend((0..ring.min(1)).map(|_| error() as usize % ring)),
            Off::AllRing | Off::RingConstantTerm => ring_off.extend(0..ring),
            Off::OneOfBoth => {
                constant_off.extend((0..constant.min(1)).map(|_| error() as usize % constant));
                ring_off.extend((0..ring.min(1)).map(|_| error() as usize % ring));
            }
            Off::All => {
                constant_off.extend(0..constant);
                ring_off.extend(0..ring);
            }
        }
        for l in constant_off {
            self.job[2][l] = add(self.job[2][l], error());
        }
        for k in ring_off {
            let coefficient = match off {
                Off::RingConstantTerm => 0,
                _ => error() as usize % 64,
            };
            let word = &mut self.job[5][64 * k + coefficient];
            *word = add(*word, error());
        }
    }

    pub fn job_words(&self) -> Vec<u32> {
        let mut sections = vec![self.parameters.words()];
        sections.extend(self.job.clone());
        join(&sections)
    }

    pub fn randomness_words(&self) -> Vec<u32> {
        join(&self.randomness)
    }

    pub fn witness_words(&self) -> Vec<u32> {
        join(std::slice::from_ref(&self.witness))
    }

    /// The figures of a transcript.
    pub fn figures(&self, sent: &Transcript) -> Figures {
        let p = &self.parameters;
        Figures {
            witness: self.witness.chunks(64 * p.n).map(norm).collect(),
            digits: digits_norms(p, &sent.t, &sent.g, &sent.h),
            projection: norm(&sent.p),
            sum: norm_sum(p, &sent.z, &sent.t, &sent.g, &sent.h),
        }
    }
}

/// Bases from the least to the greatest, and about the ends of the centred range.
pub const BASES: [u32; 16] = [2, 3, 4, 5, 7, 10, 16, 255, 256, 65535, 65536, 65537, HALF, HALF + 1, Q - 2, Q - 1];

pub const PARTS: [usize; 10] = [1, 2, 3, 4, 5, 8, 16, 21, 31, 32];

/// The parameters of case number i, with κ = L at its least: every n, r, K and l up to 3 with every log_q, the others drawn.
pub fn small(random: &mut Random, i: usize) -> Parameters {
    let log_q = 16 + i % 17;
    let least = 128_usize.div_ceil(log_q);
    Parameters {
        n: 1 + i % 3,
        r: 1 + i / 3 % 3,
        ring: 1 + i / 9 % 3,
        constant: 1 + i / 27 % 3,
        log_q,
        kappa: least,
        kappa1: 1 + random.below(3),
        kappa2: 1 + random.below(3),
        b: random.pick(&BASES),
        t1: random.pick(&PARTS),
        t2: random.pick(&PARTS),
        aggregations: least,
        beta_sq: LOOSE,
        beta_prime_sq: LOOSE,
        bounds: [LOOSE; 4],
    }
}

/// Those of `small` with constraints of one kind only, the ring's in turn with the constant-term ones.
pub fn one_kind(random: &mut Random, i: usize) -> Parameters {
    let p = small(random, i);
    match i % 2 {
        0 => Parameters { ring: 0, ..p },
        _ => Parameters { constant: 0, ..p },
    }
}

/// Those of `small` with κ and L apart (document 02, Item 6): L at its least, above it and 32, κ below it, above it and
/// equal to it.
pub fn apart(random: &mut Random, i: usize) -> Parameters {
    let p = small(random, i);
    let least = p.aggregations;
    let above = least + 1 + random.below(32 - least);
    let aggregations = [least, above, 32][i % 3];
    let below = 1 + random.below(16.min(aggregations - 1));
    let kappa = match i / 3 % 3 {
        0 => below,
        1 if aggregations < 16 => aggregations + 1 + random.below(16 - aggregations),
        1 => 16,
        _ if aggregations > least => aggregations.min(16),
        _ => 16,
    };
    Parameters { kappa, aggregations, ..p }
}

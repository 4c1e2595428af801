//! The calls of the slice layer against the Rust's own functions.

use crate::instances::LOOSE;
use crate::random::Random;
use crate::rust::{elements, environment, triangle, vector_words, vectors, words};
use crate::tally::Tally;
use labrador::commitments::ajtai_commitment::AjtaiScheme;
use labrador::commitments::common_instances::AjtaiInstances;
use labrador::commitments::outer_commitments::{compute_u1, DecompositionParameters};
use labrador::core::aggregate::ZeroConstantFunctionsAggregation;
use labrador::core::inner_product::compute_linear_combination;
use labrador::core::jl::Projection;
use labrador::relation::env_params::EnvironmentParameters;
use labrador::ring::rq::Rq;
use labrador::ring::rq_matrix::RqMatrix;
use labrador::ring::rq_vector::RqVector;
use labrador::ring::zq::Zq;
use labrador::transcript::sponges::shake::{Playback, Tape};
use labrador::transcript::LabradorTranscript;
use library::slices::{slice_call, SliceCall};
use model::leaves::Q;
use model::words::Parameters;

/// Heading of the tally.
pub const SLICES: &str = "answers of the slice calls";

/// A comparison of the tally.
const UNFIT: &str = "library: slice calls that do not fit, with a refusal that touches nothing";

/// The comparison of a call that fits.
fn kind(call: SliceCall) -> &'static str {
    match call {
        SliceCall::InnerProduct => "library: inner product with the Rust's",
        SliceCall::Combination => "library: linear combination with the Rust's",
        SliceCall::Projection => "library: p with the Rust's",
        SliceCall::Phi => "library: phi'' with the Rust's",
        SliceCall::U1 => "library: u1 with the Rust's",
    }
}

/// Words of an element.
const D: usize = 64;

/// The lengths of a call's two inputs and of its output.
pub fn lengths(call: SliceCall, sizes: &[usize]) -> ([usize; 2], usize) {
    match (call, sizes) {
        (SliceCall::InnerProduct, &[n]) => ([D * n, D * n], D),
        (SliceCall::Combination, &[n]) => ([D * n, n], D),
        (SliceCall::Projection, &[n, r]) => ([r * 256 * D * n, r * D * n], 256),
        (SliceCall::Phi, &[r, n, count, number]) => {
            ([D * r * n * count, r * 256 * D * n + number * count + number * 256], D * number * r * n)
        }
        (SliceCall::U1, &[rows, t_cells, t_parts, g_cells, g_parts]) => {
            ([D * rows * (t_cells * t_parts + g_cells * g_parts), D * (t_cells + g_cells)], D * rows)
        }
        _ => panic!("the sizes of {}", call.name()),
    }
}

/// The sizes of u1 for κ1 rows, of t's r rows of κ elements and g's triangle of r rows.
pub fn u1_sizes(kappa1: usize, r: usize, kappa: usize, t1: usize, t2: usize) -> Vec<usize> {
    vec![kappa1, r * kappa, t1, r * (r + 1) / 2, t2]
}

/// Rows of numbers, as the Rust has them.
fn number_rows(words: &[u32], count: usize) -> Vec<Vec<Zq>> {
    let row = |row: &[u32]| row.iter().map(|&w| Zq::new(w)).collect();
    words.chunks_exact(count).map(row).collect()
}

fn projection(words: &[u32], n: usize, r: usize) -> Projection {
    Tape::new(words.to_vec(), vec![], vec![]).load();
    LabradorTranscript::new(Playback).generate_projections(128, n, r)
}

/// The parameters that the Rust's aggregation reads.
fn phi_parameters(r: usize, n: usize, number: usize) -> EnvironmentParameters {
    let p = Parameters {
        n,
        r,
        kappa: 1,
        kappa1: 1,
        kappa2: 1,
        ring: 1,
        constant: 1,
        log_q: 32,
        b: 2,
        t1: 1,
        t2: 1,
        aggregations: number,
        beta_sq: LOOSE,
        beta_prime_sq: LOOSE,
        bounds: [LOOSE; 4],
    };
    environment(&p)
}

/// A call's operands as the Rust has them.
pub enum Operands {
    InnerProduct(Vec<Rq>, Vec<Rq>),
    Combination(Vec<Rq>, Vec<Zq>),
    Projection(Projection, Vec<RqVector>),
    Phi {
        parameters: EnvironmentParameters,
        phi: Vec<Vec<RqVector>>,
        conjugated: Vec<RqMatrix>,
        psi: Vec<Vec<Zq>>,
        omega: Vec<Vec<Zq>>,
    },
    U1 {
        crs: AjtaiInstances,
        t: RqMatrix,
        g: RqMatrix,
        base: Zq,
        parts: [usize; 2],
    },
}

/// A scheme that commits to everything.
fn scheme(words: &[u32], width: usize) -> AjtaiScheme {
    AjtaiScheme::with_any_bound(u128::MAX, RqMatrix::new(vectors(words, width), false))
}

/// The scheme of a matrix that is not looked at.
fn no_scheme() -> AjtaiScheme {
    AjtaiScheme::with_any_bound(0, RqMatrix::zero(1, 1))
}

/// The rows of a triangle with so many cells.
fn triangle_rows(cells: usize) -> usize {
    (1..).find(|r| r * (r + 1) / 2 == cells).expect("a triangle")
}

/// What the Rust's function makes.
#[allow(clippy::large_enum_variant)] // the benchmark times it, and the Rust makes no box
pub enum Made {
    Element(Rq),
    Numbers(Vec<Zq>),
    Vectors(Vec<RqVector>),
}

impl Made {
    pub fn words(&self) -> Vec<u32> {
        match self {
            Made::Element(a) => words(a),
            Made::Numbers(p) => p.iter().map(Zq::get_value).collect(),
            Made::Vectors(vectors) => vectors.iter().flat_map(vector_words).collect(),
        }
    }
}

impl Operands {
    /// Of words that fit.
    pub fn new(call: SliceCall, [first, second]: [&[u32]; 2], sizes: &[usize], base: u32) -> Self {
        match (call, sizes) {
            (SliceCall::InnerProduct, _) => Operands::InnerProduct(elements(first), elements(second)),
            (SliceCall::Combination, &[n]) => Operands::Combination(elements(first), number_rows(second, n).concat()),
            (SliceCall::Projection, &[n, r]) => Operands::Projection(projection(first, n, r), vectors(second, n)),
            (SliceCall::Phi, &[r, n, count, number]) => {
                let (matrices, rest) = second.split_at(r * 256 * D * n);
                let (psi, omega) = rest.split_at(number * count);
                Operands::Phi {
                    parameters: phi_parameters(r, n, number),
                    phi: first.chunks_exact(D * r * n).map(|chunk| vectors(chunk, n)).collect(),
                    conjugated: projection(matrices, n, r).get_conjugated_projection_matrices(),
                    psi: number_rows(psi, count),
                    omega: number_rows(omega, 256),
                }
            }
            (SliceCall::U1, &[rows, t_cells, t_parts, g_cells, g_parts]) => {
                let (b, c) = first.split_at(D * rows * t_cells * t_parts);
                let (t, g) = second.split_at(D * t_cells);
                let r = triangle_rows(g_cells);
                Operands::U1 {
                    crs: AjtaiInstances {
                        commitment_scheme_a: no_scheme(),
                        commitment_scheme_b: scheme(b, t_cells * t_parts),
                        commitment_scheme_c: scheme(c, g_cells * g_parts),
                        commitment_scheme_d: no_scheme(),
                    },
                    t: RqMatrix::new(vectors(t, t_cells / r), false),
                    g: triangle(g, r),
                    base: Zq::new(base),
                    parts: [t_parts, g_parts],
                }
            }
            _ => panic!("the sizes of {}", call.name()),
        }
    }

    /// The Rust's own function.
    pub fn run(&self) -> Made {
        match self {
            Operands::InnerProduct(x, y) => Made::Element(compute_linear_combination(x, y)),
            Operands::Combination(x, factors) => Made::Element(compute_linear_combination(x, factors)),
            Operands::Projection(projection, s) => Made::Numbers(projection.compute_batch_projection(s)),
            Operands::Phi { parameters, phi, conjugated, psi, omega } => {
                let mut made = ZeroConstantFunctionsAggregation::new(parameters);
                made.calculate_agg_phi_double_prime(phi, conjugated, psi, omega);
                Made::Vectors(made.get_phi_double_prime().concat())
            }
            Operands::U1 { crs, t, g, base, parts: [t_parts, g_parts] } => {
                let parts = |parts: usize| DecompositionParameters::new(*base, parts).expect("within limits");
                Made::Vectors(vec![compute_u1(crs, t, parts(*t_parts), g, parts(*g_parts))])
            }
        }
    }
}

/// Random inputs, of canonical words.
pub fn inputs(random: &mut Random, call: SliceCall, sizes: &[usize]) -> [Vec<u32>; 2] {
    lengths(call, sizes).0.map(|length| random.numbers(length))
}

/// Words behind each lent buffer.
const GUARD: usize = 16;

/// Runs a call, with guard words behind the output; the answer, and the output with its guard.
fn run(
    call: SliceCall,
    inputs: [&[u32]; 2],
    sizes: &[usize],
    base: u32,
    before: &[u32],
    length: usize,
) -> (bool, Vec<u32>) {
    let mut buffer = before.to_vec();
    let answer = slice_call(call, inputs, sizes, base, &mut buffer[..length]);
    (answer, buffer)
}

/// Compares a call that fits with the Rust's function, and calls that do not with a refusal that touches nothing.
fn take(tally: &mut Tally, random: &mut Random, call: SliceCall, sizes: &[usize], base: u32) {
    let made = inputs(random, call, sizes);
    let given = [&made[0][..], &made[1][..]];
    let (_, length) = lengths(call, sizes);
    let before = random.numbers(length + GUARD);
    let ours = run(call, given, sizes, base, &before, length);
    let done = Operands::new(call, given, sizes, base).run().words();
    let expected = [&done, &before[length..]].concat();
    let described = || format!("{} {sizes:?} base {base}", call.name());
    tally.compare(kind(call), &ours, &(true, expected), described);
    tally.occurred(SLICES, format!("{:<14} done", call.name()));
    // one word more and one less of each slice, and one more of each size
    let refuse = |tally: &mut Tally, given: [&[u32]; 2], sizes: &[usize], base: u32, length: usize| {
        refused(tally, call, given, sizes, base, &before, length)
    };
    for which in 0..2 {
        let longer = [given[which], &[1]].concat();
        for other in [&longer[..], &given[which][1..]] {
            let mut given = given;
            given[which] = other;
            refuse(tally, given, sizes, base, length);
        }
    }
    refuse(tally, given, sizes, base, length + 1);
    refuse(tally, given, sizes, base, length - 1);
    for which in 0..sizes.len() {
        let mut sizes = sizes.to_vec();
        sizes[which] += 1;
        refuse(tally, given, &sizes, base, length);
        sizes[which] = usize::MAX;
        refuse(tally, given, &sizes, base, length);
    }
    if call == SliceCall::U1 {
        for base in [0, 1] {
            refuse(tally, given, sizes, base, length);
        }
    }
}

/// A call that does not fit.
fn refused(
    tally: &mut Tally,
    call: SliceCall,
    given: [&[u32]; 2],
    sizes: &[usize],
    base: u32,
    before: &[u32],
    length: usize,
) {
    let ours = run(call, given, sizes, base, before, length);
    let lengths = given.map(<[u32]>::len);
    let described = || format!("{} {sizes:?} base {base}, lengths {lengths:?}", call.name());
    tally.compare(UNFIT, &ours, &(false, before.to_vec()), described);
    tally.occurred(SLICES, format!("{:<14} refused", call.name()));
}

/// Sizes just above their limits, with slices of the lengths that they tell.
const ABOVE: [(SliceCall, &[usize]); 13] = [
    (SliceCall::InnerProduct, &[65]),
    (SliceCall::Combination, &[65]),
    (SliceCall::Projection, &[65, 1]),
    (SliceCall::Projection, &[1, 17]),
    (SliceCall::Phi, &[17, 1, 1, 1]),
    (SliceCall::Phi, &[1, 65, 1, 1]),
    (SliceCall::Phi, &[1, 1, 65, 1]),
    (SliceCall::Phi, &[1, 1, 1, 33]),
    (SliceCall::U1, &[17, 1, 1, 1, 1]),
    (SliceCall::U1, &[1, 257, 1, 1, 1]),
    (SliceCall::U1, &[1, 1, 33, 1, 1]),
    (SliceCall::U1, &[1, 1, 1, 137, 1]),
    (SliceCall::U1, &[1, 1, 1, 1, 33]),
];

/// Each call on `count` random sizes beside the ends of their ranges.
pub fn all(tally: &mut Tally, random: &mut Random, count: usize) {
    tally.must_compare(&[UNFIT]);
    for call in SliceCall::ALL {
        tally.must_compare(&[kind(call)]);
        for answer in ["done", "refused"] {
            tally.must_occur(SLICES, format!("{:<14} {answer}", call.name()));
        }
    }
    for (call, sizes) in ABOVE {
        let (given, length) = lengths(call, sizes);
        let given = given.map(|length| vec![0; length]);
        let before = vec![7; length + GUARD];
        refused(tally, call, [&given[0], &given[1]], sizes, 2, &before, length);
    }
    for n in [1, 2, 16, 63, 64] {
        take(tally, random, SliceCall::InnerProduct, &[n], 2);
        take(tally, random, SliceCall::Combination, &[n], 2);
    }
    take(tally, random, SliceCall::Projection, &[64, 1], 2);
    take(tally, random, SliceCall::Projection, &[1, 16], 2);
    take(tally, random, SliceCall::Phi, &[16, 1, 64, 8], 2);
    take(tally, random, SliceCall::Phi, &[1, 1, 2, 32], 2);
    take(tally, random, SliceCall::Phi, &[1, 64, 1, 1], 2);
    take(tally, random, SliceCall::U1, &u1_sizes(16, 16, 16, 1, 1), 256);
    take(tally, random, SliceCall::U1, &u1_sizes(1, 2, 1, 32, 32), 2);
    for _ in 0..count {
        let n = 1 + random.below(64);
        take(tally, random, SliceCall::InnerProduct, &[n], 2);
        take(tally, random, SliceCall::Combination, &[n], 2);
        let small = |random: &mut Random| 1 + random.below(4);
        let (n, r) = (small(random), small(random));
        take(tally, random, SliceCall::Projection, &[n, r], 2);
        let sizes = [r, n, 1 + random.below(8), 1 + random.below(8)];
        take(tally, random, SliceCall::Phi, &sizes, 2);
        let base = match random.below(3) {
            0 => 2 + random.below(15) as u32,
            1 => 1 << (1 + random.below(31)),
            _ => (2 + random.next_u64() % u64::from(Q - 2)) as u32,
        };
        let (kappa1, kappa) = (small(random), small(random));
        let (t1, t2) = (1 + random.below(8), 1 + random.below(8));
        take(tally, random, SliceCall::U1, &u1_sizes(kappa1, r, kappa, t1, t2), base);
    }
}

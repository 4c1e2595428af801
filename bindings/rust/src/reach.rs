//! The greatest norm that each limit can be held against.

use crate::number::HALF;
use crate::section_one::{Parameters, SectionOne, BOUNDS, PARAMETERS};

/// The greatest size of a centred number.
const GREATEST: u128 = HALF as u128;

/// A limit with the check or refusal that is answered above it.
pub(crate) struct Limit {
    pub number: u32,
    pub name: &'static str,
    pub limit: u128,
    pub greatest: u128,
    /// The bound's first word in the job.
    pub at: u64,
}

impl Limit {
    /// Whether no norm is above it.
    pub fn limits_nothing(&self) -> bool {
        self.limit >= self.greatest
    }
}

/// Where a size goes after one digit: the size less its digit, divided by the base.
fn rest(size: u128, base: u128) -> u128 {
    let rem = size % base;
    let up = u128::from(rem > base / 2);
    size / base + up
}

/// The sum over the parts of the greatest square of that digit. A digit is at most half the base, and at most the size that
/// is left when it is taken.
fn digit_squares(base: u128, parts: u32) -> u128 {
    let (mut size, mut sum) = (GREATEST, 0);
    for _ in 0..parts {
        let digit = size.min(base / 2);
        sum += digit * digit;
        size = rest(size, base);
    }
    sum
}

/// The first word of a bound.
pub(crate) fn bound_at(name: &str) -> u64 {
    let k = BOUNDS.iter().position(|bound| bound.name == name).expect("a bound of section one");
    (1 + PARAMETERS.len() + 3 * k) as u64
}

/// The limits, in the order of [`BOUNDS`].
pub(crate) fn limits(one: &SectionOne) -> [Limit; 6] {
    let p = &one.parameters;
    let [n, r, kappa, base] = [p.n, p.r, p.kappa, p.b].map(u128::from);
    let cells = u128::from(p.triangle());
    let t = 64 * r * kappa * digit_squares(base, p.t_1);
    let g = 64 * cells * digit_squares(base, p.t_2);
    let h = 64 * cells * digit_squares(base, p.t_1);
    let z = 64 * n * (digit_squares(base, 1) + rest(GREATEST, base).pow(2));
    let greatest = [256 * GREATEST.pow(2), z + t + g + h, 64 * n * GREATEST.pow(2), t, g, h];
    let numbers = [21, 23, 13, 14, 15, 16];
    std::array::from_fn(|k| {
        let (name, limit) = match k {
            0 => ("128·beta_sq", one.projection_limit()),
            _ => (BOUNDS[k].name, one.bounds[k]),
        };
        Limit { number: numbers[k], name, limit, greatest: greatest[k], at: bound_at(BOUNDS[k].name) }
    })
}

/// The square, on the average, of a number that is drawn evenly from an interval of this width around 0.
fn drawn_evenly(width: u128) -> u128 {
    width * width / 12
}

/// The norms, on the average, of the two parts of an element of z and of the digits of a cell of h that have any size.
fn any_size(p: &Parameters) -> [u128; 2] {
    let (q, base) = (2 * GREATEST + 1, u128::from(p.b));
    let digits = (0..p.t_1).map(|k| drawn_evenly(base.min(q / base.checked_pow(k).unwrap_or(q + 1))));
    [drawn_evenly(base.min(q)) + drawn_evenly(q / base), digits.sum()].map(|square| 64 * square)
}

/// The sum of check 23, on the average, of 2·kappa + 2 elements of z and one cell of h that have any size, the rest being zero:
/// where its limit has room for it.
pub(crate) fn room_for_any_z(one: &SectionOne) -> Option<u128> {
    let [element, cell] = any_size(&one.parameters);
    let sum = u128::from(2 * one.parameters.kappa + 2) * element + cell;
    (one.bound("beta_prime_sq") >= sum).then_some(sum)
}

/// Whether bound_D has room, on the average, for one cell of h that has any size, the rest being zero.
pub(crate) fn room_for_any_h(one: &SectionOne) -> bool {
    let [_, cell] = any_size(&one.parameters);
    one.bound("bound_D") >= cell
}

/// Whether the check or refusal of this number can never fail.
pub(crate) fn never_fails(one: &SectionOne, number: u32) -> bool {
    limits(one).iter().any(|limit| limit.number == number && limit.limits_nothing())
}

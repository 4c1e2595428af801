//! Numbers modulo the primes of Q.

use labrador::Q;

/// The primes of Q, which is no multiple of a square.
pub fn primes() -> Vec<u64> {
    let (mut rest, mut primes) = (u64::from(Q), Vec::new());
    let mut factor = 2;
    while factor * factor <= rest {
        if rest.is_multiple_of(factor) {
            primes.push(factor);
            rest /= factor;
        } else {
            factor += 1;
        }
    }
    primes.push(rest);
    assert!(primes.windows(2).all(|pair| pair[0] < pair[1]));
    primes
}

pub fn power(base: u64, exponent: u64, prime: u64) -> u64 {
    let (mut product, mut square) = (1, base % prime);
    for bit in 0..64 {
        if exponent >> bit & 1 == 1 {
            product = product * square % prime;
        }
        square = square * square % prime;
    }
    product
}

pub fn inverse(number: u64, prime: u64) -> u64 {
    power(number, prime - 2, prime)
}

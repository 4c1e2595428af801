//! Many transcripts whose randomness is drawn by one joint hash: each round's draw hashes that round's messages of all.

use super::fraction::Fraction;
use super::modulus::linear_factors;
use super::natural::Natural;
use super::Worth;

/// The tries until `least` of `count` independent errors are weighed to 0 at once, each in one of `p` draws, for each `least` from
/// 0 to `count`: one over the chance that so many or more are.
fn tries_for_at_least(count: u32, p: u32) -> Vec<Fraction> {
    let [one_less, all] = [p - 1, p].map(|number| Natural::from(u128::from(number)));
    let draws = all.pow(count);
    let mut tail = Natural::from(0);
    let mut ways = Natural::from(1);
    let mut tries = Vec::new();
    for k in (0..=count).rev() {
        tail = tail.add(&ways.mul(&one_less.pow(count - k)));
        tries.push(Fraction::of(draws.clone(), tail.clone()));
        // C(count, k - 1) = C(count, k)·k / (count - k + 1)
        ways = ways.mul(&Natural::from(u128::from(k))).divided(count - k + 1);
    }
    tries.reverse();
    tries
}

/// The tries of one round that is ground alone: none where no transcript rests on it.
fn ground(transcripts: u32, tries: Fraction) -> Fraction {
    if transcripts == 0 {
        Fraction::zero()
    } else {
        tries
    }
}

/// The tries of the cheapest known attack on `count` transcripts: of a that rest on psi, b on beta and c on the challenges, the
/// rounds are ground one after the other, so that their tries add up. Which rest on psi is settled before it is drawn; of the
/// others any b may slip through at beta.
pub(super) fn tries(worth: &Worth, count: u32) -> Option<Fraction> {
    let most_psi = if worth.constant_terms { count } else { 0 };
    let (least_prime, slots) = (worth.modulus.least_prime(), worth.modulus.slots);
    let mut all = Vec::new();
    for a in 0..=most_psi {
        let psi = ground(a, Fraction::new(least_prime.into(), 1).pow(worth.rows * a));
        let Some(&slot) = slots.first() else {
            // beta and the challenges of each that does not rest on psi
            all.push(psi.add(&ground(count - a, worth.in_one_field().inverse().pow(count - a))));
            continue;
        };
        let zeros = linear_factors(worth.vectors);
        for (b, beta) in (0..).zip(tries_for_at_least(count - a, slot)) {
            let c = count - a - b;
            let challenges = ground(c, Fraction::new(slot.into(), zeros.into()).pow(c));
            all.push(psi.add(&ground(b, beta)).add(&challenges));
        }
    }
    all.into_iter().min()
}

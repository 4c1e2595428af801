//! What an acceptance is worth: from a job's parameters the chance that the best known attack leaves a false statement. These
//! figures bound the attacks that are known and prove no soundness: a false statement's chance is at least so great.
//!
//! ```
//! use labrador::worth::Worth;
//! use labrador::{load, section_one::SectionOne, Parameters};
//!
//! let job = load(&Parameters::SMALL, 1)?.job;
//! let worth = Worth::of(&SectionOne::read(&job).unwrap());
//! assert!(worth.one().is_at_most_2_to_minus(6));
//! assert!(worth.drawn_needed(64) <= Some(11));
//! assert!(worth.joint_needed(64) <= Some(28));
//! # Ok::<(), labrador::Refusal>(())
//! ```

use std::iter::successors;

use crate::reach;
use crate::section_one::SectionOne;

mod fraction;
mod joint;
mod marks;
mod modulus;
mod natural;
mod together;
mod zero;

pub use fraction::Fraction;
pub use marks::{repeats_of, Marker, Marks};
pub use modulus::{Divisor, Modulus, DEFAULT, MODULUS, PRIME};
pub use together::{repeats, Repeat, Shared};
pub use zero::{zero_sections, ZeroSection};

/// What the chances rest on.
#[derive(Clone, Copy, Debug, PartialEq, Eq)]
pub struct Worth {
    pub modulus: &'static Modulus,
    /// L, the rows of psi.
    pub rows: u32,
    /// Whether there are constant-term constraints: l > 0.
    pub constant_terms: bool,
    /// r, the witness vectors.
    pub vectors: u32,
    /// Whether anything passes for certain.
    pub certain: bool,
}

/// So many transcripts are the most that are looked at.
const MOST: u32 = 256;

/// Whether any statement passes without a witness: s, t, g and p are zero, h_11 is twice the aggregated b and h is zero elsewhere, and z with
/// ⟨z,z⟩ = 0 and n/2 free elements meets the kappa + 1 equations of 24 and 26. Twice the aggregated b has any size, as alpha and beta have, so
/// bound_D must have room for one such cell; check 23 can never fail, or has room for it and for a z of any size. Room is room for what the
/// norms are on the average. Nothing is claimed where bound_D has less, though the cell can be shared out among the r cells h_ii.
pub fn passes_without_witness(one: &SectionOne) -> bool {
    let p = &one.parameters;
    let z_is_free = reach::never_fails(one, 23) || reach::room_for_any_z(one).is_some();
    p.n >= 2 * p.kappa + 2 && z_is_free && reach::room_for_any_h(one)
}

impl Worth {
    /// Under a job that is fit.
    pub fn of(one: &SectionOne) -> Worth {
        let p = &one.parameters;
        let certain = passes_without_witness(one);
        Worth { modulus: &MODULUS, rows: p.L, constant_terms: p.l > 0, vectors: p.r, certain }
    }

    /// The chance of a false statement whose error lies in these slots alone.
    pub fn in_slots(&self, slots: &[u32]) -> Fraction {
        let each = slots.iter().map(|&slot| Modulus::slips_through(slot, self.vectors));
        each.fold(Fraction::new(1, 1), |chance, slot| chance.mul(&slot))
    }

    /// The chance of a total that is wrong by a multiple of q divided by its least prime, where there are totals: psi weighs the error
    /// to 0 in each row.
    pub fn by_psi(&self) -> Option<Fraction> {
        self.constant_terms.then(|| self.modulus.weighed_to_zero(self.rows))
    }

    /// The chance of a false statement whose error lies in the least residue field.
    fn in_one_field(&self) -> Fraction {
        match self.modulus.slots.first() {
            Some(&slot) => self.in_slots(&[slot]),
            None => self.modulus.slips_through_wide(self.vectors),
        }
    }

    /// The chance of one accepted transcript, with randomness that the desk draws.
    pub fn one(&self) -> Fraction {
        if self.certain {
            return Fraction::new(1, 1);
        }
        self.by_psi().into_iter().chain([self.in_one_field()]).max().expect("there is one")
    }

    /// The chance of so many transcripts of one statement, each with randomness of its own that the desk draws, all accepted, none
    /// tried again.
    pub fn drawn(&self, transcripts: u32) -> Fraction {
        self.one().pow(transcripts)
    }

    /// The tries of the cheapest known attack on so many transcripts, all accepted, whose randomness one joint hash draws; nothing
    /// where no attack is known.
    pub fn joint(&self, transcripts: u32) -> Option<Fraction> {
        match self.certain {
            true => Some(Fraction::new(1, 1)),
            false => joint::tries(self, transcripts),
        }
    }

    /// The same where each transcript's randomness is hashed from that transcript alone: one is tried after the other, so that the
    /// tries add up.
    pub fn hashed_alone(&self, transcripts: u32) -> Option<Fraction> {
        self.joint(1).map(|tries| tries.mul(&Fraction::new(transcripts.into(), 1)))
    }

    /// The fewest transcripts drawn by the desk whose chance is at most 2^-bits.
    pub fn drawn_needed(&self, bits: u32) -> Option<u32> {
        let one = self.one();
        if one.is_certain() {
            return None;
        }
        let powers = successors(Some(one.clone()), |power| Some(power.mul(&one)));
        (1..=MOST).zip(powers).find(|(_, chance)| chance.is_at_most_2_to_minus(bits)).map(|(count, _)| count)
    }

    /// The fewest transcripts under one joint hash whose tries are at least 2^bits.
    pub fn joint_needed(&self, bits: u32) -> Option<u32> {
        let enough = |count: &u32| self.joint(*count).is_none_or(|tries| tries.inverse().is_at_most_2_to_minus(bits));
        (1..=MOST).find(enough).filter(|_| !self.certain)
    }
}

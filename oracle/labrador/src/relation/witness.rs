//! Stand-in: the witness s_1 to s_r.

use crate::ring::rq_vector::RqVector;

pub struct Witness {
    pub s: Vec<RqVector>,
}

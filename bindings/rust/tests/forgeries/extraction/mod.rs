//! What a tree of accepted transcripts gives away: forks at the challenges made by the exported calls, and what the extraction of
//! `docs/SOUNDNESS.md` ends in. Of an honest prover it is the witness (`honest`, and up to the constraints `tree`), of one that deviates
//! in one slot a difference without an inverse (`one_slot`), of one without a witness a short vector of A (`short`).

mod ending;
mod equation;
mod fork;
mod values;

mod honest;
mod one_slot;
mod short;
mod tree;

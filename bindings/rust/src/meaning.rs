//! What each number of an answer means: one table, from which the errors, the command line and the page take their words.

/// A row of the table.
#[derive(Clone, Copy, Debug)]
pub struct Meaning {
    pub number: u32,
    /// What was found, as a sentence without its end.
    pub short: &'static str,
    /// Who can cause it.
    pub cause: &'static str,
    /// What its place or its figures are.
    pub place: &'static str,
    /// What follows from it.
    pub follows: &'static str,
}

impl Meaning {
    pub fn is_check(&self) -> bool {
        (21..=29).contains(&self.number)
    }

    /// `refusal 6` or `check 22`.
    pub fn title(&self) -> String {
        let kind = if self.is_check() { "check" } else { "refusal" };
        format!("{kind} {}", self.number)
    }
}

/// The row of a number; 0 (accepted, or made) has none.
pub fn meaning(number: u32) -> Option<&'static Meaning> {
    MEANINGS.iter().find(|m| m.number == number)
}

/// A test of the verifier's work.
#[derive(Clone, Copy, Debug)]
pub struct Check {
    /// What is answered where it fails.
    pub number: u32,
    /// What holds where it passes.
    pub holds: &'static str,
    /// Whether it is one of demand 3's four conditions: of a transcript that the prover made of the same job and randomness,
    /// no other can fail.
    pub condition: bool,
}

const fn check(number: u32, condition: bool, holds: &'static str) -> Check {
    Check { number, holds, condition }
}

/// The tests of the verifier's work in their order.
pub const CHECKS: [Check; 12] = [
    check(21, true, "the norm of the projection p is at most 128·beta_sq"),
    check(22, true, "each constant term of b'' is the one that psi, b0, omega and p give"),
    check(23, true, "the norms of z's two parts and of the digits of t, g and h are together at most beta_prime_sq"),
    check(24, false, "A·z is the sum of t_i·c_i"),
    check(25, false, "<z,z> is the sum of g_ij·c_i·c_j"),
    check(26, false, "twice the sum of <phi_i,z>·c_i is the sum of h_ij·c_i·c_j"),
    check(27, true, "twice the sum of a_ij·g_ij plus the sum of h_ii is twice the aggregated b"),
    check(14, false, "the norm of the digits of t is at most B's bound"),
    check(15, false, "the norm of the digits of g is at most C's bound"),
    check(28, false, "u1 is the commitment to the digits of t and g"),
    check(16, false, "the norm of the digits of h is at most D's bound"),
    check(29, false, "u2 is the commitment to the digits of h"),
];

const JOB: &str = "whoever writes the job";
const RANDOMNESS: &str = "whoever draws the randomness";
const WITNESS: &str = "whoever holds the witness";
const SENDER: &str = "whoever sends the transcript";
const LENDER: &str = "whoever lends the buffers";
const WORK: &str = "witness and job together; in the verifier the transcript";
const STATEMENT: &str = "a witness that does not fit the job, or a transcript that the prover did not make";
const FORGED: &str = "a transcript that the prover did not make of this job and this randomness";
const CALLER: &str = "whoever makes the call";

const LAYOUT: &str =
    "the word's index: of the wrong count or the first surplus word; the slice's length where it ends early";
const WORD: &str = "the word's index in the slice, from 0";
const NEEDED: &str = "the length that is needed, in words";
const NO_PLACE: &str = "0, it has none";
const NO_FIGURES: &str = "it has none";

const MEND_LAYOUT: &str =
    "The slice is cut, lengthened, damaged, of another kind, or belongs to a job with other parameters.";
const MEND_WORD: &str = concat!(
    "The slice is damaged or was not made for these calls, or for another modulus; every number is below Q = ",
    env!("LABRADOR_Q"),
    "."
);
const NOT_HONEST: &str =
    "The prover's transcript never fails this check with its own job and randomness: this one was \
                          changed, or belongs to another job or other randomness.";
const DIGITS: &str =
    "The prover answers it where the digits are too large for the bound. The prover's transcript never gets \
                      it from the verifier with its own job and randomness.";

const fn row(
    number: u32,
    short: &'static str,
    cause: &'static str,
    place: &'static str,
    follows: &'static str,
) -> Meaning {
    Meaning { number, short, cause, place, follows }
}

pub const MEANINGS: [Meaning; 32] = [
    row(
        1,
        "the scratch is too short",
        LENDER,
        NEEDED,
        "Lend as many words as the call on the scratch's need gives.",
    ),
    row(
        2,
        "an output is too short",
        LENDER,
        NEEDED,
        "Lend as many words as the call on the output's need gives.",
    ),
    row(3, "the job's layout is wrong", JOB, LAYOUT, MEND_LAYOUT),
    row(
        4,
        "a parameter is outside its limits",
        JOB,
        "the index of the first such word of section one; in a call on digits 0 for the base, 1 for the parts",
        "The statement is unfit: no witness is judged under it.",
    ),
    row(
        5,
        "L is below 128 divided by log_q, rounded up",
        JOB,
        "L's index, 12",
        "The statement is unfit: no witness is judged under it.",
    ),
    row(6, "a word is not below Q", JOB, WORD, MEND_WORD),
    row(7, "the randomness's layout is wrong", RANDOMNESS, LAYOUT, MEND_LAYOUT),
    row(
        8,
        "a word of the randomness is out of range",
        RANDOMNESS,
        WORD,
        concat!("Sign words are 0 or 1, shuffle words are free, and all others are below Q = ", env!("LABRADOR_Q"), "."),
    ),
    row(9, "the transcript's layout is wrong", SENDER, LAYOUT, MEND_LAYOUT),
    row(10, "a word of the transcript is not below Q", SENDER, WORD, MEND_WORD),
    row(11, "the witness's layout is wrong", WITNESS, LAYOUT, MEND_LAYOUT),
    row(12, "a word of the witness is not below Q", WITNESS, WORD, MEND_WORD),
    row(
        13,
        "the norm of a witness vector is above A's bound",
        WITNESS,
        "the vector's index, from 0",
        "The witness is too large for the statement; nothing is made of it.",
    ),
    row(
        14,
        "the norm of the digits of t is above B's bound",
        WORK,
        NO_PLACE,
        DIGITS,
    ),
    row(
        15,
        "the norm of the digits of g is above C's bound",
        WORK,
        NO_PLACE,
        DIGITS,
    ),
    row(
        16,
        "the norm of the digits of h is above D's bound",
        WORK,
        NO_PLACE,
        DIGITS,
    ),
    row(
        21,
        "the norm of the projection p is above its limit",
        STATEMENT,
        "the norm, and the limit 128·beta_sq",
        "If the transcript was made honestly, the witness is too large for the statement's beta_sq, or this randomness projects it badly.",
    ),
    row(
        22,
        "a constant term of b'' is not the one that psi, b0, omega and p give",
        STATEMENT,
        "the row, the constant term sent and the one worked out",
        "If the transcript was made honestly, the witness breaks a constant-term constraint: a total is not the one stated in b0.",
    ),
    row(
        23,
        "the norms of z's two parts and of the digits of t, g and h together are above their limit",
        STATEMENT,
        "the sum, and the limit beta_prime_sq",
        "If the transcript was made honestly, the witness is too large for the statement's beta_prime_sq.",
    ),
    row(24, "A·z is not the sum of t_i·c_i", FORGED, NO_FIGURES, NOT_HONEST),
    row(
        25,
        "<z,z> is not the sum of g_ij·c_i·c_j",
        FORGED,
        NO_FIGURES,
        NOT_HONEST,
    ),
    row(
        26,
        "twice the sum of <phi_i,z>·c_i is not the sum of h_ij·c_i·c_j",
        FORGED,
        NO_FIGURES,
        NOT_HONEST,
    ),
    row(
        27,
        "twice the sum of a_ij·g_ij plus the sum of h_ii is not twice the aggregated b",
        STATEMENT,
        NO_FIGURES,
        "If the transcript was made honestly, the witness breaks a ring constraint: a total is not the one stated in b.",
    ),
    row(
        28,
        "u1 is not the commitment to the digits of t and g",
        FORGED,
        NO_FIGURES,
        NOT_HONEST,
    ),
    row(
        29,
        "u2 is not the commitment to the digits of h",
        FORGED,
        NO_FIGURES,
        NOT_HONEST,
    ),
    row(
        31,
        "the base or the number of digits is outside its limits",
        CALLER,
        "0 for the base, 1 for the number of digits",
        concat!("A base is from 2 to ", env!("LABRADOR_GREATEST"), ", and there are 1 to 32 digits."),
    ),
    row(
        32,
        "check 22 is not the one that failed",
        CALLER,
        NO_PLACE,
        "A mistyped constant is looked for only after a failed check 22.",
    ),
    row(
        33,
        "no constant alone mends check 22",
        JOB,
        NO_PLACE,
        "More than one entry of b0 is wrong, or the transcript is.",
    ),
    row(
        34,
        "the run of witness vectors is empty or passes r",
        CALLER,
        "the run's first index, as it was handed in",
        "A run goes from its first index up to its end, which is above it and at most r.",
    ),
    row(
        35,
        "the number of transcripts is not from 1 to 8",
        CALLER,
        NO_PLACE,
        "Hand in one to eight transcripts at a time.",
    ),
    row(
        36,
        "a low is above its high",
        WITNESS,
        "the pair's index, from 0",
        "Each range goes from its low to its high.",
    ),
    row(
        37,
        concat!("a number is beyond ±", env!("LABRADOR_HALF")),
        WITNESS,
        "the pair's index, from 0",
        concat!("A centred number is from -", env!("LABRADOR_HALF"), " to ", env!("LABRADOR_HALF"), "."),
    ),
];

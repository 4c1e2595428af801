/* What the numbers of labrador.h's answers mean, in words: those of `labrador explain` and of the Rust crate (bindings/rust/src/meaning.rs), which a
   test compares. All is in this file; texts are in UTF-8. */
#ifndef LABRADOR_TEXTS_H
#define LABRADOR_TEXTS_H

#include <stddef.h>

#include "labrador.h"

/* A row of the table: of a refusal or a check. */
typedef struct {
    uint32_t number;
    const char *text;    /* what was found, as a sentence without its end */
    const char *cause;   /* who can cause it */
    const char *place;   /* what its place or its figures are */
    const char *follows; /* what follows from it */
} labrador_meaning;

#if LABRADOR_Q == 4294967295u
#define LABRADOR_TEXT_Q "4294967295"
#define LABRADOR_TEXT_GREATEST "4294967294"
#define LABRADOR_TEXT_HALF "2147483647"
#elif LABRADOR_Q == 4294967197u
#define LABRADOR_TEXT_Q "4294967197"
#define LABRADOR_TEXT_GREATEST "4294967196"
#define LABRADOR_TEXT_HALF "2147483598"
#else
#error "labrador_texts.h: no library has this modulus"
#endif

/* The row of a number, NULL where there is none: 0 (accepted, or made) has none. */
static inline const labrador_meaning *labrador_meaning_of(uint32_t number) {
    static const char job[] = "whoever writes the job";
    static const char randomness[] = "whoever draws the randomness";
    static const char witness[] = "whoever holds the witness";
    static const char sender[] = "whoever sends the transcript";
    static const char lender[] = "whoever lends the buffers";
    static const char work[] = "witness and job together; in the verifier the transcript";
    static const char statement[] = "a witness that does not fit the job, or a transcript that the prover did not make";
    static const char forged[] = "a transcript that the prover did not make of this job and this randomness";
    static const char caller[] = "whoever makes the call";

    static const char layout[] = "the word's index: of the wrong count or the first surplus word; the slice's length where it ends early";
    static const char word[] = "the word's index in the slice, from 0";
    static const char needed[] = "the length that is needed, in words";
    static const char pair[] = "the pair's index, from 0";
    static const char no_place[] = "0, it has none";
    static const char no_figures[] = "it has none";

    static const char unfit[] = "The statement is unfit: no witness is judged under it.";
    static const char mend_layout[] = "The slice is cut, lengthened, damaged, of another kind, or belongs to a job with other parameters.";
    static const char mend_word[] =
        "The slice is damaged or was not made for these calls, or for another modulus; every number is below Q = " LABRADOR_TEXT_Q ".";
    static const char not_honest[] = "The prover's transcript never fails this check with its own job and randomness: this one was changed, or "
                                     "belongs to another job or other randomness.";
    static const char digits[] = "The prover answers it where the digits are too large for the bound. The prover's transcript never gets it from the "
                                 "verifier with its own job and randomness.";
    static const labrador_meaning meanings[] = {
        {LABRADOR_REFUSAL_SCRATCH, "the scratch is too short", lender, needed, "Lend as many words as the call on the scratch's need gives."},
        {LABRADOR_REFUSAL_OUTPUT, "an output is too short", lender, needed, "Lend as many words as the call on the output's need gives."},
        {LABRADOR_REFUSAL_JOB_LAYOUT, "the job's layout is wrong", job, layout, mend_layout},
        {LABRADOR_REFUSAL_PARAMETER, "a parameter is outside its limits", job,
         "the index of the first such word of section one; in a call on digits 0 for the base, 1 for the parts", unfit},
        {LABRADOR_REFUSAL_AGGREGATIONS, "L is below 128 divided by log_q, rounded up", job, "L's index, 12", unfit},
        {LABRADOR_REFUSAL_JOB_WORD, "a word is not below Q", job, word, mend_word},
        {LABRADOR_REFUSAL_RANDOMNESS_LAYOUT, "the randomness's layout is wrong", randomness, layout, mend_layout},
        {LABRADOR_REFUSAL_RANDOMNESS_WORD, "a word of the randomness is out of range", randomness, word,
         "Sign words are 0 or 1, shuffle words are free, and all others are below Q = " LABRADOR_TEXT_Q "."},
        {LABRADOR_REFUSAL_TRANSCRIPT_LAYOUT, "the transcript's layout is wrong", sender, layout, mend_layout},
        {LABRADOR_REFUSAL_TRANSCRIPT_WORD, "a word of the transcript is not below Q", sender, word, mend_word},
        {LABRADOR_REFUSAL_WITNESS_LAYOUT, "the witness's layout is wrong", witness, layout, mend_layout},
        {LABRADOR_REFUSAL_WITNESS_WORD, "a word of the witness is not below Q", witness, word, mend_word},
        {LABRADOR_REFUSAL_WITNESS_NORM, "the norm of a witness vector is above A's bound", witness, "the vector's index, from 0",
         "The witness is too large for the statement; nothing is made of it."},
        {LABRADOR_REFUSAL_DIGITS_OF_T, "the norm of the digits of t is above B's bound", work, no_place, digits},
        {LABRADOR_REFUSAL_DIGITS_OF_G, "the norm of the digits of g is above C's bound", work, no_place, digits},
        {LABRADOR_REFUSAL_DIGITS_OF_H, "the norm of the digits of h is above D's bound", work, no_place, digits},
        {LABRADOR_CHECK_PROJECTION_NORM, "the norm of the projection p is above its limit", statement, "the norm, and the limit 128·beta_sq",
         "If the transcript was made honestly, the witness is too large for the statement's beta_sq, or this randomness projects it badly."},
        {LABRADOR_CHECK_CONSTANT_TERM, "a constant term of b'' is not the one that psi, b0, omega and p give", statement,
         "the row, the constant term sent and the one worked out",
         "If the transcript was made honestly, the witness breaks a constant-term constraint: a total is not the one stated in b0."},
        {LABRADOR_CHECK_NORM_SUM, "the norms of z's two parts and of the digits of t, g and h together are above their limit", statement,
         "the sum, and the limit beta_prime_sq", "If the transcript was made honestly, the witness is too large for the statement's beta_prime_sq."},
        {LABRADOR_CHECK_AZ, "A·z is not the sum of t_i·c_i", forged, no_figures, not_honest},
        {LABRADOR_CHECK_Z_INNER, "<z,z> is not the sum of g_ij·c_i·c_j", forged, no_figures, not_honest},
        {LABRADOR_CHECK_PHI, "twice the sum of <phi_i,z>·c_i is not the sum of h_ij·c_i·c_j", forged, no_figures, not_honest},
        {LABRADOR_CHECK_RELATION, "twice the sum of a_ij·g_ij plus the sum of h_ii is not twice the aggregated b", statement, no_figures,
         "If the transcript was made honestly, the witness breaks a ring constraint: a total is not the one stated in b."},
        {LABRADOR_CHECK_FIRST_COMMITMENT, "u1 is not the commitment to the digits of t and g", forged, no_figures, not_honest},
        {LABRADOR_CHECK_SECOND_COMMITMENT, "u2 is not the commitment to the digits of h", forged, no_figures, not_honest},
        {LABRADOR_REFUSAL_BASE_OR_LENGTH, "the base or the number of digits is outside its limits", caller,
         "0 for the base, 1 for the number of digits", "A base is from 2 to " LABRADOR_TEXT_GREATEST ", and there are 1 to 32 digits."},
        {LABRADOR_REFUSAL_NOT_CHECK_22, "check 22 is not the one that failed", caller, no_place,
         "A mistyped constant is looked for only after a failed check 22."},
        {LABRADOR_REFUSAL_NOTHING_MENDS, "no constant alone mends check 22", job, no_place,
         "More than one entry of b0 is wrong, or the transcript is."},
        {LABRADOR_REFUSAL_OUTSIDE_RUN, "the run of witness vectors is empty or passes r", caller, "the run's first index, as it was handed in",
         "A run goes from its first index up to its end, which is above it and at most r."},
        {LABRADOR_REFUSAL_TRANSCRIPT_COUNT, "the number of transcripts is not from 1 to 8", caller, no_place,
         "Hand in one to eight transcripts at a time."},
        {LABRADOR_REFUSAL_CROSSED, "a low is above its high", witness, pair, "Each range goes from its low to its high."},
        {LABRADOR_REFUSAL_BEYOND, "a number is beyond ±" LABRADOR_TEXT_HALF, witness, pair,
         "A centred number is from -" LABRADOR_TEXT_HALF " to " LABRADOR_TEXT_HALF "."},
    };
    for (size_t k = 0; k < sizeof meanings / sizeof *meanings; k++)
        if (meanings[k].number == number) return &meanings[k];
    return NULL;
}

/* What a number says, never NULL. */
static inline const char *labrador_text(uint32_t number) {
    const labrador_meaning *meaning = labrador_meaning_of(number);
    if (meaning != NULL) return meaning->text;
    if (number == LABRADOR_OK) return "accepted, or made";
    return number == LABRADOR_UNUSED ? "the verdict is unused" : "no answer has this number";
}

#undef LABRADOR_TEXT_Q
#undef LABRADOR_TEXT_GREATEST
#undef LABRADOR_TEXT_HALF

#endif

/* The calls of liblabrador. Each is told where it is declared; labrador_texts.h has the texts of their numbers.

   On numbers modulo Q (LABRADOR_Q below), ring elements modulo X^64 + 1 and challenges:
     labrador_zq_add             the sum of two numbers
     labrador_zq_sub             the difference of two numbers
     labrador_zq_mul             the product of two numbers
     labrador_zq_neg             a number's negative
     labrador_zq_centre          a number as a signed one
     labrador_zq_digits          a number's digits in a base
     labrador_recompose          a number from its digits
     labrador_parts_needed       how many digits leave nothing of any number
     labrador_projection_entry   the projection's entry of a word
     labrador_rq_add             the sum of two elements
     labrador_rq_sub             the difference of two elements
     labrador_rq_mul             the product of two elements
     labrador_rq_mul_fast        the same product by transforms
     labrador_rq_scale           an element times a number
     labrador_rq_conj            an element's conjugate
     labrador_rq_norm            an element's norm
     labrador_rq_digits          an element's digits in a base
     labrador_rq_left            what is left of an element after its digits
     labrador_challenge          the challenge of its words
   On whole slices of words:
     labrador_scratch_need       how much scratch a job needs
     labrador_output_need        how long its transcript is
     labrador_load_needs         how long the slices of a test load are
     labrador_load               a test load: a job, a witness that meets it, randomness
     labrador_prove              the transcript of a job, a witness and randomness
     labrador_round_1            its first round: u1
     labrador_round_2            its second: p
     labrador_round_3            its third: b''
     labrador_round_4            its fourth: u2
     labrador_round_5            its fifth: z, t, g and h
     labrador_shed_projection    p of a run of witness vectors
     labrador_shed_rows          rows of t of a run of witness vectors
     labrador_add_projections    the sum of two p
     labrador_verify             the verdict on a transcript
     labrador_verify_many        the verdicts on one to eight transcripts
     labrador_mistyped           which constant was mistyped, after a failed check 22
     labrador_ranges             norms of a witness that is known within ranges

   An answer begins with its number (labrador_number below), 0 where nothing is refused, and a refusal's place among the operands' words.
   On a refusal the result is zero. A word at or above Q is refused with 6. */
#ifndef LABRADOR_H
#define LABRADOR_H

#include <stddef.h>
#include <stdint.h>

/* The version of this header, of the library and of the command line that are installed with it. */
#define LABRADOR_VERSION_MAJOR 0
#define LABRADOR_VERSION_MINOR 1
#define LABRADOR_VERSION_PATCH 0
#define LABRADOR_VERSION "0.1.0"

/* The modulus of the library that is linked: labrador_zq_neg(1) is LABRADOR_Q - 1. `./install --prime` installs the library of 4294967197, under other
   names and with a header that says so. Both export the same calls: a program links one of them. */
#ifndef LABRADOR_Q
#define LABRADOR_Q 4294967295u
#endif

/* The bytes of stack that are enough for a call on x86-64; a thread's stack needs PTHREAD_STACK_MIN more, for the C library. No proof bounds the stack:
   bindings/stack.c measures what each call takes over many sizes, and the test makes each call where it takes most, in as much as is said here. */
#define LABRADOR_STACK_PROVE (160 * 1024)  /* labrador_prove, and its rounds */
#define LABRADOR_STACK_VERIFY (160 * 1024) /* labrador_verify, labrador_mistyped */
#define LABRADOR_STACK_MANY (224 * 1024)   /* labrador_verify_many */
#define LABRADOR_STACK_LOAD (64 * 1024)    /* labrador_load */
#define LABRADOR_STACK_OTHER (32 * 1024)   /* each other call */

/* The randomness is by far the longest slice, 64 MiB at n 64, r 16. Where it lies in huge pages (on Linux madvise with MADV_HUGEPAGE on its memory before it
   is filled) labrador_prove and labrador_verify took 7 to 10 % less time at that size. */

/* The numbers of answers. */
enum labrador_number {
    LABRADOR_OK = 0, /* accepted, or made */
    LABRADOR_REFUSAL_SCRATCH = 1,
    LABRADOR_REFUSAL_OUTPUT = 2,
    LABRADOR_REFUSAL_JOB_LAYOUT = 3,
    LABRADOR_REFUSAL_PARAMETER = 4,
    LABRADOR_REFUSAL_AGGREGATIONS = 5,
    LABRADOR_REFUSAL_JOB_WORD = 6,
    LABRADOR_REFUSAL_RANDOMNESS_LAYOUT = 7,
    LABRADOR_REFUSAL_RANDOMNESS_WORD = 8,
    LABRADOR_REFUSAL_TRANSCRIPT_LAYOUT = 9,
    LABRADOR_REFUSAL_TRANSCRIPT_WORD = 10,
    LABRADOR_REFUSAL_WITNESS_LAYOUT = 11,
    LABRADOR_REFUSAL_WITNESS_WORD = 12,
    LABRADOR_REFUSAL_WITNESS_NORM = 13,
    LABRADOR_REFUSAL_DIGITS_OF_T = 14,
    LABRADOR_REFUSAL_DIGITS_OF_G = 15,
    LABRADOR_REFUSAL_DIGITS_OF_H = 16,
    LABRADOR_CHECK_PROJECTION_NORM = 21,
    LABRADOR_CHECK_CONSTANT_TERM = 22,
    LABRADOR_CHECK_NORM_SUM = 23,
    LABRADOR_CHECK_AZ = 24,
    LABRADOR_CHECK_Z_INNER = 25,
    LABRADOR_CHECK_PHI = 26,
    LABRADOR_CHECK_RELATION = 27,
    LABRADOR_CHECK_FIRST_COMMITMENT = 28,
    LABRADOR_CHECK_SECOND_COMMITMENT = 29,
    LABRADOR_REFUSAL_BASE_OR_LENGTH = 31,
    LABRADOR_REFUSAL_NOT_CHECK_22 = 32,
    LABRADOR_REFUSAL_NOTHING_MENDS = 33,
    LABRADOR_REFUSAL_OUTSIDE_RUN = 34,
    LABRADOR_REFUSAL_TRANSCRIPT_COUNT = 35,
    LABRADOR_REFUSAL_CROSSED = 36,
    LABRADOR_REFUSAL_BEYOND = 37
};

#ifdef __cplusplus
extern "C" {
#endif

/* 64 coefficients, that of X^0 first. */
typedef struct {
    uint32_t coeffs[64];
} labrador_element;

/* 41 sign words, each 0 or 1, then 63 shuffle words. */
typedef struct {
    uint32_t words[104];
} labrador_challenge_words;

typedef struct {
    uint32_t number;
    uint32_t place;
} labrador_status;

typedef struct {
    uint32_t number;
    uint32_t place;
    uint32_t value;
} labrador_word_answer;

typedef struct {
    uint32_t number;
    uint32_t place;
    int64_t value;
} labrador_centre_answer;

typedef struct {
    uint32_t number;
    uint32_t place;
    uint32_t digits[32];
    uint32_t left;
} labrador_digits_answer;

typedef struct {
    uint32_t number;
    uint32_t place;
    uint32_t coeffs[64];
} labrador_element_answer;

/* The norm is hi * 2^64 + lo. */
typedef struct {
    uint32_t number;
    uint32_t place;
    uint64_t hi;
    uint64_t lo;
} labrador_norm_answer;

/* a + b */
labrador_word_answer labrador_zq_add(uint32_t a, uint32_t b);

/* a - b */
labrador_word_answer labrador_zq_sub(uint32_t a, uint32_t b);

/* a * b */
labrador_word_answer labrador_zq_mul(uint32_t a, uint32_t b);

/* -a */
labrador_word_answer labrador_zq_neg(uint32_t a);

/* The centre of a: a itself up to (Q - 1) / 2, above that a - Q. */
labrador_centre_answer labrador_zq_centre(uint32_t a);

/* The digits of a, lowest first, in 32 places, and the size left over when the parts are used up, without sign. A base outside 2 to
   Q - 1 is refused with 4 at place 0, a number of parts outside 1 to 32 with 4 at place 1; a is place 2. */
labrador_digits_answer labrador_zq_digits(uint32_t base, uint32_t parts, uint32_t a);

/* The value of digits, lowest first: the sum of digits[i] * base^i. Of the digits of a value it is that value exactly when nothing was
   left after them. A base outside 2 to Q - 1 is refused with 31 at place 0, a length outside 1 to 32 with 31 at place 1, and the digits
   are not read then; digits[i] is place 2 + i. digits is not null. */
labrador_word_answer labrador_recompose(uint32_t base, const uint32_t *digits, size_t length);

/* The smallest number of parts that leaves nothing of any value: 31 for base 2, 21 for base 3, 1 for base Q - 1. A base outside 2 to
   Q - 1 is refused with 31 at place 0. */
labrador_word_answer labrador_parts_needed(uint32_t base);

/* The projection's entry that a word stands for: Q - 1 for -1, 1 or 0. */
labrador_word_answer labrador_projection_entry(uint32_t word);

/* a + b; b's words are places 64 to 127. */
labrador_element_answer labrador_rq_add(labrador_element a, labrador_element b);

/* a - b */
labrador_element_answer labrador_rq_sub(labrador_element a, labrador_element b);

/* a * b */
labrador_element_answer labrador_rq_mul(labrador_element a, labrador_element b);

/* The same product and the same refusals, by transforms of length 64 modulo three primes. One product alone takes 3.4 times labrador_rq_mul's time
   (bench/RESULTS.md), since a transform pays only where the NTT form is used again, as in the calls on whole slices: for a product of two elements take labrador_rq_mul. */
labrador_element_answer labrador_rq_mul_fast(labrador_element a, labrador_element b);

/* a * c; c is place 64. */
labrador_element_answer labrador_rq_scale(labrador_element a, uint32_t c);

/* The conjugate of a: X replaced by its inverse. */
labrador_element_answer labrador_rq_conj(labrador_element a);

/* The sum of the squares of the coefficients' centres. */
labrador_norm_answer labrador_rq_norm(labrador_element a);

/* The digits of a as 32 rows of 64 words, row k with digit k of each coefficient, written to the first 2048 words of out, which
   has `length` words. Refused as labrador_zq_digits refuses, a's words being places 2 to 65; then, with 2 and the place 2048, where
   out is shorter. Where out is shorter nothing is written; on another refusal the 2048 words are zero. out is not null. */
labrador_status labrador_rq_digits(uint32_t base, uint32_t parts, labrador_element a, uint32_t *out, size_t length);

/* The size left over of each coefficient when the parts are used up, without sign. Refused as labrador_zq_digits refuses, a's words
   being places 2 to 65. */
labrador_element_answer labrador_rq_left(uint32_t base, uint32_t parts, labrador_element a);

/* The challenge of its words. A sign word above 1 is refused with 8 at its place. */
labrador_element_answer labrador_challenge(labrador_challenge_words words);

/* The calls on whole slices. Each slice is a pointer, which is not null, and a length in words; no two overlap.
   Refusals before the work touch nothing: 1 scratch too short, 2 output too short (place: the length needed); 3 the job's layout,
   4 a parameter outside its limits (K and l are from 0 to 64, not both 0), 5 L below 128 / log_q rounded up, 6 a job word; 7, 8 the
   randomness's layout and words; 9, 10 the transcript's; 11, 12 the witness's. In the work: 13 norm of a witness vector (place: its index), 14,
   15, 16 digits of t, g, h above their bound.
   After the work scratch is zero to the length needed, and so is the output after 13 to 16. Words beyond never change. */

/* A pledged total is a constant-term constraint with a' = 0 (K may be 0): where line 64 * m + c of vector i has the factor f, element m of phi'_i has
   coefficient 0 equal to f for c = 0, else coefficient 64 - c equal to -f modulo Q; b0 is the total modulo Q (docs/SPECIFICATION.md, demo.c). */

/* number 0 and place 0 where something was made */
typedef struct {
    uint32_t number;
    uint64_t place;
} labrador_answer;

/* a length in words, 0 on a refusal */
typedef struct {
    uint32_t number;
    uint64_t place;
    uint64_t words;
} labrador_need;

/* number 0: accepted; cells_left is how many cells of t, g and h together have a coefficient with something left after its digits (t
   and h in t1 parts, g in t2; each cell of a triangle once). 1 to 16: refused, at `place`. 21: the projection's norm (first) above its
   limit (second), each hi * 2^64 + lo. 22: row `index`; the constant term sent (first_lo) is not the one worked out (second_lo). 23: the
   norms of z's two parts and of the digits of t, g and h together (first) above the limit (second). 24 to 29: that check failed. Fields
   without a meaning are zero. */
typedef struct {
    uint32_t number;
    uint32_t index;
    uint64_t first_hi;
    uint64_t first_lo;
    uint64_t second_hi;
    uint64_t second_lo;
    uint64_t place;
    uint64_t cells_left;
} labrador_verdict;

/* The words of scratch that a call with this job needs, or the job's refusal. */
labrador_need labrador_scratch_need(const uint32_t *job, size_t job_length);

/* The words of output that labrador_prove needs with this job, which are the transcript's, or the job's refusal. */
labrador_need labrador_output_need(const uint32_t *job, size_t job_length);

/* The parameters of a test load, in the order of section one: kappa rows of A, L aggregated equations. */
typedef struct {
    uint32_t n;
    uint32_t r;
    uint32_t kappa;
    uint32_t kappa_1;
    uint32_t kappa_2;
    uint32_t K;
    uint32_t l;
    uint32_t log_q;
    uint32_t b;
    uint32_t t_1;
    uint32_t t_2;
    uint32_t L;
} labrador_parameters;

/* The lengths that a load needs, or the refusal of its parameters with zeros. */
typedef struct {
    uint32_t number;
    uint64_t place;
    uint64_t job;
    uint64_t witness;
    uint64_t randomness;
} labrador_load_need;

labrador_load_need labrador_load_needs(labrador_parameters parameters);

/* A test load that anyone can repeat: a job, a witness that meets it and randomness, from twelve parameters and a seed. 4 and 5 are of the parameters, at
   section one's places; then 2 of the first buffer that is too short, job, witness, randomness in this order, its place the length needed. Words beyond stay, and a
   refusal touches nothing. The witness stands before the randomness here, as they are drawn; labrador_prove takes the randomness first. */
labrador_answer labrador_load(labrador_parameters parameters, uint32_t seed, uint32_t *job, size_t job_length, uint32_t *witness, size_t witness_length,
                              uint32_t *randomness, size_t randomness_length);

#define LABRADOR_PROVER(name)                                                                                          \
    labrador_answer name(const uint32_t *job, size_t job_length, const uint32_t *randomness, size_t randomness_length, \
                         const uint32_t *witness, size_t witness_length, uint32_t *scratch, size_t scratch_length,     \
                         uint32_t *output, size_t output_length)

/* The whole transcript into the output's first words. */
LABRADOR_PROVER(labrador_prove);

/* The rounds. Their outputs are u1; p; b''; u2; then z, t, g, h, and joined the whole transcript. The randomness of a round ends after its
   first 0, 1, 3, 5 or 7 sections. */
LABRADOR_PROVER(labrador_round_1);
LABRADOR_PROVER(labrador_round_2);
LABRADOR_PROVER(labrador_round_3);
LABRADOR_PROVER(labrador_round_4);
LABRADOR_PROVER(labrador_round_5);

/* A run of witness vectors, from index first up to but not including end, counted from 0: what one shed's machine is handed and gives. Its projection
   words, its vectors, its p and its rows of t are one section each, after its count: 16384 * n * (end - first), 64 * n * (end - first), 256 and
   64 * kappa * (end - first) words. The p of runs that part 0 to r, added in any order, are the second round's output; their rows without the
   counts, laid next to each other by rising index, are section t. Refused: the job's refusals; 34 a run whose end is at or below first or past r
   (place: first); 7 and 8 of the projection words; 11 and 12 of the vectors; 1, 2. Scratch and output are those of the calls on whole slices. */

/* The run's p. It never gives 13. */
labrador_answer labrador_shed_projection(const uint32_t *job, size_t job_length, uint32_t first, uint32_t end, const uint32_t *projection,
                                         size_t projection_length, const uint32_t *vectors, size_t vectors_length, uint32_t *scratch,
                                         size_t scratch_length, uint32_t *output, size_t output_length);

/* The run's rows of t, or 13 (place: the index over the whole job of the run's first vector whose norm is above A's bound); the count is zero then too. */
labrador_answer labrador_shed_rows(const uint32_t *job, size_t job_length, uint32_t first, uint32_t end, const uint32_t *vectors,
                                   size_t vectors_length, uint32_t *scratch, size_t scratch_length, uint32_t *output, size_t output_length);

/* The sum of two p, each of 257 words with its count. Refused by 9 and 10 of the first, then of the second (the place is in that one), then by 2. */
labrador_answer labrador_add_projections(const uint32_t *p, size_t p_length, const uint32_t *other, size_t other_length, uint32_t *output,
                                         size_t output_length);

/* The verdict on a transcript. With Q = 4294967295 one acceptance leaves a false statement a chance of at least 1 in 81 (L 4) or 1 in 86 (larger L; 1 in 129 where r is 1); it is worth
   nothing there where the randomness was hashed from the one transcript, and with either Q where the sender could know or choose it: ask for eight or more, and see docs/SOUNDNESS.md. */
labrador_verdict labrador_verify(const uint32_t *job, size_t job_length, const uint32_t *randomness, size_t randomness_length,
                                 const uint32_t *transcript, size_t transcript_length, uint32_t *scratch,
                                 size_t scratch_length);

/* The number of a verdict that is unused, whatever Q is. */
#define LABRADOR_UNUSED 4294967295u

/* number 0: eight verdicts are given; those past the number of transcripts have the number LABRADOR_UNUSED and zeros. Else the refusal of the whole
   call, and all eight are zeros: a zero is then no acceptance. Look at this number before any verdict's. */
typedef struct {
    uint32_t number;
    uint64_t place;
    labrador_verdict verdicts[8];
} labrador_verdicts;

/* The verdicts on one to eight transcripts for one job, each that of labrador_verify on it with its own randomness. The transcripts lie end to end, each of
   the length that the job fixes (labrador_output_need), and so does their randomness. A slice that ends early cuts short or empties the parts at
   its end, and surplus words belong to the last part, so it is never refused as a whole: the parts are, each by 7 to 10 with places from its own start. The whole
   call is refused by 35 for a count outside 1 to 8 (place 0), before any other test; then by the job's refusals; then by 1 for scratch shorter than
   count * labrador_scratch_need words (place: that length). Where eight verdicts are given the scratch is zero to there, also where every transcript is
   refused; a refusal of the whole call touches nothing.
   All accepted, each with randomness that the desk drew for it and none tried again, N of them leave a false statement the N-th power of one's chance: with
   Q = 4294967295 eight about 1 in 2^50, eleven (L 4) or ten less than 1 in 2^64. */
labrador_verdicts labrador_verify_many(const uint32_t *job, size_t job_length, uint32_t count, const uint32_t *randomness, size_t randomness_length,
                                       const uint32_t *transcripts, size_t transcripts_length, uint32_t *scratch, size_t scratch_length);

/* number 0: entries of the list. Else a refusal, and entries is 0. */
typedef struct {
    uint32_t number;
    uint64_t place;
    uint64_t entries;
} labrador_mistyped_answer;

/* Which constant was mistyped. Where labrador_verify gives 22, the list's first 2 * l words hold, for each index of b0 at which adding one number
   alone would let check 22 pass, the index from 0 and the number of smallest centred size that does, as a word below Q; then zeros. Smallest size
   comes first; of equal sizes negative numbers (above (Q - 1) / 2) first, then lower indexes. Other checks are not judged. Refused: as labrador_verify is, 14 to 16 too, with 2 right after 1 for a list
   shorter than 2 * l (place: 2 * l); 32 where the verdict is no refusal and no 22; 33 where the list would be empty (place 0 of both). Where the work is
   reached the scratch is zero to the length needed, and where it ends without a list the first 2 * l words are zero. Words beyond stay, and a
   refusal before the work touches nothing. */
labrador_mistyped_answer labrador_mistyped(const uint32_t *job, size_t job_length, const uint32_t *randomness, size_t randomness_length,
                                           const uint32_t *transcript, size_t transcript_length, uint32_t *scratch, size_t scratch_length,
                                           uint32_t *list, size_t list_length);

/* What is told of one witness vector. meets: 0 unused, 1 its norm meets A's bound for every choice, 2 for some but not every, 3 for none.
   least and greatest are the smallest and the largest norm, each hi * 2^64 + lo. */
typedef struct {
    uint32_t meets;
    uint64_t least_hi;
    uint64_t least_lo;
    uint64_t greatest_hi;
    uint64_t greatest_lo;
} labrador_range_norms;

/* number 0: the first r entries are the witness vectors', the others are unused and zero. Else a refusal, and all sixteen are zero. */
typedef struct {
    uint32_t number;
    uint64_t place;
    labrador_range_norms vectors[16];
} labrador_ranges_answer;

/* A witness known within ranges: 64 * r * n lows and as many highs without counts, centred numbers in the witness's order, of which a choice takes
   one from each low to its high. Refused: the job's refusals; 11 another number of lows, then of highs (place: the length where it is shorter, else
   64 * r * n); 37 a number beyond +-(Q - 1) / 2, over all pairs, then 36 a low above its high (place: the pair's index). */
labrador_ranges_answer labrador_ranges(const uint32_t *job, size_t job_length, const int64_t *lows, size_t lows_length,
                                       const int64_t *highs, size_t highs_length);

#ifdef __cplusplus
}
#endif

#endif

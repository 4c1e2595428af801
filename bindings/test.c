/* Calls every exported call on the values and refusals of documents 01 and 02, and on random operands against plain C. */
#include <stdio.h>
#include <stdlib.h>
#include <string.h>

#include "labrador.h"

#define Q LABRADOR_Q
#define HALF (Q / 2)
#define NEG(n) (Q - (n))

/* 2^32 modulo Q */
#define LACK (UINT32_MAX - Q + 1)

/* Recorded answers are those of 2^32 - 1. */
enum { RECORDED = Q == 4294967295u };

static int checks = 0;
static int failures = 0;

static void check(int ok, const char *what, int line) {
    checks++;
    if (!ok) {
        failures++;
        printf("test.c:%d: %s\n", line, what);
    }
}

#define CHECK(e) check((e), #e, __LINE__)

static uint64_t seed = 1;

static uint32_t draw(void) {
    seed = seed * 6364136223846793005u + 1442695040888963407u;
    return (uint32_t)(seed >> 32);
}

static labrador_element zero(void) {
    labrador_element a;
    memset(&a, 0, sizeof a);
    return a;
}

/* c * X^k */
static labrador_element monomial(uint32_t c, int k) {
    labrador_element a = zero();
    a.coeffs[k] = c;
    return a;
}

static labrador_element drawn(void) {
    labrador_element a;
    for (int k = 0; k < 64; k++) a.coeffs[k] = draw() % Q;
    return a;
}

static int all_zero(const uint32_t *words, size_t n) {
    for (size_t k = 0; k < n; k++)
        if (words[k] != 0) return 0;
    return 1;
}

static int same(const uint32_t *x, const uint32_t *y, size_t n) { return memcmp(x, y, n * sizeof *x) == 0; }

static int is_word(labrador_word_answer r, uint32_t number, uint32_t place, uint32_t value) {
    return r.number == number && r.place == place && r.value == value;
}

static int is_centre(labrador_centre_answer r, uint32_t number, uint32_t place, int64_t value) {
    return r.number == number && r.place == place && r.value == value;
}

/* Two digits, the other places zero, and the size left over. */
static int is_digits(labrador_digits_answer r, uint32_t number, uint32_t place, uint32_t d0, uint32_t d1, uint32_t left) {
    return r.number == number && r.place == place && r.digits[0] == d0 && r.digits[1] == d1 && all_zero(r.digits + 2, 30) && r.left == left;
}

/* What the digit rule leaves of a size after so many parts. */
static uint64_t left_of(uint64_t size, uint32_t base, uint32_t parts) {
    for (uint32_t k = 0; k < parts; k++) size = size / base + (size % base > base / 2);
    return size;
}

static uint64_t size_of(uint32_t a) { return a > HALF ? Q - a : a; }

static int is_element(labrador_element_answer r, labrador_element a) {
    return r.number == 0 && r.place == 0 && same(r.coeffs, a.coeffs, 64);
}

static int is_refused(labrador_element_answer r, uint32_t number, uint32_t place) {
    return r.number == number && r.place == place && all_zero(r.coeffs, 64);
}

static int is_norm(labrador_norm_answer r, uint32_t number, uint32_t place, uint64_t hi, uint64_t lo) {
    return r.number == number && r.place == place && r.hi == hi && r.lo == lo;
}

static void test_numbers(void) {
    CHECK(is_word(labrador_zq_add(NEG(1), 1), 0, 0, 0));
    CHECK(is_word(labrador_zq_mul(65536, 65536), 0, 0, LACK));
    CHECK(is_word(labrador_zq_mul(65537, 65535), 0, 0, LACK - 1));
    CHECK(is_word(labrador_zq_sub(0, 1), 0, 0, NEG(1)));
    CHECK(is_word(labrador_zq_neg(1), 0, 0, NEG(1)));
    CHECK(is_word(labrador_zq_neg(0), 0, 0, 0));
    CHECK(is_centre(labrador_zq_centre(HALF), 0, 0, HALF));
    CHECK(is_centre(labrador_zq_centre(HALF + 1), 0, 0, -(int64_t)HALF));
    CHECK(is_centre(labrador_zq_centre(NEG(1)), 0, 0, -1));
    CHECK(is_word(labrador_zq_add(Q, Q), 6, 0, 0));
    CHECK(is_word(labrador_zq_sub(1, Q), 6, 1, 0));
    CHECK(is_word(labrador_zq_mul(Q, 2), 6, 0, 0));
    CHECK(is_word(labrador_zq_neg(Q), 6, 0, 0));
    CHECK(is_centre(labrador_zq_centre(Q), 6, 0, 0));
    CHECK(is_word(labrador_projection_entry(1073741823u), 0, 0, NEG(1)));
    CHECK(is_word(labrador_projection_entry(1073741824u), 0, 0, 1));
    CHECK(is_word(labrador_projection_entry(2147483647u), 0, 0, 1));
    CHECK(is_word(labrador_projection_entry(2147483648u), 0, 0, 0));
    CHECK(is_word(labrador_projection_entry(NEG(1)), 0, 0, 0));
    CHECK(is_word(labrador_projection_entry(Q), 6, 0, 0));
    const uint32_t above[3] = {Q, Q + (UINT32_MAX - Q) / 2, UINT32_MAX};
    for (int k = 0; k < 3; k++) {
        CHECK(is_word(labrador_zq_add(1, above[k]), 6, 1, 0));
        CHECK(is_word(labrador_zq_neg(above[k]), 6, 0, 0));
        CHECK(is_centre(labrador_zq_centre(above[k]), 6, 0, 0));
        CHECK(is_word(labrador_projection_entry(above[k]), 6, 0, 0));
        CHECK(is_word(labrador_parts_needed(above[k]), 31, 0, 0));
    }
    for (int n = 0; n < 10000; n++) {
        uint32_t a = draw() % Q, b = draw() % Q;
        CHECK(is_word(labrador_zq_add(a, b), 0, 0, (uint32_t)(((uint64_t)a + b) % Q)));
        CHECK(is_word(labrador_zq_sub(a, b), 0, 0, (uint32_t)(((uint64_t)a + Q - b) % Q)));
        CHECK(is_word(labrador_zq_mul(a, b), 0, 0, (uint32_t)((uint64_t)a * b % Q)));
        CHECK(is_word(labrador_zq_neg(a), 0, 0, (Q - a) % Q));
        CHECK(is_centre(labrador_zq_centre(a), 0, 0, a > HALF ? (int64_t)a - Q : (int64_t)a));
    }
}

static void test_digits(void) {
    CHECK(is_digits(labrador_zq_digits(4, 2, 7), 0, 0, NEG(1), 2, 0));
    CHECK(is_digits(labrador_zq_digits(4, 1, 7), 0, 0, NEG(1), 0, 2));
    CHECK(is_digits(labrador_zq_digits(4, 2, NEG(7)), 0, 0, 1, NEG(2), 0));
    CHECK(is_digits(labrador_zq_digits(4, 1, NEG(7)), 0, 0, 1, 0, 2));
    CHECK(is_digits(labrador_zq_digits(10, 2, 6), 0, 0, NEG(4), 1, 0));
    CHECK(is_digits(labrador_zq_digits(10, 2, 5), 0, 0, 5, 0, 0));
    CHECK(is_digits(labrador_zq_digits(10, 2, 1234), 0, 0, 4, 3, 12));
    CHECK(is_digits(labrador_zq_digits(NEG(1), 32, 5), 0, 0, 5, 0, 0));
    CHECK(is_digits(labrador_zq_digits(1, 0, Q), 4, 0, 0, 0, 0));
    CHECK(is_digits(labrador_zq_digits(Q, 1, 5), 4, 0, 0, 0, 0));
    CHECK(is_digits(labrador_zq_digits(4, 0, Q), 4, 1, 0, 0, 0));
    CHECK(is_digits(labrador_zq_digits(4, 33, 5), 4, 1, 0, 0, 0));
    CHECK(is_digits(labrador_zq_digits(4, 2, Q), 6, 2, 0, 0, 0));
    for (int n = 0; n < 10000; n++) {
        /* 32 digits of any base give the value back */
        uint32_t a = draw() % Q, base = 2 + draw() % (n % 2 ? Q - 2 : 30u);
        labrador_digits_answer r = labrador_zq_digits(base, 32, a);
        uint64_t sum = 0, power = 1;
        for (int k = 0; k < 32; k++) {
            sum = (sum + r.digits[k] * power) % Q;
            power = power * base % Q;
        }
        CHECK(r.number == 0 && r.place == 0 && sum == a && r.left == 0);
        uint32_t parts = 1 + draw() % 32;
        CHECK(labrador_zq_digits(base, parts, a).left == left_of(size_of(a), base, parts));
    }
}

static void test_recompose(void) {
    static uint32_t words[1000000];
    const uint32_t seven[2] = {NEG(1), 2}, minus_seven[2] = {1, NEG(2)}, bad[3] = {1, Q, Q};
    CHECK(is_word(labrador_recompose(4, seven, 2), 0, 0, 7));
    CHECK(is_word(labrador_recompose(4, seven, 1), 0, 0, NEG(1)));
    CHECK(is_word(labrador_recompose(4, minus_seven, 2), 0, 0, NEG(7)));
    CHECK(is_word(labrador_recompose(NEG(1), seven, 2), 0, 0, NEG(3)));
    CHECK(is_word(labrador_recompose(1, bad, 3), 31, 0, 0));
    CHECK(is_word(labrador_recompose(0, words, 0), 31, 0, 0));
    CHECK(is_word(labrador_recompose(Q, words, 33), 31, 0, 0));
    CHECK(is_word(labrador_recompose(2, words, 0), 31, 1, 0));
    words[0] = Q;
    CHECK(is_word(labrador_recompose(2, words, 33), 31, 1, 0));
    CHECK(is_word(labrador_recompose(2, words, 1000000), 31, 1, 0));
    CHECK(is_word(labrador_recompose(2, words, 32), 6, 2, 0));
    CHECK(is_word(labrador_recompose(2, bad, 3), 6, 3, 0));
    CHECK(is_word(labrador_recompose(2, bad, 1), 0, 0, 1));
    CHECK(is_word(labrador_parts_needed(2), 0, 0, 31));
    CHECK(is_word(labrador_parts_needed(3), 0, 0, 21));
    CHECK(is_word(labrador_parts_needed(NEG(2)), 0, 0, 2));
    CHECK(is_word(labrador_parts_needed(NEG(1)), 0, 0, 1));
    CHECK(is_word(labrador_parts_needed(0), 31, 0, 0));
    CHECK(is_word(labrador_parts_needed(1), 31, 0, 0));
    CHECK(is_word(labrador_parts_needed(Q), 31, 0, 0));
    for (int n = 0; n < 10000; n++) {
        /* a value comes back exactly when nothing is left of it */
        uint32_t a = draw() % Q, base = 2 + draw() % (n % 2 ? Q - 2 : 300u), parts = 1 + draw() % 32;
        labrador_digits_answer d = labrador_zq_digits(base, parts, a);
        labrador_word_answer r = labrador_recompose(base, d.digits, parts);
        CHECK(r.number == 0 && r.place == 0);
        CHECK((r.value == a) == (d.left == 0) && d.left == left_of(size_of(a), base, parts));
        uint32_t needed = labrador_parts_needed(base).value;
        CHECK(left_of(HALF, base, needed) == 0 && left_of(HALF, base, needed - 1) > 0);
    }
}

/* The product by the schoolbook, X^64 being -1. */
static labrador_element product(labrador_element a, labrador_element b) {
    labrador_element c = zero();
    for (int i = 0; i < 64; i++)
        for (int j = 0; j < 64; j++) {
            uint64_t p = (uint64_t)a.coeffs[i] * b.coeffs[j] % Q;
            int k = (i + j) % 64;
            c.coeffs[k] = (uint32_t)((c.coeffs[k] + (i + j < 64 ? p : Q - p)) % Q);
        }
    return c;
}

/* size is below 2^32 */
static void add_square(labrador_norm_answer *sum, uint64_t size) {
    sum->lo += size * size;
    sum->hi += sum->lo < size * size;
}

static labrador_norm_answer norm(labrador_element a) {
    labrador_norm_answer r = {0, 0, 0, 0};
    for (int k = 0; k < 64; k++) add_square(&r, size_of(a.coeffs[k]));
    return r;
}

/* The norm of so many coefficients of the greatest size. */
static labrador_norm_answer most(int count) {
    labrador_norm_answer r = {0, 0, 0, 0};
    for (int k = 0; k < count; k++) add_square(&r, HALF);
    return r;
}

static void test_random_elements(void) {
    for (int n = 0; n < 200; n++) {
        labrador_element a = drawn(), b = drawn(), sum, difference, scaled, conjugate;
        uint32_t c = draw() % Q;
        for (int k = 0; k < 64; k++) {
            sum.coeffs[k] = (uint32_t)(((uint64_t)a.coeffs[k] + b.coeffs[k]) % Q);
            difference.coeffs[k] = (uint32_t)(((uint64_t)a.coeffs[k] + Q - b.coeffs[k]) % Q);
            scaled.coeffs[k] = (uint32_t)((uint64_t)a.coeffs[k] * c % Q);
            conjugate.coeffs[k] = k == 0 ? a.coeffs[0] : (Q - a.coeffs[64 - k]) % Q;
        }
        labrador_norm_answer want = norm(a);
        CHECK(is_element(labrador_rq_add(a, b), sum));
        CHECK(is_element(labrador_rq_sub(a, b), difference));
        CHECK(is_element(labrador_rq_mul(a, b), product(a, b)));
        CHECK(is_element(labrador_rq_scale(a, c), scaled));
        CHECK(is_element(labrador_rq_conj(a), conjugate));
        CHECK(is_norm(labrador_rq_norm(a), 0, 0, want.hi, want.lo));
    }
}

/* Both products agree on a pair. */
static int agree(labrador_element a, labrador_element b) {
    labrador_element_answer fast = labrador_rq_mul_fast(a, b), plain = labrador_rq_mul(a, b);
    return fast.number == plain.number && fast.place == plain.place && same(fast.coeffs, plain.coeffs, 64);
}

static void test_fast_product(void) {
    labrador_element top, worst;
    for (int k = 0; k < 64; k++) {
        top.coeffs[k] = Q - 1;
        worst.coeffs[k] = Q;
    }
    CHECK(is_element(labrador_rq_mul_fast(top, top), product(top, top)));
    /* the largest and the smallest coefficients before the sign is taken: all positive or all negative terms */
    for (int k = 0; k < 64; k++) {
        labrador_element a = zero();
        for (int i = 0; i < 64; i++) a.coeffs[i] = i <= k ? Q - 1 : 0;
        CHECK(is_element(labrador_rq_mul_fast(a, top), product(a, top)));
        CHECK(agree(top, a));
    }
    /* single coefficients: results just below and just above zero, and at the ends */
    const uint32_t words[] = {0, 1, 2, 65535, 65537, HALF, HALF + 1, Q - 2, Q - 1};
    const int count = sizeof words / sizeof *words;
    for (int i = 0; i < 64; i++)
        for (int j = 0; j < 64; j++) {
            labrador_element a = monomial(words[(i + j) % count], i), b = monomial(words[(i * 5 + j * 3) % count], j);
            CHECK(is_element(labrador_rq_mul_fast(a, b), product(a, b)));
            CHECK(is_element(labrador_rq_mul_fast(monomial(1, i), monomial(1, j)), monomial(i + j < 64 ? 1 : NEG(1), (i + j) % 64)));
        }
    int differ = 0;
    for (int n = 0; n < 1000000; n++) differ += !agree(drawn(), drawn());
    CHECK(differ == 0);
    CHECK(is_refused(labrador_rq_mul_fast(worst, worst), 6, 0));
    CHECK(is_refused(labrador_rq_mul_fast(top, monomial(Q, 5)), 6, 69));
}

static void test_elements(void) {
    labrador_element x = monomial(1, 1), largest, worst;
    for (int k = 0; k < 64; k++) {
        largest.coeffs[k] = HALF + 1;
        worst.coeffs[k] = Q;
    }
    CHECK(is_element(labrador_rq_mul(monomial(1, 63), x), monomial(NEG(1), 0)));
    CHECK(is_element(labrador_rq_conj(x), monomial(NEG(1), 63)));
    CHECK(is_element(labrador_rq_add(x, monomial(NEG(1), 1)), zero()));
    CHECK(is_element(labrador_rq_sub(zero(), x), monomial(NEG(1), 1)));
    CHECK(is_element(labrador_rq_scale(monomial(65537, 5), 65535), monomial(LACK - 1, 5)));
    CHECK(is_norm(labrador_rq_norm(largest), 0, 0, most(64).hi, most(64).lo));
    CHECK(is_refused(labrador_rq_add(x, monomial(Q, 5)), 6, 69));
    CHECK(is_refused(labrador_rq_sub(monomial(Q, 63), monomial(Q, 5)), 6, 63));
    CHECK(is_refused(labrador_rq_mul(worst, worst), 6, 0));
    CHECK(is_refused(labrador_rq_scale(x, Q), 6, 64));
    CHECK(is_refused(labrador_rq_scale(monomial(Q, 1), Q), 6, 1));
    CHECK(is_refused(labrador_rq_conj(monomial(Q, 2)), 6, 2));
    CHECK(is_norm(labrador_rq_norm(monomial(Q, 3)), 6, 3, 0, 0));
}

#define GUARD 16
#define ROWS 2048

/* Calls labrador_rq_digits on a slice between guard words; gives whether those, and the words beyond the rows, are as they were. */
static labrador_status rows(uint32_t base, uint32_t parts, labrador_element a, uint32_t *out, size_t length, int *kept) {
    uint32_t room[GUARD + ROWS + GUARD + GUARD], before[GUARD + ROWS + GUARD + GUARD];
    for (size_t k = 0; k < sizeof room / sizeof *room; k++) room[k] = before[k] = draw();
    labrador_status s = labrador_rq_digits(base, parts, a, room + GUARD, length);
    size_t written = length < ROWS ? 0 : ROWS;
    *kept = same(room, before, GUARD) && same(room + GUARD + written, before + GUARD + written, ROWS + 2 * GUARD - written);
    memcpy(out, room + GUARD, ROWS * sizeof *out);
    return s;
}

static int is_status(labrador_status s, uint32_t number, uint32_t place) { return s.number == number && s.place == place; }

static void test_rows(void) {
    static uint32_t out[ROWS];
    int kept;
    for (int n = 0; n < 100; n++) {
        labrador_element a = drawn();
        uint32_t base = 2 + draw() % 1000, parts = 1 + draw() % 32;
        int right = 1;
        CHECK(is_status(rows(base, parts, a, out, ROWS + (size_t)(n % GUARD), &kept), 0, 0) && kept);
        for (int j = 0; j < 64; j++) {
            labrador_digits_answer d = labrador_zq_digits(base, parts, a.coeffs[j]);
            for (int k = 0; k < 32; k++) right = right && out[64 * k + j] == d.digits[k];
        }
        CHECK(right);
    }
    labrador_element a = monomial(7, 63), bad = monomial(Q, 63);
    CHECK(is_status(rows(4, 2, a, out, ROWS, &kept), 0, 0) && kept && out[63] == NEG(1) && out[127] == 2);
    CHECK(is_status(rows(1, 33, bad, out, ROWS, &kept), 4, 0) && kept && all_zero(out, ROWS));
    CHECK(is_status(rows(4, 33, bad, out, ROWS + 1, &kept), 4, 1) && kept && all_zero(out, ROWS));
    CHECK(is_status(rows(4, 2, bad, out, ROWS, &kept), 6, 65) && kept && all_zero(out, ROWS));
    CHECK(is_status(rows(4, 2, a, out, ROWS - 1, &kept), 2, ROWS) && kept);
    CHECK(is_status(rows(4, 2, a, out, 0, &kept), 2, ROWS) && kept);
    CHECK(is_status(rows(4, 2, bad, out, ROWS - 1, &kept), 6, 65) && kept);
    CHECK(is_status(rows(4, 0, bad, out, 0, &kept), 4, 1) && kept);
}

static void test_left(void) {
    for (int n = 0; n < 100; n++) {
        labrador_element a = drawn(), sizes;
        uint32_t base = 2 + draw() % 1000, parts = 1 + draw() % 5;
        for (int j = 0; j < 64; j++) sizes.coeffs[j] = (uint32_t)left_of(size_of(a.coeffs[j]), base, parts);
        CHECK(is_element(labrador_rq_left(base, parts, a), sizes));
        CHECK(is_element(labrador_rq_left(base, 32, a), zero()));
    }
    labrador_element bad = monomial(Q, 63);
    CHECK(is_element(labrador_rq_left(10, 2, monomial(NEG(1234), 63)), monomial(12, 63)));
    CHECK(is_refused(labrador_rq_left(1, 33, bad), 4, 0));
    CHECK(is_refused(labrador_rq_left(4, 33, bad), 4, 1));
    CHECK(is_refused(labrador_rq_left(4, 0, bad), 4, 1));
    CHECK(is_refused(labrador_rq_left(4, 2, bad), 6, 65));
}

static void test_challenge(void) {
    labrador_challenge_words w;
    labrador_element start = zero(), turned, shuffled;
    memset(&w, 0, sizeof w);
    for (int k = 0; k < 41; k++) {
        uint32_t size = k < 31 ? 1 : 2;
        w.words[k] = draw() % 2;
        start.coeffs[k] = w.words[k] == 1 ? size : NEG(size);
    }
    for (int k = 0; k < 63; k++) w.words[41 + k] = 63 - k;
    CHECK(is_element(labrador_challenge(w), start));
    for (int k = 0; k < 63; k++) w.words[41 + k] = 0;
    for (int k = 0; k < 64; k++) turned.coeffs[k] = start.coeffs[(k + 1) % 64];
    CHECK(is_element(labrador_challenge(w), turned));
    shuffled = start;
    for (int i = 63; i >= 1; i--) {
        uint32_t word = w.words[41 + 63 - i] = draw(), j = word % (uint32_t)(i + 1), x = shuffled.coeffs[i];
        shuffled.coeffs[i] = shuffled.coeffs[j];
        shuffled.coeffs[j] = x;
    }
    CHECK(is_element(labrador_challenge(w), shuffled));
    w.words[103] = Q;
    CHECK(labrador_challenge(w).number == 0);
    w.words[40] = 2;
    CHECK(is_refused(labrador_challenge(w), 8, 40));
    w.words[0] = Q;
    CHECK(is_refused(labrador_challenge(w), 8, 0));
}

/* The buffers of a small load (n 2, r 2, kappa and L 4). */
enum { JOB = 262144, RANDOMNESS = 131072, WITNESS = 512, SCRATCH = 65536, OUTPUT = 4096, MARK = 0x5a5a5a5a };

static uint32_t job[JOB], randomness[RANDOMNESS], witness[WITNESS], scratch[SCRATCH], output[OUTPUT], joined[OUTPUT];
static size_t job_length, randomness_length, witness_length, ends[8];

/* A load of these sizes and seed 1. */
static void make_load(labrador_parameters sizes) {
    labrador_load_need need = labrador_load_needs(sizes);
    job_length = need.job;
    witness_length = need.witness;
    randomness_length = need.randomness;
    labrador_answer a = labrador_load(sizes, 1, job, JOB, witness, WITNESS, randomness, RANDOMNESS);
    CHECK(need.number == 0 && need.place == 0 && a.number == 0 && a.place == 0);
    ends[0] = 0;
    for (int k = 0; k < 7; k++) ends[k + 1] = ends[k] + 1 + randomness[ends[k]];
    CHECK(ends[7] == randomness_length);
    for (size_t k = 0; k < SCRATCH; k++) scratch[k] = MARK;
    for (size_t k = 0; k < OUTPUT; k++) output[k] = joined[k] = MARK;
}

static void make_job(uint32_t ring, uint32_t constant) {
    make_load((labrador_parameters){2, 2, 4, 1, 1, ring, constant, 32, 256, 4, 4, 4});
}

/* First and last words of three loads, of their b0 and of their b. */
typedef struct {
    labrador_parameters sizes;
    uint32_t seed;
    size_t job, witness, randomness, b_0, b;
    uint32_t job_words[4], b_0_word, b_word, witness_words[4], randomness_words[4];
} load_vector;

static const load_vector loads[3] = {
    {{1, 1, 4, 1, 1, 1, 1, 32, 2, 1, 1, 4}, 0, 1002, 65, 17843, 162, 294,
     {1013904223u, 1196435762u, 251590501u, 3201352064u}, 175828025u, 3407199058u, {Q - 1, 0, 1, 0},
     {415956767u, 1248543218u, 1274125329u, 2576066108u}},
    {{2, 3, 5, 2, 1, 3, 2, 31, 16, 3, 2, 5}, 1, 13163, 385, 100425, 1570, 3879,
     {1015568748u, 1586005467u, 827939114u, 211367553u}, 1230392950u, 2664596849u, {Q - 1, 1, 0, 1},
     {43359596u, 1514994139u, 2510895788u, 4264785435u}},
    {{3, 2, 8, 1, 2, 1, 4, 16, Q - 1, 1, 2, 8}, UINT32_MAX, 6317, 385, 101175, 2338, 2921,
     {1012239698u, 806866057u, 3693287520u, 3343740991u}, 1770543956u, 1837463797u, {1, 1, 1, 0},
     {3055150098u, 308327497u, 4176324560u, 4105001199u}},
};

/* Two words from a place on, and the last two of so many. */
static int has_words(const uint32_t *words, size_t first, size_t length, const uint32_t expected[4]) {
    return same(words + first, expected, 2) && same(words + length - 2, expected + 2, 2);
}

/* Whole loads as document 02's model makes them (`harness load-sums` of oracle/ prints these rows): sizes, seed, and the words of job, witness
   and randomness in one number each. */
static const struct {
    labrador_parameters sizes;
    uint32_t seed;
    uint64_t job, witness, randomness;
} recorded_loads[16] = {
    {{2, 2, 5, 3, 3, 5, 5, 28, 625349, 3, 2, 5}, 0u, 0xd60e397fcf603bd0u, 0x5036d35f7ca0b489u, 0xc4ee6c86bd68eaccu},
    {{1, 1, 5, 1, 1, 1, 6, 26, 933290, 3, 2, 12}, 1u, 0xd8deb5285c8792d0u, 0xe46821c60f2407cdu, 0x300770232f1083f1u},
    {{2, 2, 4, 3, 3, 64, 1, 32, 511233, 1, 2, 32}, 4294967295u, 0x4bc0ea5f5b9e4561u, 0x38e7082ee3bfb6bbu, 0xa8160916b6bf7985u},
    {{1, 2, 2, 1, 2, 0, 6, 20, 650876, 3, 1, 7}, 811354239u, 0xeb9b1e603595f619u, 0xa6b093c9ff4e2308u, 0x0af23c7a145763e3u},
    {{2, 2, 16, 1, 3, 1, 1, 26, 965323, 2, 3, 9}, 0u, 0x3aea579cda1426f7u, 0xc42f77ee1b25b881u, 0x28e4147c0e03a46bu},
    {{2, 1, 8, 1, 1, 1, 1, 26, 649706, 32, 32, 32}, 1u, 0x1993775d4d326546u, 0xc53ac5449e3d9a5bu, 0x25b5330147214c48u},
    {{1, 1, 16, 1, 1, 64, 1, 31, 695901, 3, 2, 5}, 4294967295u, 0x645fb23b36a3badbu, 0x78d0d9e1ce812685u, 0x66444d330fd3da69u},
    {{2, 2, 16, 2, 1, 0, 1, 16, 26467, 2, 32, 12}, 685597484u, 0xd5aea08bd3dbb25eu, 0x131d7578edac39fcu, 0x1c4f6b017d3b4957u},
    {{2, 1, 16, 3, 1, 5, 64, 27, 768005, 1, 32, 32}, 0u, 0x75bcb9433c2f9d29u, 0x16f36e686a934290u, 0xc8cda15eb587b9cau},
    {{2, 2, 5, 1, 2, 1, 64, 26, 581995, 32, 1, 5}, 1u, 0xafa11da1ce7b62e2u, 0x70d459cf1e50bc79u, 0x37d20ca0bd09e934u},
    {{2, 2, 5, 1, 3, 64, 64, 26, 934186, 2, 1, 11}, 4294967295u, 0x4891e8f54ff3497bu, 0x0573fa131f45c7b3u, 0xe002ddd8f8c1d253u},
    {{2, 2, 8, 1, 3, 0, 64, 16, 706936, 3, 1, 32}, 3938257949u, 0x6ad17c0d66f1ed63u, 0xae086497fd006ac4u, 0x71e60e0b6bfaac3au},
    {{2, 1, 15, 2, 1, 4, 0, 25, 409620, 1, 1, 6}, 0u, 0x9245727898f59bbdu, 0x6001a76edb6b2187u, 0xd68c15978b615eebu},
    {{1, 1, 9, 1, 3, 1, 0, 21, 964163, 32, 2, 12}, 1u, 0x81178a967e8f5e13u, 0x383bb4d4fb42df5eu, 0x239ac84d33d93355u},
    {{2, 2, 11, 3, 3, 64, 0, 18, 707597, 2, 3, 32}, 4294967295u, 0x5387b28a8040be0cu, 0xdc532a4d0db4ac68u, 0x0b9f7c280d2a5ae0u},
    {{2, 1, 16, 3, 1, 0, 1, 30, 717845, 1, 3, 5}, 3760132017u, 0xe22f2828cac04d0fu, 0x1251ac08f0b50770u, 0xf3ccc466201bae09u},
};

/* Words in one number: FNV-1a, a word at a time. */
static uint64_t sum_of(const uint32_t *words, size_t count) {
    uint64_t h = 14695981039346656037u;
    for (size_t k = 0; k < count; k++) h = (h ^ words[k]) * 1099511628211u;
    return h;
}

static void test_recorded_loads(void) {
    for (int k = 0; k < 16; k++) {
        labrador_parameters sizes = recorded_loads[k].sizes;
        labrador_load_need need = labrador_load_needs(sizes);
        labrador_answer a = labrador_load(sizes, recorded_loads[k].seed, job, JOB, witness, WITNESS, randomness, RANDOMNESS);
        CHECK(a.number == 0 && a.place == 0);
        CHECK(sum_of(job, need.job) == recorded_loads[k].job);
        CHECK(sum_of(witness, need.witness) == recorded_loads[k].witness);
        CHECK(sum_of(randomness, need.randomness) == recorded_loads[k].randomness);
    }
}

static void test_loads(void) {
    for (int k = 0; k < 3; k++) {
        const load_vector *v = &loads[k];
        for (size_t i = 0; i < JOB; i++) job[i] = MARK;
        for (size_t i = 0; i < WITNESS; i++) witness[i] = MARK;
        for (size_t i = 0; i < RANDOMNESS; i++) randomness[i] = MARK;
        labrador_load_need need = labrador_load_needs(v->sizes);
        CHECK(need.number == 0 && need.place == 0 && need.job == v->job && need.witness == v->witness && need.randomness == v->randomness);
        labrador_answer a = labrador_load(v->sizes, v->seed, job, v->job - 1, witness, 0, randomness, 0);
        CHECK(a.number == 2 && a.place == v->job && job[0] == MARK);
        a = labrador_load(v->sizes, v->seed, job, JOB, witness, v->witness - 1, randomness, 0);
        CHECK(a.number == 2 && a.place == v->witness && job[0] == MARK && witness[0] == MARK);
        a = labrador_load(v->sizes, v->seed, job, JOB, witness, WITNESS, randomness, v->randomness - 1);
        CHECK(a.number == 2 && a.place == v->randomness && job[0] == MARK && randomness[0] == MARK);
        a = labrador_load(v->sizes, v->seed, job, JOB, witness, WITNESS, randomness, RANDOMNESS);
        CHECK(a.number == 0 && a.place == 0);
        CHECK(job[0] == 30 && same(job + 1, &v->sizes.n, 12) && job[13] == UINT32_MAX && job[30] == UINT32_MAX);
        CHECK(has_words(job, 32, v->job, v->job_words));
        CHECK(!RECORDED || (job[v->b_0] == v->b_0_word && job[v->b] == v->b_word));
        CHECK(has_words(witness, 1, v->witness, v->witness_words) && has_words(randomness, 1, v->randomness, v->randomness_words));
        CHECK(job[v->job] == MARK && witness[v->witness] == MARK && randomness[v->randomness] == MARK);
    }
    labrador_parameters wrong = loads[0].sizes;
    wrong.log_q = 33;
    labrador_load_need need = labrador_load_needs(wrong);
    CHECK(need.number == 4 && need.place == 8 && need.job == 0 && need.witness == 0 && need.randomness == 0);
    wrong.log_q = 31;
    labrador_answer a = labrador_load(wrong, 0, job, 0, witness, 0, randomness, 0);
    CHECK(a.number == 5 && a.place == 12);
    wrong.log_q = 32;
    wrong.L = 33;
    need = labrador_load_needs(wrong);
    CHECK(need.number == 4 && need.place == 12);
    wrong.L = 32;
    wrong.kappa = 1;
    CHECK(labrador_load_needs(wrong).number == 0);
}

static void test_needs(size_t *scratch_need, size_t *output_need) {
    labrador_need s = labrador_scratch_need(job, job_length);
    labrador_need o = labrador_output_need(job, job_length);
    CHECK(s.number == 0 && s.place == 0 && s.words == 64 * (6 * (4 + 3) + 8 + 2 + 64));
    CHECK(o.number == 0 && o.place == 0 && o.words == 64 * (1 + 4 + 1 + 2 + 8 + 3 + 3) + 256 + 8);
    *scratch_need = s.words;
    *output_need = o.words;
    job[12] = 3;
    s = labrador_scratch_need(job, job_length);
    CHECK(s.number == 5 && s.place == 12 && s.words == 0);
    job[12] = 33;
    s = labrador_scratch_need(job, job_length);
    CHECK(s.number == 4 && s.place == 12 && s.words == 0);
    job[12] = 4;
    job[0] = 29;
    s = labrador_scratch_need(job, job_length);
    CHECK(s.number == 3 && s.place == 0 && s.words == 0);
    job[0] = 30;
    o = labrador_output_need(job, job_length - 1);
    CHECK(o.number == 3 && o.place == job_length - 1 && o.words == 0);
}

static labrador_verdict verdict_on(uint32_t *transcript, size_t length, size_t lent) {
    return labrador_verify(job, job_length, randomness, randomness_length, transcript, length, scratch, lent);
}

static int is_verdict(labrador_verdict v, uint32_t number, uint64_t place) {
    return v.number == number && v.place == place && v.index == 0 && v.first_hi == 0 && v.first_lo == 0 && v.second_hi == 0 &&
           v.second_lo == 0 && v.cells_left == 0;
}

static void test_rounds(size_t scratch_need, size_t output_need) {
    labrador_answer (*const rounds[5])(const uint32_t *, size_t, const uint32_t *, size_t, const uint32_t *, size_t, uint32_t *,
                                       size_t, uint32_t *, size_t) = {labrador_round_1, labrador_round_2, labrador_round_3,
                                                                      labrador_round_4, labrador_round_5};
    const size_t handed[5] = {0, 1, 3, 5, 7};
    const size_t words[5] = {65, 257, 257, 65, 129 + 513 + 193 + 193};
    size_t at = 0;
    for (int k = 0; k < 5; k++) {
        labrador_answer a = rounds[k](job, job_length, randomness, ends[handed[k]], witness, witness_length, scratch, scratch_need,
                                      joined + at, words[k]);
        CHECK(a.number == 0 && a.place == 0);
        at += words[k];
    }
    CHECK(at == output_need && same(joined, output, output_need));
}

static uint32_t next(uint32_t word) { return word == Q - 1 ? 0 : word + 1; }

static void test_calls(void) {
    size_t scratch_need, output_need;
    make_job(1, 1);
    test_needs(&scratch_need, &output_need);
    labrador_answer a = labrador_prove(job, job_length, randomness, randomness_length, witness, witness_length, scratch,
                                       scratch_need - 1, output, OUTPUT);
    CHECK(a.number == 1 && a.place == scratch_need && scratch[0] == MARK && output[0] == MARK);
    a = labrador_prove(job, job_length, randomness, randomness_length, witness, witness_length, scratch, SCRATCH, output,
                       output_need - 1);
    CHECK(a.number == 2 && a.place == output_need && scratch[0] == MARK && output[0] == MARK);
    a = labrador_prove(job, job_length, randomness, randomness_length, witness, witness_length, scratch, SCRATCH, output, OUTPUT);
    CHECK(a.number == 0 && a.place == 0);
    CHECK(all_zero(scratch, scratch_need) && scratch[scratch_need] == MARK);
    CHECK(output[0] == 64 && output[output_need - 193] == 192 && output[output_need] == MARK);
    test_rounds(scratch_need, output_need);
    CHECK(is_verdict(verdict_on(output, output_need, SCRATCH), 0, 0));
    CHECK(is_verdict(verdict_on(output, output_need, scratch_need - 1), 1, scratch_need));
    CHECK(is_verdict(verdict_on(output, output_need - 1, SCRATCH), 9, output_need - 1));
    uint32_t was = output[1];
    output[1] = next(was);
    CHECK(is_verdict(verdict_on(output, output_need, SCRATCH), 28, 0));
    output[1] = was;
    const size_t constant = 65 + 257 + 1 + 64;
    was = output[constant];
    uint32_t sent = output[constant] = next(was);
    labrador_verdict v = verdict_on(output, output_need, SCRATCH);
    CHECK(v.number == 22 && v.index == 1 && v.place == 0 && v.first_hi == 0 && v.first_lo == sent && v.second_hi == 0 &&
          v.second_lo == was && v.cells_left == 0);
    output[constant] = Q;
    CHECK(is_verdict(verdict_on(output, output_need, SCRATCH), 10, constant));
    job[13] = job[14] = job[15] = 0;
    output[constant] = 0;
    v = verdict_on(output, output_need, SCRATCH);
    CHECK(v.number == 21 && v.index == 0 && v.first_lo > 0 && v.second_hi == 0 && v.second_lo == 0 && v.cells_left == 0);
    CHECK(all_zero(scratch, scratch_need) && scratch[scratch_need] == MARK);
    job[19] = job[20] = job[21] = 0;
    a = labrador_prove(job, job_length, randomness, randomness_length, witness, witness_length, scratch, SCRATCH, output, OUTPUT);
    CHECK(a.number == 13 && a.place == 0 && all_zero(output, output_need) && output[output_need] == MARK);
}

/* Statements of one kind only: proved and accepted, and both numbers 0 refused at l's place. */
static void test_one_kind(void) {
    for (uint32_t ring = 0; ring < 2; ring++) {
        make_job(ring, 1 - ring);
        size_t scratch_need = labrador_scratch_need(job, job_length).words;
        size_t output_need = labrador_output_need(job, job_length).words;
        labrador_answer a = labrador_prove(job, job_length, randomness, randomness_length, witness, witness_length, scratch,
                                           scratch_need, output, output_need);
        CHECK(a.number == 0 && a.place == 0 && output_need > 0 && output[output_need] == MARK);
        CHECK(is_verdict(verdict_on(output, output_need, scratch_need), 0, 0));
        test_rounds(scratch_need, output_need);
        job[6] = job[7] = 0;
        labrador_need s = labrador_scratch_need(job, job_length);
        CHECK(s.number == 4 && s.place == 7 && s.words == 0);
        job[8] = 15;
        CHECK(labrador_scratch_need(job, job_length).place == 7);
    }
}

/* How many cells of a section of the transcript have a coefficient with something left. */
static uint64_t cells_of(const uint32_t *words, size_t cells, uint32_t base, uint32_t parts) {
    uint64_t count = 0;
    for (size_t c = 0; c < cells; c++) {
        int something = 0;
        for (int j = 0; j < 64; j++) something = something || left_of(size_of(words[64 * c + j]), base, parts) > 0;
        count += something;
    }
    return count;
}

/* The number of cells that an acceptance states, for parts too few, enough and too few by one. */
static void test_cells_left(void) {
    const uint32_t parts[7][3] = {{256, 4, 4}, {256, 3, 3}, {256, 1, 4}, {256, 4, 1}, {2, 1, 1}, {65536, 2, 2}, {Q - 1, 1, 1}};
    for (int k = 0; k < 7; k++) {
        const labrador_parameters sizes = {2, 2, 4, 1, 1, 1, 1, 32, parts[k][0], parts[k][1], parts[k][2], 4};
        make_load(sizes);
        size_t scratch_need = labrador_scratch_need(job, job_length).words;
        size_t output_need = labrador_output_need(job, job_length).words;
        CHECK(labrador_prove(job, job_length, randomness, randomness_length, witness, witness_length, scratch, scratch_need, output,
                             output_need)
                  .number == 0);
        const uint32_t *t = output + 65 + 257 + 257 + 65 + 129 + 1, *g = t + 512 + 1, *h = g + 192 + 1;
        uint64_t count = cells_of(t, 8, sizes.b, sizes.t_1) + cells_of(g, 3, sizes.b, sizes.t_2) + cells_of(h, 3, sizes.b, sizes.t_1);
        labrador_verdict v = verdict_on(output, output_need, scratch_need);
        CHECK(v.number == 0 && v.place == 0 && v.cells_left == count);
        CHECK(k < 5 || count == 0);
        uint32_t was = output[1];
        output[1] = next(was);
        CHECK(is_verdict(verdict_on(output, output_need, scratch_need), 28, 0));
    }
}

/* kappa rows of A and L aggregated equations apart: proved and accepted, and an error in the last b'' is found. */
static void test_apart(void) {
    const uint32_t sizes[4][2] = {{1, 4}, {16, 4}, {3, 7}, {16, 32}};
    for (int k = 0; k < 4; k++) {
        const uint32_t kappa = sizes[k][0], rows = sizes[k][1];
        make_load((labrador_parameters){2, 1, kappa, 1, 1, 1, 1, 32, 256, 4, 4, rows});
        size_t scratch_need = labrador_scratch_need(job, job_length).words;
        size_t output_need = labrador_output_need(job, job_length).words;
        CHECK(scratch_need == 64 * ((rows + 2) * (2 + 1) + kappa + 2 + 64));
        CHECK(output_need == 64 * (1 + rows + 1 + 2 + kappa + 1 + 1) + 256 + 8);
        labrador_answer a = labrador_prove(job, job_length, randomness, randomness_length, witness, witness_length, scratch,
                                           scratch_need, output, output_need);
        CHECK(a.number == 0 && a.place == 0 && output[65 + 257] == 64 * rows && output[output_need] == MARK);
        CHECK(is_verdict(verdict_on(output, output_need, scratch_need), 0, 0));
        const size_t last = 65 + 257 + 1 + 64 * (rows - 1);
        const uint32_t was = output[last];
        output[last] = next(was);
        labrador_verdict v = verdict_on(output, output_need, scratch_need);
        CHECK(v.number == 22 && v.index == rows - 1 && v.second_lo == was);
    }
}

/* Ranges for the job above: 256 numbers, vectors of 128. */
enum { NUMBERS = 256 };
static int64_t lows[NUMBERS + 64], highs[NUMBERS + 64];

static labrador_ranges_answer ranges(size_t lows_length, size_t highs_length) {
    return labrador_ranges(job, job_length, lows, lows_length, highs, highs_length);
}

static void set_bound(uint64_t bound) {
    job[19] = (uint32_t)bound;
    job[20] = (uint32_t)(bound >> 32);
    job[21] = 0;
}

static int is_range(labrador_range_norms v, uint32_t meets, uint64_t least, uint64_t greatest) {
    return v.meets == meets && v.least_hi == 0 && v.least_lo == least && v.greatest_hi == 0 && v.greatest_lo == greatest;
}

static int are_unused(const labrador_range_norms *v, int count) {
    for (int k = 0; k < count; k++)
        if (!is_range(v[k], 0, 0, 0)) return 0;
    return 1;
}

static int is_refused_range(labrador_ranges_answer a, uint32_t number, uint64_t place) {
    return a.number == number && a.place == place && are_unused(a.vectors, 16);
}

static void test_ranges(void) {
    make_job(1, 1);
    /* the first vector's ranges cross zero, the second's lie below it */
    for (int k = 0; k < NUMBERS; k++) {
        lows[k] = k < 128 ? -2 : -5;
        highs[k] = k < 128 ? 3 : -4;
    }
    const uint64_t bounds[4] = {0, 1151, 1152, 2047};
    const uint32_t meets[4][2] = {{2, 3}, {2, 3}, {1, 3}, {1, 3}};
    for (int k = 0; k < 4; k++) {
        set_bound(bounds[k]);
        labrador_ranges_answer a = ranges(NUMBERS, NUMBERS);
        CHECK(a.number == 0 && a.place == 0 && are_unused(a.vectors + 2, 14));
        CHECK(is_range(a.vectors[0], meets[k][0], 0, 1152) && is_range(a.vectors[1], meets[k][1], 2048, 3200));
    }
    set_bound(2048);
    CHECK(is_range(ranges(NUMBERS, NUMBERS).vectors[1], 2, 2048, 3200));
    set_bound(3200);
    CHECK(is_range(ranges(NUMBERS, NUMBERS).vectors[1], 1, 2048, 3200));
    CHECK(is_refused_range(ranges(NUMBERS - 1, 0), 11, NUMBERS - 1));
    CHECK(is_refused_range(ranges(NUMBERS + 1, 0), 11, NUMBERS));
    CHECK(is_refused_range(ranges(NUMBERS, NUMBERS - 64), 11, NUMBERS - 64));
    CHECK(is_refused_range(ranges(NUMBERS, NUMBERS + 64), 11, NUMBERS));
    lows[0] = 4;
    CHECK(is_refused_range(ranges(NUMBERS, NUMBERS), 36, 0));
    const int64_t half = HALF, beyond[4] = {INT64_MIN, INT64_MAX, -half - 1, half + 1};
    for (int k = 0; k < 4; k++) {
        highs[NUMBERS - 1] = beyond[k];
        CHECK(is_refused_range(ranges(NUMBERS, NUMBERS), 37, NUMBERS - 1));
    }
    /* the whole of the centred numbers: 128 squares of the greatest */
    for (int k = 0; k < NUMBERS; k++) {
        lows[k] = -half;
        highs[k] = half;
    }
    labrador_ranges_answer a = ranges(NUMBERS, NUMBERS);
    CHECK(a.number == 0 && a.vectors[1].meets == 2 && a.vectors[1].least_hi == 0 && a.vectors[1].least_lo == 0);
    CHECK(a.vectors[1].greatest_hi == most(128).hi && a.vectors[1].greatest_lo == most(128).lo);
    job[12] = 3;
    CHECK(is_refused_range(ranges(0, 0), 5, 12));
    job[12] = 4;
}

/* Calls on ranges as document 02's model answers them (`harness range-sums` of oracle/ prints these rows): A's bound in three words, the answer's
   number and place, and all its numbers in one. */
static const struct {
    uint32_t bound[3], number;
    uint64_t place, sum;
} recorded_ranges[16] = {
    {{263u, 0u, 0u}, 0, 0, 0x738f47e258233364u},
    {{98912u, 0u, 0u}, 0, 0, 0x4523f0692cedd81fu},
    {{760617791u, 5u, 0u}, 0, 0, 0x67c40651d184e20cu},
    {{2099780352u, 2348645966u, 2u}, 0, 0, 0xeb190de0ba4ea1b4u},
    {{584u, 0u, 0u}, 0, 0, 0xba8bdcb1d0010c05u},
    {{84283u, 0u, 0u}, 0, 0, 0x87474d2eaf8a3597u},
    {{2572484242u, 5u, 0u}, 0, 0, 0x0f4233357d8381c5u},
    {{3133193778u, 2917838651u, 2u}, 0, 0, 0xc39ce9542ba084fdu},
    {{96u, 0u, 0u}, 0, 0, 0x66adc66c43848089u},
    {{46331u, 0u, 0u}, 0, 0, 0x03660d71b060dfc4u},
    {{3423152016u, 4u, 0u}, 0, 0, 0xffa710ff05bd0c77u},
    {{1747010309u, 2143176549u, 2u}, 0, 0, 0x14ffc7ee4cebf464u},
    {{0u, 0u, 0u}, 36, 5, 0x5363fd93156bd70cu},
    {{0u, 0u, 0u}, 37, 6, 0x0a7a8e2a1cc88cf6u},
    {{0u, 0u, 0u}, 11, 191, 0xa4c6d335c16b4989u},
    {{0u, 0u, 0u}, 11, 128, 0x5b483aa143f3ac8eu},
};

static int64_t many_lows[385], many_highs[385];

/* The lows and highs of a recorded case: ranges about zero, narrow and wide; the last four with a fault. */
static void make_ranges(uint32_t k, size_t count, size_t *lows_length, size_t *highs_length) {
    const int64_t spreads[4] = {7, 100, 65536, 2000000000}, widths[4] = {1, 5, 1000, 147483647};
    const int64_t spread = spreads[k % 4], width = widths[k / 4];
    uint32_t state = 100 + k;
    for (size_t i = 0; i < count; i++) {
        state = state * 1664525u + 1013904223u;
        many_lows[i] = (int64_t)state % spread - spread / 2;
        state = state * 1664525u + 1013904223u;
        many_highs[i] = many_lows[i] + (int64_t)state % width;
    }
    if (k == 12) many_lows[5] = many_highs[5] + 1;
    if (k == 13) many_lows[6] = -2147483648;
    many_highs[count] = 0;
    *lows_length = k == 14 ? count - 1 : count;
    *highs_length = k == 15 ? count + 1 : count;
}

/* A number more in a sum, as two words. */
static uint64_t sum_with(uint64_t sum, uint64_t x) {
    sum = (sum ^ (x & 0xffffffffu)) * 1099511628211u;
    return (sum ^ (x >> 32)) * 1099511628211u;
}

static void test_recorded_ranges(void) {
    for (uint32_t k = 0; k < 16; k++) {
        const labrador_parameters sizes = {1 + k % 2, 1 + k % 3, 4, 1, 1, 1, 1, 32, 256, 4, 4, 4};
        size_t job_words = labrador_load_needs(sizes).job, lows_length, highs_length;
        labrador_load(sizes, k, job, JOB, witness, WITNESS, randomness, RANDOMNESS);
        memcpy(job + 19, recorded_ranges[k].bound, sizeof recorded_ranges[k].bound);
        make_ranges(k, 64 * sizes.n * sizes.r, &lows_length, &highs_length);
        labrador_ranges_answer a = labrador_ranges(job, job_words, many_lows, lows_length, many_highs, highs_length);
        uint64_t sum = sum_with(sum_with(14695981039346656037u, a.number), a.place);
        for (int i = 0; i < 16; i++) {
            labrador_range_norms v = a.vectors[i];
            sum = sum_with(sum, v.meets);
            sum = sum_with(sum_with(sum, v.least_hi), v.least_lo);
            sum = sum_with(sum_with(sum, v.greatest_hi), v.greatest_lo);
        }
        CHECK(a.number == recorded_ranges[k].number && a.place == recorded_ranges[k].place && sum == recorded_ranges[k].sum);
    }
}

/* Which constant was mistyped: a load of five constant-term constraints, whose constants are put wrong after the proof. */
static uint32_t list[16];

static const labrador_parameters five = {1, 1, 4, 1, 1, 1, 5, 32, 256, 4, 4, 4};
static size_t five_job, five_randomness, five_scratch, five_output;

/* Where the constants and the rows of psi stand. */
static uint32_t *five_b0(void) { return job + 31 + 1 + 64 * 5 + 1 + 64 * 5 + 1; }
static uint32_t *five_psi(void) { return randomness + 1 + 16384 + 1; }

static void load_five(uint32_t seed_word) {
    labrador_load(five, seed_word, job, JOB, witness, WITNESS, randomness, RANDOMNESS);
    five_job = labrador_load_needs(five).job;
    five_randomness = labrador_load_needs(five).randomness;
    five_scratch = labrador_scratch_need(job, five_job).words;
    five_output = labrador_output_need(job, five_job).words;
}

static void prove_five(void) {
    labrador_answer a = labrador_prove(job, five_job, randomness, five_randomness, witness, labrador_load_needs(five).witness, scratch,
                                       five_scratch, output, OUTPUT);
    CHECK(a.number == 0);
}

static labrador_mistyped_answer mistyped(size_t scratch_length, size_t list_length) {
    for (size_t k = 0; k < SCRATCH; k++) scratch[k] = MARK;
    for (size_t k = 0; k < 16; k++) list[k] = MARK;
    return labrador_mistyped(job, five_job, randomness, five_randomness, output, five_output, scratch, scratch_length, list, list_length);
}

static int is_mistyped(labrador_mistyped_answer a, uint32_t number, uint64_t place, uint64_t entries) {
    return a.number == number && a.place == place && a.entries == entries;
}

static int is_list(const uint32_t *words) { return same(list, words, 10) && list[10] == MARK && list[15] == MARK; }

static void test_mistyped(void) {
    const uint32_t none[10] = {0}, marks[10] = {MARK, MARK, MARK, MARK, MARK, MARK, MARK, MARK, MARK, MARK};
    load_five(1);
    prove_five();
    CHECK(is_mistyped(mistyped(five_scratch, 10), 32, 0, 0) && is_list(none));
    CHECK(all_zero(scratch, five_scratch) && scratch[five_scratch] == MARK);
    CHECK(is_mistyped(mistyped(five_scratch, 9), 2, 10, 0) && is_list(marks) && scratch[0] == MARK);
    CHECK(is_mistyped(mistyped(five_scratch - 1, 0), 1, five_scratch, 0) && is_list(marks) && scratch[0] == MARK);
    for (uint32_t i = 0; i < 5; i++) {
        const uint32_t mended[10] = {i, NEG(7 + i)};
        uint32_t *b0 = five_b0() + i, right = *b0;
        *b0 = (uint32_t)(((uint64_t)right + 7 + i) % Q);
        CHECK(is_mistyped(mistyped(five_scratch, 10 + i), 0, 0, 1) && is_list(mended));
        CHECK(all_zero(scratch, five_scratch) && scratch[five_scratch] == MARK);
        *b0 = right;
    }
    five_b0()[0] = (five_b0()[0] + 1) % Q;
    five_b0()[4] = (five_b0()[4] + 1) % Q;
    CHECK(is_mistyped(mistyped(five_scratch, 16), 33, 0, 0) && is_list(none));
    /* b'' wrong, and no constant-term constraint */
    make_job(1, 0);
    five_scratch = labrador_scratch_need(job, job_length).words;
    labrador_prove(job, job_length, randomness, randomness_length, witness, witness_length, scratch, five_scratch, output, OUTPUT);
    five_output = labrador_output_need(job, job_length).words;
    uint32_t *constant = output + 1 + output[0] + 1 + 256 + 1;
    *constant = (*constant + 1) % Q;
    labrador_mistyped_answer a =
        labrador_mistyped(job, job_length, randomness, randomness_length, output, five_output, scratch, five_scratch, list, 0);
    CHECK(is_mistyped(a, 33, 0, 0));
}

/* Lists of mistyped constants as document 02's model answers (`harness mistyped-sums` of oracle/ prints these rows): number, place, entries, and the
   list's first ten words. */
static const struct {
    uint32_t number;
    uint64_t place, entries;
    uint32_t words[10];
} recorded_mistyped[20] = {
    {0, 0, 3, {0u, 4294967288u, 1u, 4294967288u, 2u, 7u, 0u, 0u, 0u, 0u}},
    {0, 0, 4, {2u, 4294967288u, 0u, 7u, 1u, 7u, 3u, 3817748709u, 0u, 0u}},
    {0, 0, 4, {3u, 1u, 2u, 4294967292u, 0u, 3u, 1u, 3u, 0u, 0u}},
    {0, 0, 4, {3u, 65537u, 2u, 4294770684u, 0u, 196611u, 1u, 196611u, 0u, 0u}},
    {0, 0, 1, {4u, 4293967292u, 0u, 0u, 0u, 0u, 0u, 0u, 0u, 0u}},
    {0, 0, 3, {2u, 4294967294u, 0u, 1u, 1u, 1u, 0u, 0u, 0u, 0u}},
    {0, 0, 4, {0u, 4294967288u, 1u, 4294967288u, 2u, 7u, 3u, 5614334u, 0u, 0u}},
    {0, 0, 4, {0u, 4294967288u, 1u, 4294967288u, 2u, 7u, 3u, 4294945447u, 0u, 0u}},
    {0, 0, 4, {3u, 4294967292u, 0u, 4294967286u, 1u, 4294967286u, 2u, 9u, 0u, 0u}},
    {0, 0, 1, {4u, 65537u, 0u, 0u, 0u, 0u, 0u, 0u, 0u, 0u}},
    {0, 0, 3, {0u, 4293967292u, 1u, 4293967292u, 2u, 1000003u, 0u, 0u, 0u, 0u}},
    {0, 0, 3, {2u, 4294967294u, 0u, 1u, 1u, 1u, 0u, 0u, 0u, 0u}},
    {33, 0, 0, {0u, 0u, 0u, 0u, 0u, 0u, 0u, 0u, 0u, 0u}},
    {33, 0, 0, {0u, 0u, 0u, 0u, 0u, 0u, 0u, 0u, 0u, 0u}},
    {2, 10, 0, {MARK, MARK, MARK, MARK, MARK, MARK, MARK, MARK, MARK, MARK}},
    {32, 0, 0, {0u, 0u, 0u, 0u, 0u, 0u, 0u, 0u, 0u, 0u}},
    {0, 0, 4, {1u, 4293967292u, 3u, 4293967292u, 0u, 1000003u, 2u, 1000003u, 0u, 0u}},
    {0, 0, 5, {1u, 4294967294u, 3u, 4294967294u, 0u, 1u, 2u, 1u, 4u, 3817748707u}},
    {0, 0, 4, {1u, 4294967288u, 3u, 4294967288u, 0u, 7u, 2u, 7u, 0u, 0u}},
    {0, 0, 5, {4u, 7u, 1u, 4294967274u, 3u, 4294967274u, 0u, 21u, 2u, 21u}},
};

static uint32_t times(uint32_t a, uint32_t b) { return (uint32_t)((uint64_t)a * b % Q); }

static void add_to(uint32_t *word, uint32_t x) { *word = (uint32_t)(((uint64_t)*word + x) % Q); }

/* The rows of psi of a recorded case: the columns are alike, negated and multiplied, from case 16 on with the signs in turn. */
static void weigh_five(uint32_t k) {
    const uint32_t factors[8] = {1, 3, 5, 17, 257, 65537, 255, 65535};
    for (int row = 0; row < 4; row++) {
        uint32_t *psi = five_psi() + 5 * row;
        uint32_t first = times(psi[0], factors[k % 8]), negated = (Q - first) % Q;
        psi[0] = first;
        psi[1] = k < 16 ? first : negated;
        psi[2] = k < 16 ? negated : first;
        psi[3] = k < 16 ? times(first, 3) : negated;
        psi[4] = k < 16 ? psi[4] : times(first, 3);
    }
    if (k % 4 == 3) memset(five_psi(), 0, 5 * sizeof(uint32_t));
    if (k == 13) memset(five_psi(), 0, 20 * sizeof(uint32_t));
}

static void test_recorded_mistyped(void) {
    const uint32_t errors[6] = {7, NEG(7), 3, NEG(65537), 1000003, NEG(1)};
    for (uint32_t k = 0; k < 20; k++) {
        load_five(k);
        weigh_five(k);
        prove_five();
        if (k != 15) add_to(five_b0() + k % 5, errors[k % 6]);
        if (k == 12) add_to(five_b0() + 4, 11);
        if (k == 13) add_to(output + 1 + 64 + 1 + 256 + 1, 1);
        labrador_mistyped_answer a = mistyped(five_scratch, k == 14 ? 9 : 10 + k % 2);
        CHECK(is_mistyped(a, recorded_mistyped[k].number, recorded_mistyped[k].place, recorded_mistyped[k].entries));
        CHECK(is_list(recorded_mistyped[k].words));
    }
}

/* Projection worked by shed: a load of four vectors, each run's words taken out of the whole call's. */
enum { RUN = 4 * 16384 + 2 };
static uint32_t run_projection[RUN], run_vectors[WITNESS], run_p[4][257 + 4], run_rows[OUTPUT], added[257 + 4];

/* The run's projection words and vectors, each a section of its own. */
static void cut_run(uint32_t n, uint32_t first, uint32_t end) {
    run_projection[0] = 16384 * n * (end - first);
    run_vectors[0] = 64 * n * (end - first);
    memcpy(run_projection + 1, randomness + 1 + 16384 * n * first, run_projection[0] * sizeof(uint32_t));
    memcpy(run_vectors + 1, witness + 1 + 64 * n * first, run_vectors[0] * sizeof(uint32_t));
}

static void mark(uint32_t *words, size_t length) {
    for (size_t k = 0; k < length; k++) words[k] = MARK;
}

static labrador_answer projection_of(uint32_t first, uint32_t end, size_t scratch_length, uint32_t *into, size_t length) {
    return labrador_shed_projection(job, job_length, first, end, run_projection, 1 + run_projection[0], run_vectors, 1 + run_vectors[0], scratch,
                                    scratch_length, into, length);
}

static labrador_answer rows_of(uint32_t first, uint32_t end, size_t scratch_length, uint32_t *into, size_t length) {
    return labrador_shed_rows(job, job_length, first, end, run_vectors, 1 + run_vectors[0], scratch, scratch_length, into, length);
}

static labrador_answer add_p(const uint32_t *p, size_t p_length, const uint32_t *other, size_t other_length, size_t length) {
    return labrador_add_projections(p, p_length, other, other_length, added, length);
}

static int is_answer(labrador_answer a, uint32_t number, uint64_t place) { return a.number == number && a.place == place; }

/* The runs' p, added from each of them on, upward or downward, as the first or the second of two. */
static void test_sums(int runs, const uint32_t *p) {
    for (int from = 0; from < runs; from++) {
        memcpy(added, run_p[from], sizeof added);
        for (int k = 1; k < runs; k++) {
            uint32_t before[257 + 4];
            memcpy(before, added, sizeof before);
            const uint32_t *next_p = run_p[(from + (from % 2 ? k : runs - k)) % runs];
            mark(added, 261);
            CHECK(is_answer(k % 2 ? add_p(before, 257, next_p, 257, 257) : add_p(next_p, 257, before, 257, 261), 0, 0));
            CHECK(added[257] == MARK && added[260] == MARK);
        }
        CHECK(same(added, p, 257));
    }
}

/* One split of four vectors, whose inner ends are the bits of a number: the runs' p and rows with the whole call's p and t, which stand in the output. */
static void test_split(uint32_t split, size_t scratch_need) {
    const uint32_t *p = output + 65, *t = output + 65 + 257 + 257 + 65 + 65;
    uint32_t first = 0;
    int runs = 0;
    size_t laid = 1;
    run_rows[0] = t[0];
    for (uint32_t end = 1; end <= 4; end++) {
        if (end < 4 && (split >> end & 1) == 0) continue;
        cut_run(1, first, end);
        mark(scratch, SCRATCH);
        mark(run_p[runs], 261);
        CHECK(is_answer(projection_of(first, end, scratch_need + 1, run_p[runs], 261), 0, 0));
        CHECK(run_p[runs][0] == 256 && run_p[runs][257] == MARK && all_zero(scratch, scratch_need) && scratch[scratch_need] == MARK);
        size_t length = 1 + 256 * (size_t)(end - first);
        uint32_t count_and_rows[1 + 1024 + 1];
        mark(count_and_rows, 1026);
        mark(scratch, scratch_need);
        CHECK(is_answer(rows_of(first, end, scratch_need, count_and_rows, length), 0, 0));
        CHECK(count_and_rows[0] == length - 1 && count_and_rows[length] == MARK && all_zero(scratch, scratch_need));
        memcpy(run_rows + laid, count_and_rows + 1, (length - 1) * sizeof(uint32_t));
        laid += length - 1;
        first = end;
        runs++;
    }
    CHECK(laid == 1025 && same(run_rows, t, 1025));
    test_sums(runs, p);
}

/* Refusals in their order, of the run from 1 to 3. */
static void test_run_refusals(size_t scratch_need) {
    const uint32_t outside[6][2] = {{0, 0}, {2, 1}, {0, 5}, {4, 5}, {Q, 0}, {Q, Q}};
    cut_run(1, 1, 3);
    mark(scratch, SCRATCH);
    mark(run_rows, OUTPUT);
    for (int k = 0; k < 6; k++) {
        CHECK(is_answer(projection_of(outside[k][0], outside[k][1], 0, run_rows, 0), 34, outside[k][0]));
        CHECK(is_answer(rows_of(outside[k][0], outside[k][1], 0, run_rows, 0), 34, outside[k][0]));
        labrador_answer b = labrador_shed_projection(job, job_length, outside[k][0], outside[k][1], run_projection, 0, run_vectors, 0, scratch, 0,
                                                     run_rows, 0);
        CHECK(is_answer(b, 34, outside[k][0]));
    }
    job[1] = 65;
    CHECK(is_answer(projection_of(Q, 0, 0, run_rows, 0), 4, 1) && is_answer(rows_of(Q, 0, 0, run_rows, 0), 4, 1));
    job[1] = 1;
    CHECK(is_answer(projection_of(1, 2, 0, run_rows, 0), 7, 0) && is_answer(rows_of(1, 2, 0, run_rows, 0), 11, 0));
    run_projection[2 * 16384] = Q;
    run_vectors[128] = Q;
    CHECK(is_answer(projection_of(1, 3, 0, run_rows, 0), 8, 2 * 16384));
    run_projection[2 * 16384] = 0;
    CHECK(is_answer(projection_of(1, 3, 0, run_rows, 0), 12, 128) && is_answer(rows_of(1, 3, 0, run_rows, 0), 12, 128));
    run_vectors[128] = 0;
    labrador_answer a = labrador_shed_rows(job, job_length, 1, 3, run_vectors, 128, scratch, 0, run_rows, 0);
    CHECK(is_answer(a, 11, 128));
    CHECK(is_answer(projection_of(1, 3, scratch_need - 1, run_rows, 0), 1, scratch_need));
    CHECK(is_answer(rows_of(1, 3, scratch_need - 1, run_rows, 0), 1, scratch_need));
    CHECK(is_answer(projection_of(1, 3, scratch_need, run_rows, 256), 2, 257) && is_answer(rows_of(1, 3, scratch_need, run_rows, 512), 2, 513));
    CHECK(scratch[0] == MARK && scratch[scratch_need - 1] == MARK && run_rows[0] == MARK && run_rows[512] == MARK);
    /* the run's second vector is the job's third; p is made all the same */
    for (int k = 65; k <= 128; k++) run_vectors[k] = HALF + 1;
    set_bound(64);
    CHECK(is_answer(rows_of(1, 3, scratch_need, run_rows, 514), 13, 2) && all_zero(run_rows, 513) && run_rows[513] == MARK);
    CHECK(all_zero(scratch, scratch_need) && scratch[scratch_need] == MARK);
    CHECK(is_answer(projection_of(1, 3, scratch_need, run_rows, 257), 0, 0) && run_rows[0] == 256);
}

static void test_unfit_sums(void) {
    uint32_t p[258] = {256, 1, Q - 1}, other[258] = {256, 2, 2};
    mark(added, 261);
    CHECK(is_answer(add_p(p, 256, other, 0, 0), 9, 256) && is_answer(add_p(p, 258, other, 0, 0), 9, 257));
    CHECK(is_answer(add_p(p, 257, other, 0, 0), 9, 0) && is_answer(add_p(p, 257, other, 1, 0), 9, 1));
    p[3] = Q;
    CHECK(is_answer(add_p(p, 257, other, 0, 0), 10, 3));
    p[3] = 0;
    other[256] = Q;
    CHECK(is_answer(add_p(p, 257, other, 257, 0), 10, 256));
    other[256] = 0;
    CHECK(is_answer(add_p(p, 257, other, 257, 256), 2, 257) && added[0] == MARK && added[256] == MARK);
    CHECK(is_answer(add_p(p, 257, other, 257, 257), 0, 0));
    CHECK(added[0] == 256 && added[1] == 3 && added[2] == 1 && all_zero(added + 3, 254) && added[257] == MARK);
}

static void test_sheds(void) {
    make_load((labrador_parameters){1, 4, 4, 1, 1, 1, 1, 32, 256, 4, 4, 4});
    size_t scratch_need = labrador_scratch_need(job, job_length).words;
    labrador_answer a = labrador_prove(job, job_length, randomness, randomness_length, witness, witness_length, scratch, scratch_need, output, OUTPUT);
    CHECK(a.number == 0);
    for (uint32_t split = 0; split < 16; split += 2) test_split(split, scratch_need);
    test_run_refusals(scratch_need);
    test_unfit_sums();
}

/* Runs as document 02's model answers (`harness shed-sums` of oracle/ prints these rows): n, r, kappa and seed of a load, first and end; the rows' number and
   place, and the words of p and of the rows in one number each. */
static const struct {
    uint32_t n, r, kappa, seed, first, end, number;
    uint64_t place, p, rows;
} recorded_sheds[12] = {
    {1, 4, 1, 0, 0, 1, 0, 0, 0xa05253fd10b24982u, 0x832d86600a4225c9u},
    {2, 3, 2, 1, 1, 2, 0, 0, 0x4d734d27da0b6f2eu, 0xd2fae2a3d83dbed1u},
    {1, 4, 3, 2, 2, 3, 0, 0, 0x42c81bb4e104eff4u, 0x5bf092af4ae56c56u},
    {2, 3, 4, 3, 0, 2, 0, 0, 0x3c3c1278c55da8f6u, 0x3c176fd00dfd9b14u},
    {1, 4, 5, 4, 0, 2, 0, 0, 0xa2792ef4b2dcd6dfu, 0x97a54366558d8788u},
    {2, 3, 6, 5, 2, 3, 0, 0, 0x3f396cdf10f2e397u, 0x39f5596cc9a7b9e2u},
    {1, 4, 7, 6, 2, 3, 0, 0, 0xd330bca37045b310u, 0x9e1a304ac4faa600u},
    {2, 3, 8, 7, 1, 2, 0, 0, 0x7e8d1fc3dfcf4ce8u, 0x266fe0255b24d879u},
    {1, 4, 1, 8, 0, 3, 13, 1, 0x652ef5396a01d0f0u, 0x4776f9dd4df814dfu},
    {2, 3, 2, 9, 0, 1, 13, 0, 0x794d0e24b82a1787u, 0x0227ee4e5846f5dfu},
    {1, 4, 3, 10, 2, 4, 13, 2, 0x875086356bf931e5u, 0x82b6f486d54571dfu},
    {2, 3, 4, 11, 2, 3, 13, 2, 0xdb65e9003602751du, 0x86062d4c200833dfu},
};

static void test_recorded_sheds(void) {
    for (int k = 0; k < 12; k++) {
        const uint32_t n = recorded_sheds[k].n, r = recorded_sheds[k].r, kappa = recorded_sheds[k].kappa;
        const uint32_t first = recorded_sheds[k].first, end = recorded_sheds[k].end;
        const labrador_parameters sizes = {n, r, kappa, 1, 1, 1, 1, 32, 256, 4, 4, 4};
        job_length = labrador_load_needs(sizes).job;
        CHECK(labrador_load(sizes, recorded_sheds[k].seed, job, JOB, witness, WITNESS, randomness, RANDOMNESS).number == 0);
        if (k >= 8) set_bound(42 * n);
        size_t scratch_need = labrador_scratch_need(job, job_length).words, rows = 1 + 64 * (size_t)kappa * (end - first);
        cut_run(n, first, end);
        CHECK(is_answer(projection_of(first, end, scratch_need, run_p[0], 257), 0, 0) && sum_of(run_p[0], 257) == recorded_sheds[k].p);
        CHECK(is_answer(rows_of(first, end, scratch_need, run_rows, rows), recorded_sheds[k].number, recorded_sheds[k].place));
        CHECK(sum_of(run_rows, rows) == recorded_sheds[k].rows);
    }
}

/* Many transcripts: a load of one vector, proved with the randomness of eight others. */
enum { ONE_RANDOMNESS = 17843, ONE_TRANSCRIPT = 64 * (1 + 4 + 1 + 1 + 4 + 1 + 1) + 256 + 8 };
static uint32_t many_randomness[8 * ONE_RANDOMNESS + 70], many_transcripts[8 * ONE_TRANSCRIPT + 70], other_job[JOB], other_witness[WITNESS];

static labrador_verdicts verdicts(uint32_t count, size_t randomness_words, size_t transcript_words, size_t lent) {
    mark(scratch, SCRATCH);
    return labrador_verify_many(job, job_length, count, many_randomness, randomness_words, many_transcripts, transcript_words, scratch, lent);
}

static int same_verdict(labrador_verdict v, labrador_verdict w) {
    return v.number == w.number && v.index == w.index && v.first_hi == w.first_hi && v.first_lo == w.first_lo && v.second_hi == w.second_hi &&
           v.second_lo == w.second_lo && v.place == w.place && v.cells_left == w.cells_left;
}

/* The first verdicts are the single call's, with numbers that are known, and the others are unused. */
static int are_verdicts(labrador_verdicts a, uint32_t count, const uint32_t *numbers) {
    static uint32_t own[SCRATCH];
    int ok = a.number == 0 && a.place == 0;
    for (uint32_t m = 0; m < 8; m++) {
        if (m >= count) {
            ok = ok && is_verdict(a.verdicts[m], LABRADOR_UNUSED, 0);
            continue;
        }
        labrador_verdict v = labrador_verify(job, job_length, many_randomness + m * ONE_RANDOMNESS, ONE_RANDOMNESS,
                                             many_transcripts + m * ONE_TRANSCRIPT, ONE_TRANSCRIPT, own, SCRATCH);
        ok = ok && same_verdict(a.verdicts[m], v) && v.number == numbers[m];
    }
    return ok;
}

static int is_refused_whole(labrador_verdicts a, uint32_t number, uint64_t place) {
    int ok = a.number == number && a.place == place && scratch[0] == MARK;
    for (int m = 0; m < 8; m++) ok = ok && is_verdict(a.verdicts[m], 0, 0);
    return ok;
}

/* Slices that end early, go on, or are empty. */
static void test_cut_transcripts(size_t need) {
    const size_t R = ONE_RANDOMNESS, T = ONE_TRANSCRIPT;
    labrador_verdicts a = verdicts(4, 4 * R, 2 * T + 5, 4 * need);
    CHECK(is_verdict(a.verdicts[0], 0, 0) && is_verdict(a.verdicts[1], 0, 0));
    CHECK(is_verdict(a.verdicts[2], 9, 5) && is_verdict(a.verdicts[3], 9, 0) && is_verdict(a.verdicts[4], LABRADOR_UNUSED, 0));
    a = verdicts(3, R - 1, 3 * T, 3 * need);
    CHECK(is_verdict(a.verdicts[0], 7, R - 1) && is_verdict(a.verdicts[1], 7, 0) && is_verdict(a.verdicts[2], 7, 0));
    a = verdicts(2, 2 * R, 2 * T + 1, 2 * need);
    CHECK(is_verdict(a.verdicts[0], 0, 0) && is_verdict(a.verdicts[1], 9, T));
    a = verdicts(2, 3 * R, 2 * T, 2 * need);
    CHECK(is_verdict(a.verdicts[0], 0, 0) && is_verdict(a.verdicts[1], 7, R));
    a = verdicts(8, 0, 0, 8 * need);
    for (int m = 0; m < 8; m++) CHECK(is_verdict(a.verdicts[m], 7, 0));
    CHECK(a.number == 0 && all_zero(scratch, 8 * need) && scratch[8 * need] == MARK);
}

static void test_many(void) {
    const labrador_parameters sizes = {1, 1, 4, 1, 1, 1, 1, 32, 256, 4, 4, 4};
    const uint32_t accepted[8] = {0}, broken[8] = {0, 28, 0, 22, 8, 29, 9, 24};
    make_load(sizes);
    size_t need = labrador_scratch_need(job, job_length).words;
    CHECK(randomness_length == ONE_RANDOMNESS && labrador_output_need(job, job_length).words == ONE_TRANSCRIPT);
    for (uint32_t m = 0; m < 8; m++) {
        uint32_t *R = many_randomness + m * ONE_RANDOMNESS, *T = many_transcripts + m * ONE_TRANSCRIPT;
        CHECK(labrador_load(sizes, 100 + m, other_job, JOB, other_witness, WITNESS, R, ONE_RANDOMNESS).number == 0);
        labrador_answer a = labrador_prove(job, job_length, R, ONE_RANDOMNESS, witness, witness_length, scratch, need, T, ONE_TRANSCRIPT);
        CHECK(a.number == 0);
    }
    for (uint32_t count = 1; count <= 8; count++) {
        CHECK(are_verdicts(verdicts(count, count * ONE_RANDOMNESS, count * ONE_TRANSCRIPT, count * need), count, accepted));
        CHECK(all_zero(scratch, count * need) && scratch[count * need] == MARK);
    }
    const uint32_t outside[4] = {0, 9, 10, Q};
    for (int k = 0; k < 4; k++) CHECK(is_refused_whole(verdicts(outside[k], 0, 0, 0), 35, 0));
    CHECK(is_refused_whole(verdicts(8, 0, 0, 8 * need - 1), 1, 8 * need) && is_refused_whole(verdicts(1, 0, 0, need - 1), 1, need));
    job[1] = 65;
    CHECK(is_refused_whole(verdicts(8, 0, 0, 0), 4, 1) && is_refused_whole(verdicts(9, 0, 0, 0), 35, 0));
    job[1] = 1;
    test_cut_transcripts(need);
    uint32_t *sent[8];
    for (int m = 0; m < 8; m++) sent[m] = many_transcripts + m * ONE_TRANSCRIPT;
    sent[1][1] = next(sent[1][1]);
    sent[3][65 + 257 + 1 + 64] = next(sent[3][65 + 257 + 1 + 64]);
    many_randomness[4 * ONE_RANDOMNESS + 1 + 16384 + 1] = Q;
    sent[5][65 + 257 + 257 + 1] = next(sent[5][65 + 257 + 257 + 1]);
    sent[6][65] = 255;
    sent[7][65 + 257 + 257 + 65 + 65 + 1] = next(sent[7][65 + 257 + 257 + 65 + 65 + 1]);
    CHECK(are_verdicts(verdicts(8, 8 * ONE_RANDOMNESS, 8 * ONE_TRANSCRIPT, 8 * need + 1), 8, broken));
    CHECK(all_zero(scratch, 8 * need) && scratch[8 * need] == MARK);
}

int main(void) {
    test_numbers();
    test_digits();
    test_recompose();
    test_elements();
    test_random_elements();
    test_fast_product();
    test_rows();
    test_left();
    test_challenge();
    test_loads();
    test_calls();
    test_one_kind();
    test_cells_left();
    test_apart();
    test_ranges();
    test_mistyped();
    test_sheds();
    test_many();
    if (RECORDED) {
        test_recorded_loads();
        test_recorded_ranges();
        test_recorded_mistyped();
        test_recorded_sheds();
    }
    if (failures > 0) {
        printf("%d of %d checks failed\n", failures, checks);
        return EXIT_FAILURE;
    }
    printf("bindings: %d checks passed\n", checks);
    return EXIT_SUCCESS;
}

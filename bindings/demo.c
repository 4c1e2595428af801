/* Writes the job of a statement of four totals and the witness of a stock, proves it eight times, each with randomness of its own, whole and
   once in rounds, and judges the eight in one call. Then transcripts and the statement are damaged, and each verdict is told in words. C99, but for
   the clock. */
#ifndef _POSIX_C_SOURCE
#define _POSIX_C_SOURCE 199309L
#endif

#include <inttypes.h>
#include <stdio.h>
#include <stdlib.h>
#include <string.h>
#include <time.h>

#include "labrador.h"
#include "labrador_texts.h"

#define Q LABRADOR_Q

/* n elements a vector, r vectors, kappa rows of A, L aggregated equations; LINES lines of stock a vector, of which the first STORED are in use */
enum { N = 4, R = 3, T = R * (R + 1) / 2, TOTALS = 4, KAPPA = 5, L = 5, KAPPA_1 = 4, KAPPA_2 = 4, PARTS = 4 };
enum { LINES = 64 * N, STORED = 200, TRANSCRIPTS = 8, MOST = 1 << 18 };

/* The statement as `labrador statement` reads it (docs/STATEMENT.md); the words below are written by hand from it. */
static const char *const statement[] = {
    "statement 1",
    "n 4", "r 3", "kappa 5", "kappa_1 4", "kappa_2 4", "log_q 32", "b 256", "t_1 4", "t_2 4", "L 5",
    "beta_sq 2079478", "beta_prime_sq 39666743", "bound_A 605242", "bound_B 23659721", "bound_C 4695543", "bound_D 9725963",
    "seed 6c61627261646f723a2074687265652073686564732c206f6e6520746f74616c",
    "total 9860 = s0",
    "total 9900 = s1",
    "total 9880 = s2",
    "total 38083 = 2 * s0[0..64] + 5 * s1[64..192] - s2[7]",
};
static const uint32_t parameters[12] = {N, R, KAPPA, KAPPA_1, KAPPA_2, 0, TOTALS, 32, 256, PARTS, PARTS, L};
static const uint32_t bounds[6] = {2079478, 39666743, 605242, 23659721, 4695543, 9725963};
static const uint8_t seed[33] = "labrador: three sheds, one total";
static const uint32_t totals[TOTALS] = {9860, 9900, 9880, 38083};

/* SHA-256 of the job's bytes, four a word, the least first, over 2^32 - 1 and over the prime: `labrador statement` makes the same job of the same statement. */
static const char *const job_digest = Q == UINT32_MAX ? "2af9329c82049925f4959be028bdc9d4c4b6dc5bc45084cb7b3373bc065a2386"
                                                      : "c7f9c5322564783ff2412dea10982e9136716a5f92f6e528f4f7a617383fce7a";

static uint32_t job[MOST], witness[MOST], scratch[TRANSCRIPTS * MOST], randomness[TRANSCRIPTS * MOST], transcripts[TRANSCRIPTS * MOST], joined[MOST];
static size_t job_length, randomness_length, witness_length, transcript_length, scratch_length, phi, b_0, ends[8];

static const uint32_t round_words[64] = {
    0x428a2f98, 0x71374491, 0xb5c0fbcf, 0xe9b5dba5, 0x3956c25b, 0x59f111f1, 0x923f82a4, 0xab1c5ed5, 0xd807aa98, 0x12835b01, 0x243185be,
    0x550c7dc3, 0x72be5d74, 0x80deb1fe, 0x9bdc06a7, 0xc19bf174, 0xe49b69c1, 0xefbe4786, 0x0fc19dc6, 0x240ca1cc, 0x2de92c6f, 0x4a7484aa,
    0x5cb0a9dc, 0x76f988da, 0x983e5152, 0xa831c66d, 0xb00327c8, 0xbf597fc7, 0xc6e00bf3, 0xd5a79147, 0x06ca6351, 0x14292967, 0x27b70a85,
    0x2e1b2138, 0x4d2c6dfc, 0x53380d13, 0x650a7354, 0x766a0abb, 0x81c2c92e, 0x92722c85, 0xa2bfe8a1, 0xa81a664b, 0xc24b8b70, 0xc76c51a3,
    0xd192e819, 0xd6990624, 0xf40e3585, 0x106aa070, 0x19a4c116, 0x1e376c08, 0x2748774c, 0x34b0bcb5, 0x391c0cb3, 0x4ed8aa4a, 0x5b9cca4f,
    0x682e6ff3, 0x748f82ee, 0x78a5636f, 0x84c87814, 0x8cc70208, 0x90befffa, 0xa4506ceb, 0xbef9a3f7, 0xc67178f2};

static uint32_t turned(uint32_t x, int by) { return x >> by | x << (32 - by); }

/* One block more of SHA-256. */
static void compress(uint32_t state[8], const uint8_t *block) {
    uint32_t w[64], v[8];
    for (int k = 0; k < 16; k++)
        w[k] = (uint32_t)block[4 * k] << 24 | (uint32_t)block[4 * k + 1] << 16 | (uint32_t)block[4 * k + 2] << 8 | block[4 * k + 3];
    for (int k = 16; k < 64; k++)
        w[k] = w[k - 16] + w[k - 7] + (turned(w[k - 15], 7) ^ turned(w[k - 15], 18) ^ w[k - 15] >> 3) +
               (turned(w[k - 2], 17) ^ turned(w[k - 2], 19) ^ w[k - 2] >> 10);
    memcpy(v, state, sizeof v);
    for (int k = 0; k < 64; k++) {
        uint32_t first = v[7] + (turned(v[4], 6) ^ turned(v[4], 11) ^ turned(v[4], 25)) + ((v[4] & v[5]) ^ (~v[4] & v[6])) + round_words[k] + w[k];
        uint32_t second = (turned(v[0], 2) ^ turned(v[0], 13) ^ turned(v[0], 22)) + ((v[0] & v[1]) ^ (v[0] & v[2]) ^ (v[1] & v[2]));
        memmove(v + 1, v, 7 * sizeof *v);
        v[4] += first;
        v[0] = first + second;
    }
    for (int k = 0; k < 8; k++) state[k] += v[k];
}

static void sha256(const uint8_t *message, size_t length, uint8_t digest[32]) {
    uint32_t state[8] = {0x6a09e667, 0xbb67ae85, 0x3c6ef372, 0xa54ff53a, 0x510e527f, 0x9b05688c, 0x1f83d9ab, 0x5be0cd19};
    uint8_t last[128] = {0};
    size_t whole = length / 64 * 64, end = length - whole < 56 ? 64 : 128;
    for (size_t at = 0; at < whole; at += 64) compress(state, message + at);
    memcpy(last, message + whole, length - whole);
    last[length - whole] = 0x80;
    for (int k = 0; k < 8; k++) last[end - 1 - k] = (uint8_t)((uint64_t)length * 8 >> 8 * k);
    for (size_t at = 0; at < end; at += 64) compress(state, last + at);
    for (int k = 0; k < 32; k++) digest[k] = (uint8_t)(state[k / 4] >> (24 - 8 * (k % 4)));
}

/* The words of SHA-256(seed, counter) for counter 0, 1, 2 and on. */
typedef struct {
    uint8_t message[40], digest[32];
    int at;
} stream;

static stream start(const uint8_t from[32]) {
    stream s = {{0}, {0}, 0};
    memcpy(s.message, from, 32);
    return s;
}

static uint32_t next(stream *s) {
    if (s->at == 0) {
        sha256(s->message, 40, s->digest);
        for (int k = 32; k < 40 && ++s->message[k] == 0; k++) continue;
    }
    const uint8_t *four = s->digest + 4 * s->at;
    s->at = (s->at + 1) % 8;
    return four[0] | (uint32_t)four[1] << 8 | (uint32_t)four[2] << 16 | (uint32_t)four[3] << 24;
}

static uint32_t below_q(stream *s) {
    uint32_t word;
    do word = next(s);
    while (word >= Q);
    return word;
}

/* Adds factor times the lines first to end of vector i to total x: line 64 m + c with factor f is f at coefficient 0 of element m for c = 0, and
   -f at coefficient 64 - c for the others, so that the constant coefficient of <phi',s> is the sum of f times the line. */
static void term(int x, int64_t factor, int i, int first, int end) {
    for (int line = first; line < end; line++) {
        int c = line % 64;
        uint32_t *word = job + phi + (size_t)x * R * LINES + (size_t)i * LINES + (line - c) + (c == 0 ? 0 : 64 - c);
        int64_t sum = ((int64_t)*word + (c == 0 ? factor : -factor)) % (int64_t)Q;
        *word = (uint32_t)(sum < 0 ? sum + (int64_t)Q : sum);
    }
}

/* The job: section one; a' zero, phi' and b0 of the totals; a, phi and b empty; A to D of the seed. */
static void write_job(void) {
    const size_t matrices[4] = {64 * KAPPA * N, 64 * KAPPA_1 * R * KAPPA * PARTS, 64 * KAPPA_1 * T * PARTS, 64 * KAPPA_2 * T * PARTS};
    stream drawn = start(seed);
    size_t at = 0;
    job[at++] = 30;
    for (int k = 0; k < 12; k++) job[at++] = parameters[k];
    for (int k = 0; k < 6; k++, at += 3) job[at] = bounds[k];
    job[at] = 64 * TOTALS * T;
    at += 1 + job[at];
    phi = at + 1;
    job[at] = TOTALS * R * LINES;
    at += 1 + job[at];
    b_0 = at + 1;
    job[at++] = TOTALS;
    for (int x = 0; x < TOTALS; x++) job[at++] = totals[x];
    at += 3;
    for (int k = 0; k < 4; k++) {
        job[at++] = (uint32_t)matrices[k];
        for (size_t w = 0; w < matrices[k]; w++) job[at++] = below_q(&drawn);
    }
    for (int i = 0; i < R; i++) term(i, 1, i, 0, LINES);
    term(3, 2, 0, 0, 64);
    term(3, 5, 1, 64, 192);
    term(3, -1, 2, 7, 8);
    job_length = at;
}

/* The stock in grams. Line j of shed i is coefficient j % 64 of element j / 64 of its vector. */
static void write_witness(void) {
    witness_length = 1 + R * LINES;
    witness[0] = R * LINES;
    for (int i = 0; i < R; i++)
        for (int j = 0; j < STORED; j++) witness[1 + i * LINES + j] = 20 + (37 * j + 11 * i) % 60;
}

/* Randomness of a transcript from a seed of its own, so that each run tells the same; a desk draws it after each message from its system's
   generator. */
static void draw(int session) {
    const uint32_t counts[7] = {16384 * N * R, L * TOTALS, L * 256, 0, 64 * L, 41 * R, 63 * R};
    uint8_t from[32];
    memset(from, session + 1, sizeof from);
    stream drawn = start(from);
    randomness_length = 7;
    for (int k = 0; k < 7; k++) randomness_length += counts[k];
    uint32_t *words = randomness + session * randomness_length;
    size_t at = 0;
    for (int k = 0; k < 7; k++) {
        ends[k] = at;
        words[at++] = counts[k];
        for (uint32_t w = 0; w < counts[k]; w++) words[at++] = k == 5 ? next(&drawn) & 1 : k == 6 ? next(&drawn) : below_q(&drawn);
    }
    ends[7] = at;
}

static void tell_statement(void) {
    uint8_t *bytes = malloc(4 * job_length), digest[32];
    char hex[65];
    if (bytes == NULL) exit(EXIT_FAILURE);
    for (size_t k = 0; k < 4 * job_length; k++) bytes[k] = (uint8_t)(job[k / 4] >> 8 * (k % 4));
    sha256(bytes, 4 * job_length, digest);
    free(bytes);
    for (int k = 0; k < 32; k++) snprintf(hex + 2 * k, 3, "%02x", digest[k]);
    printf("three sheds of %d lines state to a lender, in grams, modulo %" PRIu32 ":\n", LINES, Q);
    for (size_t k = 0; k < sizeof statement / sizeof *statement; k++)
        if (strncmp(statement[k], "total", 5) == 0) printf("  %s\n", statement[k]);
    printf("job %zu words, SHA-256 %.16s…; the matrices A to D are those of the seed\n", job_length, hex);
    if (strcmp(hex, job_digest) != 0) {
        printf("the job is NOT that of the statement: its SHA-256 is %s\n", hex);
        exit(EXIT_FAILURE);
    }
}

static double milliseconds(void) {
    struct timespec t;
    clock_gettime(CLOCK_MONOTONIC, &t);
    return 1e3 * (double)t.tv_sec + 1e-6 * (double)t.tv_nsec;
}

/* hi * 2^64 + lo in decimal: the four words are divided by ten, the greatest first, until nothing is left. */
static void print_number(uint64_t hi, uint64_t lo) {
    uint32_t words[4] = {(uint32_t)(hi >> 32), (uint32_t)hi, (uint32_t)(lo >> 32), (uint32_t)lo};
    char digits[40];
    int at = 39;
    digits[at] = 0;
    do {
        uint64_t left = 0;
        for (int k = 0; k < 4; k++) {
            left = left << 32 | words[k];
            words[k] = (uint32_t)(left / 10);
            left %= 10;
        }
        digits[--at] = (char)('0' + (int)left);
    } while ((words[0] | words[1] | words[2] | words[3]) != 0);
    printf("%s", digits + at);
}

static void tell(const char *what, const labrador_verdict *v) {
    printf("%-42s", what);
    if (v->number == LABRADOR_OK)
        printf("accepted, %" PRIu64 " cells with something left", v->cells_left);
    else if (v->number < LABRADOR_CHECK_PROJECTION_NORM)
        printf("refused with %" PRIu32 " at %" PRIu64 ": %s", v->number, v->place, labrador_text(v->number));
    else
        printf("%" PRIu32 ": %s", v->number, labrador_text(v->number));
    if (v->number == LABRADOR_CHECK_PROJECTION_NORM || v->number == LABRADOR_CHECK_NORM_SUM) {
        printf(" (");
        print_number(v->first_hi, v->first_lo);
        printf(", limit ");
        print_number(v->second_hi, v->second_lo);
        printf(")");
    }
    if (v->number == LABRADOR_CHECK_CONSTANT_TERM)
        printf(" (row %" PRIu32 ": sent %" PRIu64 ", worked out %" PRIu64 ")", v->index, v->first_lo, v->second_lo);
}

/* Verifies the first transcript, and tells the verdict in words. */
static void judge(const char *what) {
    double begin = milliseconds();
    labrador_verdict v = labrador_verify(job, job_length, randomness, randomness_length, transcripts, transcript_length, scratch, scratch_length);
    double end = milliseconds();
    tell(what, &v);
    printf(" (%.2f ms)\n", end - begin);
}

/* Judges all transcripts in one call, and tells how many are accepted; ends the program where it is another number. */
static void judge_all(const char *what, int expected) {
    double begin = milliseconds();
    labrador_verdicts all = labrador_verify_many(job, job_length, TRANSCRIPTS, randomness, TRANSCRIPTS * randomness_length, transcripts,
                                                 TRANSCRIPTS * transcript_length, scratch, TRANSCRIPTS * scratch_length);
    double end = milliseconds();
    int accepted = 0, other = -1;
    for (int k = TRANSCRIPTS - 1; k >= 0; k--) {
        accepted += all.number == 0 && all.verdicts[k].number == 0;
        if (all.verdicts[k].number != 0) other = k;
    }
    printf("%-42s%d of %d transcripts accepted (%.2f ms)\n", what, accepted, TRANSCRIPTS, end - begin);
    if (other >= 0) {
        char name[64];
        snprintf(name, sizeof name, "  the first of the others, transcript %d:", other);
        tell(name, &all.verdicts[other]);
        printf("\n");
    }
    if (accepted != expected) exit(EXIT_FAILURE);
}

/* Judges with one word of the job or the transcript one higher, and sets it back. */
static void damage(uint32_t *words, size_t place, const char *what) {
    uint32_t was = words[place];
    words[place] = was == Q - 1 ? 0 : was + 1;
    judge(what);
    words[place] = was;
}

/* Judges with a limit of three words set to a small number, and sets it back. */
static void lower(size_t place, uint32_t to, const char *what) {
    uint32_t was[3];
    memcpy(was, job + place, sizeof was);
    job[place] = to;
    job[place + 1] = job[place + 2] = 0;
    judge(what);
    memcpy(job + place, was, sizeof was);
}

static void prove_all(void) {
    double begin = milliseconds();
    for (int k = 0; k < TRANSCRIPTS; k++) {
        labrador_answer answer = labrador_prove(job, job_length, randomness + k * randomness_length, randomness_length, witness, witness_length,
                                                scratch, scratch_length, transcripts + k * transcript_length, transcript_length);
        if (answer.number != 0) {
            printf("transcript %d: the prover refuses with %" PRIu32 " at %" PRIu64 ": %s\n", k, answer.number, answer.place,
                   labrador_text(answer.number));
            exit(EXIT_FAILURE);
        }
    }
    printf("%d transcripts are proved, each with randomness of its own (%.2f ms)\n", TRANSCRIPTS, milliseconds() - begin);
}

static void prove_in_rounds(void) {
    labrador_answer (*const rounds[5])(const uint32_t *, size_t, const uint32_t *, size_t, const uint32_t *, size_t, uint32_t *,
                                       size_t, uint32_t *, size_t) = {labrador_round_1, labrador_round_2, labrador_round_3,
                                                                      labrador_round_4, labrador_round_5};
    const char *const made[5] = {"u1", "p", "b''", "u2", "z, t, g, h"};
    const size_t handed[5] = {0, 1, 3, 5, 7};
    const size_t words[5] = {1 + 64 * KAPPA_1, 257, 1 + 64 * L, 1 + 64 * KAPPA_2, 4 + 64 * (N + R * KAPPA + 2 * T)};
    size_t place = 0;
    printf("the first again, round after round, as a store and a desk work it:\n");
    for (int k = 0; k < 5; k++) {
        double begin = milliseconds();
        labrador_answer answer = rounds[k](job, job_length, randomness, ends[handed[k]], witness, witness_length, scratch,
                                           scratch_length, joined + place, words[k]);
        printf("  round %d: %-10s %5zu words, answer %" PRIu32 " (%.2f ms)\n", k + 1, made[k], words[k], answer.number,
               milliseconds() - begin);
        place += words[k];
    }
    int same = place == transcript_length && memcmp(joined, transcripts, 4 * place) == 0;
    printf("  the rounds joined %s the whole transcript\n", same ? "are" : "ARE NOT");
    if (!same) exit(EXIT_FAILURE);
}

/* The first transcript and the statement, damaged in each section. */
static void damage_each(void) {
    const size_t p_at = 1 + 64 * KAPPA_1 + 1, b_at = p_at + 256 + 1, u2_at = b_at + 64 * L + 1, z_at = u2_at + 64 * KAPPA_2 + 1,
                 t_at = z_at + 64 * N + 1, g_at = t_at + 64 * R * KAPPA + 1, h_at = g_at + 64 * T + 1;
    damage(transcripts, 1, "a word of u1 changed:");
    damage(transcripts, p_at, "a word of p changed:");
    damage(transcripts, b_at + 64, "the constant term of b''_1 changed:");
    damage(transcripts, b_at + 1, "another word of b''_0 changed:");
    damage(transcripts, u2_at, "a word of u2 changed:");
    damage(transcripts, z_at, "a word of z changed:");
    damage(transcripts, t_at, "a word of t changed:");
    damage(transcripts, g_at, "a word of g changed:");
    damage(transcripts, h_at, "a word of h changed:");
    damage(transcripts, 0, "a count changed:");
    damage(job, b_0 + 1, "the second total a gram higher:");
    lower(13, 1, "beta_sq lowered to 1:");
    lower(16, 1, "beta_prime_sq lowered to 1:");
    lower(28, 1, "D's norm bound lowered to 1:");
}

int main(void) {
    if (labrador_zq_neg(1).value != Q - 1) {
        printf("the header and the archive are of two moduli\n");
        return EXIT_FAILURE;
    }
    write_job();
    write_witness();
    for (int k = 0; k < TRANSCRIPTS; k++) draw(k);
    scratch_length = labrador_scratch_need(job, job_length).words;
    transcript_length = labrador_output_need(job, job_length).words;
    tell_statement();
    printf("witness %zu words; of each transcript: randomness %zu words, transcript %zu\n", witness_length, randomness_length, transcript_length);
    prove_all();
    prove_in_rounds();
    judge("the transcript as it was made:");
    damage_each();
    judge_all("the eight transcripts as they were made:", TRANSCRIPTS);
    transcripts[5 * transcript_length + 1] ^= 1;
    judge_all("a word of one of them changed:", TRANSCRIPTS - 1);
    transcripts[5 * transcript_length + 1] ^= 1;
    job[b_0 + 1]++;
    judge_all("the second total a gram higher:", 0);
    job[b_0 + 1]--;
    printf("docs/SOUNDNESS.md says what one acceptance is worth and what eight are, docs/STATEMENT.md how a store writes its totals\n");
    return EXIT_SUCCESS;
}

/* Wrong libraries, one for each number in WRONG, that the calls under guard pages must find out. Linked before the calls that they wrap by
   `-Wl,--wrap`. */
#include <stdint.h>
#include <stdlib.h>
#include <string.h>

#include "fuzz.h"

LABRADOR_PROVER(__real_labrador_prove);
LABRADOR_PROVER(__wrap_labrador_prove);

typedef labrador_verdict verifier(const uint32_t *, size_t, const uint32_t *, size_t, const uint32_t *, size_t, uint32_t *, size_t);
verifier __real_labrador_verify, __wrap_labrador_verify;

/* which one, once the first call is in hand */
static int wrong(void) { return in_hand ? atoi(getenv("WRONG")) : 0; }

static volatile uint32_t seen;

LABRADOR_PROVER(__wrap_labrador_prove) {
    if (wrong() == 1) seen = job[job_length];
    if (wrong() == 2) seen = *(randomness - 1);
    if (wrong() == 3 && witness_length > 0) *(volatile uint32_t *)(uintptr_t)witness = *witness;
    labrador_answer a =
        __real_labrador_prove(job, job_length, randomness, randomness_length, witness, witness_length, scratch, scratch_length, output, output_length);
    size_t need = labrador_scratch_need(job, job_length).words;
    if (wrong() == 4 && a.number == 0 && need < scratch_length) scratch[need] ^= 1;
    if (wrong() == 5 && a.number == 0) scratch[need - 1] = 1;
    if (wrong() == 6 && a.number == 1 && output_length > 0) output[output_length - 1] ^= 1;
    if (wrong() == 7 && a.number == 0) output[0] = (uint32_t)(uintptr_t)job;
    if (wrong() == 8 && a.number == 13) output[output_length - 1] = 1;
    if (wrong() == 9 && a.number == 0) *(output - 1) ^= 1;
    return a;
}

labrador_verdict __wrap_labrador_verify(const uint32_t *job, size_t job_length, const uint32_t *randomness, size_t randomness_length,
                                        const uint32_t *transcript, size_t transcript_length, uint32_t *scratch, size_t scratch_length) {
    uint32_t before = scratch_length > 0 ? *scratch : 0;
    labrador_verdict v =
        __real_labrador_verify(job, job_length, randomness, randomness_length, transcript, transcript_length, scratch, scratch_length);
    /* the call on many transcripts is held to this one */
    int which = in_hand && strcmp(in_hand->name, "labrador_verify") != 0 ? 0 : wrong();
    if (which == 10 && v.number == 21) v.number = 13;
    if (which == 11 && v.number == 10) v.place++;
    if (which == 12 && v.number == 0) v.first_lo = 1;
    if (which == 13 && v.number == 28 && before % 2 == 0) v.number = 0;
    if (which == 14 && v.number == 23) v.second_lo = v.first_lo, v.second_hi = v.first_hi;
    if (which == 15 && v.number == 9) v.place = transcript_length + 1;
    if (which == 16 && v.number == 28) v.cells_left = 1;
    return v;
}

typedef labrador_answer run_projection(const uint32_t *, size_t, uint32_t, uint32_t, const uint32_t *, size_t, const uint32_t *, size_t, uint32_t *,
                                       size_t, uint32_t *, size_t);
typedef labrador_answer run_rows(const uint32_t *, size_t, uint32_t, uint32_t, const uint32_t *, size_t, uint32_t *, size_t, uint32_t *, size_t);
typedef labrador_answer adding(const uint32_t *, size_t, const uint32_t *, size_t, uint32_t *, size_t);
run_projection __real_labrador_shed_projection, __wrap_labrador_shed_projection;
run_rows __real_labrador_shed_rows, __wrap_labrador_shed_rows;
adding __real_labrador_add_projections, __wrap_labrador_add_projections;

labrador_answer __wrap_labrador_shed_projection(const uint32_t *job, size_t job_length, uint32_t first, uint32_t end, const uint32_t *projection,
                                                size_t projection_length, const uint32_t *vectors, size_t vectors_length, uint32_t *scratch,
                                                size_t scratch_length, uint32_t *output, size_t output_length) {
    labrador_answer a = __real_labrador_shed_projection(job, job_length, first, end, projection, projection_length, vectors, vectors_length, scratch,
                                                        scratch_length, output, output_length);
    if (wrong() == 17 && a.number == 34) a.place = end;
    return a;
}

labrador_answer __wrap_labrador_shed_rows(const uint32_t *job, size_t job_length, uint32_t first, uint32_t end, const uint32_t *vectors,
                                          size_t vectors_length, uint32_t *scratch, size_t scratch_length, uint32_t *output, size_t output_length) {
    labrador_answer a =
        __real_labrador_shed_rows(job, job_length, first, end, vectors, vectors_length, scratch, scratch_length, output, output_length);
    if (wrong() == 18 && a.number == 13) output[0] = 64 * job[3] * (end - first);
    if (wrong() == 19 && a.number == 13) a.place -= first;
    return a;
}

labrador_answer __wrap_labrador_add_projections(const uint32_t *p, size_t p_length, const uint32_t *other, size_t other_length, uint32_t *output,
                                                size_t output_length) {
    labrador_answer a = __real_labrador_add_projections(p, p_length, other, other_length, output, output_length);
    if (wrong() == 20 && a.number == 0 && p[256] > other[256]) output[256] = p[256] + other[256];
    if (wrong() == 21 && a.number == 9 && p_length == 257) a.place += 257;
    return a;
}

typedef labrador_verdicts many(const uint32_t *, size_t, uint32_t, const uint32_t *, size_t, const uint32_t *, size_t, uint32_t *, size_t);
many __real_labrador_verify_many, __wrap_labrador_verify_many;

labrador_verdicts __wrap_labrador_verify_many(const uint32_t *job, size_t job_length, uint32_t count, const uint32_t *randomness,
                                              size_t randomness_length, const uint32_t *transcripts, size_t transcripts_length, uint32_t *scratch,
                                              size_t scratch_length) {
    labrador_verdicts a = __real_labrador_verify_many(job, job_length, count, randomness, randomness_length, transcripts, transcripts_length, scratch,
                                                      scratch_length);
    if (a.number != 0) return a;
    if (wrong() == 22) a.verdicts[7] = a.verdicts[0];
    if (wrong() == 23 && count > 1 && a.verdicts[0].number == 9) a.verdicts[1] = a.verdicts[0];
    if (wrong() == 24 && a.verdicts[0].number == 7 && a.verdicts[count - 1].number == 7) scratch[0] = 1;
    return a;
}

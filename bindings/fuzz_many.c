/* Operands of labrador_verify_many, and what its answer may be. */
#include <string.h>

#include "fuzz.h"

uint32_t many_count;

/* the lengths of one randomness and one transcript of the load in hand */
static size_t lengths[2];
static uint32_t words[2][MOST];

/* A word of some transcript's part, a count or another one, becomes another word. */
static void change_part(int k) {
    size_t starts[SECTIONS + 1], part = below(many_count);
    uint32_t *own = words[k] + part * lengths[k];
    size_t count = sections(own, lengths[k], starts), section = below((uint32_t)count - 1);
    size_t at = starts[section], end = starts[section + 1];
    if (!one_in(4) && at + 1 < end) at += 1 + (one_in(2) ? 0 : below((uint32_t)(end - at - 1)));
    own[at] = one_in(4) ? Q : (own[at] + 1) % Q;
}

void draw_many(void) {
    const load *from = draw_load();
    const int which[2] = {RANDOMNESS, TRANSCRIPT};
    for (int k = 0; k < 2; k++) lengths[k] = from->lengths[which[k]];
    uint32_t most = (uint32_t)(MOST / lengths[0]);
    many_count = 1 + below(most < 8 ? most : 8);
    for (int k = 0; k < 2; k++) {
        for (size_t m = 0; m < many_count; m++) memcpy(words[k] + m * lengths[k], from->words[which[k]], lengths[k] * sizeof(uint32_t));
    }
    for (uint32_t k = below(4); k > 0; k--) change_part(one_in(3) ? 0 : 1);
    hand_input(JOB, from->words[JOB], one_in(8) ? below(64) : from->lengths[JOB]);
    if (one_in(4)) fault(JOB);
    /* an L below its least */
    if (one_in(32) && slices[JOB].length > PARAMETERS) stage(JOB)[PARAMETERS] = 1 + below(3);
    size_t scratch = many_count * scratch_need(&from->sizes);
    for (int k = 0; k < 2; k++) {
        size_t bounds[3] = {lengths[k], (many_count - 1) * lengths[k], many_count * lengths[k]};
        hand_input(which[k], words[k], bounds[2]);
        if (one_in(6)) cut_or_extend(which[k], bounds, 3);
    }
    if (one_in(8)) many_count = one_in(2) ? below(12) : Q - below(2);
    lend_buffer(SCRATCH, about(scratch));
}

/* Part m of a slice: each but the last has its length, or what is left. */
static const uint32_t *part_of(int s, size_t length, size_t m, size_t *count) {
    size_t all = slices[s].length, begin = m * length < all ? m * length : all;
    *count = m + 1 == many_count || begin + length > all ? all - begin : length;
    return slices[s].words + begin;
}

/* The single call's verdict on part m. */
static int is_single(const uint64_t *v, size_t m) {
    static uint32_t scratch[MOST];
    labrador_parameters p = parameters_in_hand();
    size_t drawn, sent;
    size_t r = p.r, T = r * (r + 1) / 2;
    size_t randomness_length = 7 + 16384 * (size_t)p.n * r + p.L * (size_t)p.l + 256 * (size_t)p.L + 64 * ((size_t)p.K + p.L) + 104 * r;
    size_t transcript_length = 264 + 64 * ((size_t)p.kappa_1 + p.L + p.kappa_2 + p.n + r * p.kappa + 2 * T);
    const uint32_t *randomness = part_of(RANDOMNESS, randomness_length, m, &drawn);
    const uint32_t *transcript = part_of(TRANSCRIPT, transcript_length, m, &sent);
    labrador_verdict w = labrador_verify(slices[JOB].words, slices[JOB].length, randomness, drawn, transcript, sent, scratch, MOST);
    return v[0] == w.number && v[1] == w.place && v[2] == w.index && v[3] == w.first_hi && v[4] == w.first_lo && v[5] == w.second_hi &&
           v[6] == w.second_lo && v[7] == w.cells_left;
}

static int is_unused(const uint64_t *v) {
    return v[0] == LABRADOR_UNUSED && v[1] == 0 && v[2] == 0 && v[3] == 0 && v[4] == 0 && v[5] == 0 && v[6] == 0 && v[7] == 0;
}

/* Refusals of the whole call, and nothing beside them. */
static const char *judge_whole(const answer *a) {
    labrador_parameters p = parameters_in_hand();
    answer other = *a;
    if (a->number == 35) {
        if (a->place != 0 || (many_count >= 1 && many_count <= 8)) return "35 for a number from 1 to 8";
        other.number = 0;
    }
    if (a->number == 1) {
        if (a->place != many_count * scratch_need(&p) || slices[SCRATCH].length >= a->place) return "not the length of scratch needed";
        other.number = 0;
        other.place = 0;
    }
    return judge_refusal(&other);
}

const char *judge_many(const answer *a) {
    labrador_parameters p = parameters_in_hand();
    slices[SCRATCH].touched = a->number == 0 ? many_count * scratch_need(&p) : 0;
    slices[SCRATCH].zeroed = 1;
    if (a->number != 0) return judge_whole(a);
    if (many_count < 1 || many_count > 8) return "a number of transcripts outside 1 to 8 is taken";
    for (size_t m = 0; m < 8; m++) {
        const uint64_t *v = a->values + 8 * m;
        if (m < many_count && !is_single(v, m)) return "not the single call's verdict";
        if (m >= many_count && !is_unused(v)) return "a verdict past the number is not unused";
    }
    return NULL;
}

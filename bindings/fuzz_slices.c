/* Operands of the prover, its rounds, the verifier and the needs, and what their answers may be. */
#include <string.h>

#include "fuzz.h"

/* the prover's round in hand, 0 for the whole call, and how many sections of randomness each takes */
static int round_in_hand;
static const size_t sections_handed[6] = {7, 0, 1, 3, 5, 7};

/* Section one's parameters of the job in hand, zeros where it is too short. */
labrador_parameters parameters_in_hand(void) {
    labrador_parameters p;
    memset(&p, 0, sizeof p);
    if (slices[JOB].length * sizeof(uint32_t) > sizeof p) memcpy(&p, slices[JOB].words + 1, sizeof p);
    return p;
}

/* The least L: 128 divided by log_q, rounded up. */
static size_t least_equations(const labrador_parameters *p) { return p->log_q ? (127 + (size_t)p->log_q) / p->log_q : 0; }

size_t scratch_need(const labrador_parameters *p) {
    size_t n = p->n, r = p->r, T = r * (r + 1) / 2;
    return 64 * (((size_t)p->L + 2) * (r * n + T) + r * p->kappa + n + 64);
}

/* The words that the whole call or a round makes, counts included. */
static size_t output_need(const labrador_parameters *p, int round) {
    size_t r = p->r, T = r * (r + 1) / 2;
    const size_t made[6] = {0,
                            1 + 64 * (size_t)p->kappa_1,
                            257,
                            1 + 64 * (size_t)p->L,
                            1 + 64 * (size_t)p->kappa_2,
                            4 + 64 * (p->n + r * p->kappa + 2 * T)};
    return round ? made[round] : made[1] + made[2] + made[3] + made[4] + made[5];
}

/* A length about a need, mostly enough. */
size_t about(size_t need) {
    switch (below(12)) {
    case 0:
        return need - (need > 0);
    case 1:
        return below((uint32_t)(need % MOST) + 1);
    case 2:
        return need + 1 + below(64);
    case 3:
        return one_in(4) ? 0 : need + 1;
    default:
        return need;
    }
}

/* The first few words of a load's slice, some of them changed. */
static void draw_small(const load *from, int s) {
    static uint32_t words[INPUTS][64];
    size_t length = one_in(3) ? 0 : below(64);
    for (size_t k = 0; k < length; k++) words[s][k] = one_in(12) ? draw_word() : from->words[s][k];
    hand_input(s, words[s], length);
}

/* The slice of a load, of randomness as far as the round takes it. */
static void hand_whole(const load *from, int s) {
    size_t starts[SECTIONS + 1];
    hand_input(s, from->words[s], from->lengths[s]);
    sections(slices[s].words, slices[s].length, starts);
    if (s == RANDOMNESS) slices[s].length = starts[sections_handed[round_in_hand]];
}

/* A job and further inputs: half of the time small, which costs little; else of a load, now and then one of another load, whole or with up to
   three faults. */
static void draw_inputs(const int *which, size_t count) {
    const load *from = draw_load();
    int small = one_in(2);
    for (size_t k = 0; k < count; k++)
        if (small && !one_in(64))
            draw_small(from, which[k]);
        else
            hand_whole(one_in(32) ? draw_load() : from, which[k]);
    if (small || one_in(4)) return;
    for (uint32_t k = one_in(3) ? 1 + below(3) : 1; k > 0; k--) fault(which[one_in(2) ? 0 : below((uint32_t)count)]);
}

void draw_job(void) {
    const int which[] = {JOB};
    draw_inputs(which, 1);
}

static void draw_prover(int round) {
    const int which[] = {JOB, RANDOMNESS, WITNESS};
    round_in_hand = round;
    draw_inputs(which, 3);
    labrador_parameters p = parameters_in_hand();
    lend_buffer(SCRATCH, about(slices[JOB].length < 64 ? 100 : scratch_need(&p)));
    lend_buffer(OUTPUT, about(slices[JOB].length < 64 ? 100 : output_need(&p, round)));
}

void draw_prove(void) { draw_prover(0); }
void draw_round_1(void) { draw_prover(1); }
void draw_round_2(void) { draw_prover(2); }
void draw_round_3(void) { draw_prover(3); }
void draw_round_4(void) { draw_prover(4); }
void draw_round_5(void) { draw_prover(5); }

void draw_verify(void) {
    const int which[] = {JOB, RANDOMNESS, TRANSCRIPT};
    round_in_hand = 0;
    draw_inputs(which, 3);
    labrador_parameters p = parameters_in_hand();
    lend_buffer(SCRATCH, about(slices[JOB].length < 64 ? 100 : scratch_need(&p)));
}

/* The list is lent as the output. */
void draw_mistyped(void) {
    draw_verify();
    labrador_parameters p = parameters_in_hand();
    lend_buffer(OUTPUT, about(slices[JOB].length < 64 ? 100 : 2 * (size_t)p.l));
}

/* The word at a place of a slice is above `most`. */
int above(int s, uint64_t place, uint32_t most) { return place < slices[s].length && slices[s].words[place] > most; }

static int place_is_right(const labrador_parameters *p, const answer *a) {
    switch (a->number) {
    case 1:
        return a->place == scratch_need(p) && slices[SCRATCH].length < a->place;
    case 2:
        return a->place == output_need(p, round_in_hand) && slices[OUTPUT].length < a->place;
    case 3:
        return a->place <= slices[JOB].length;
    case 4:
        return a->place >= 1 && a->place <= PARAMETERS;
    case 5:
        return a->place == PARAMETERS && p->L < least_equations(p);
    case 6:
        return a->place > PARAMETERS + 18 && above(JOB, a->place, Q - 1);
    case 7:
        return a->place <= slices[RANDOMNESS].length;
    case 8:
        return above(RANDOMNESS, a->place, 1);
    case 9:
        return a->place <= slices[TRANSCRIPT].length;
    case 10:
        return above(TRANSCRIPT, a->place, Q - 1);
    case 11:
        return a->place <= slices[WITNESS].length;
    case 12:
        return above(WITNESS, a->place, Q - 1);
    case 13:
        return a->place < p->r;
    default:
        return a->place == 0;
    }
}

static int all_zero(const uint64_t *values, size_t count) {
    for (size_t k = 0; k < count; k++)
        if (values[k] != 0) return 0;
    return 1;
}

/* A refusal's place, and nothing beside it; of a job with these parameters. */
const char *judge_refusal_of(const labrador_parameters *p, const answer *a) {
    if (!place_is_right(p, a)) return "a place that its number does not have";
    return all_zero(a->values, a->count) ? NULL : "a field without a meaning is not zero";
}

const char *judge_refusal(const answer *a) {
    labrador_parameters p = parameters_in_hand();
    return judge_refusal_of(&p, a);
}

static const char *judge_need(const answer *a, size_t need) {
    if (a->number != 0) return judge_refusal(a);
    return a->place == 0 && a->values[0] == need ? NULL : "not the length needed";
}

const char *judge_scratch_need(const answer *a) {
    labrador_parameters p = parameters_in_hand();
    return judge_need(a, scratch_need(&p));
}

const char *judge_output_need(const answer *a) {
    labrador_parameters p = parameters_in_hand();
    return judge_need(a, output_need(&p, 0));
}

/* After the work the scratch is zero as far as it is needed. */
static void scratch_is_cleared(const answer *a) {
    labrador_parameters p = parameters_in_hand();
    slices[SCRATCH].touched = a->number >= 1 && a->number <= 12 ? 0 : scratch_need(&p);
    slices[SCRATCH].zeroed = 1;
}

const char *judge_made(const answer *a) {
    labrador_parameters p = parameters_in_hand();
    scratch_is_cleared(a);
    slices[OUTPUT].touched = a->number >= 1 && a->number <= 12 ? 0 : output_need(&p, round_in_hand);
    slices[OUTPUT].zeroed = a->number != 0;
    return judge_refusal(a);
}

/* index, first_hi, first_lo, second_hi, second_lo, cells_left */
const char *judge_verdict(const answer *a) {
    const uint64_t *v = a->values;
    labrador_parameters p = parameters_in_hand();
    scratch_is_cleared(a);
    if (a->number == 0) {
        uint64_t cells = (uint64_t)p.r * p.kappa + (uint64_t)p.r * (p.r + 1);
        return a->place == 0 && all_zero(v, 5) && v[5] <= cells ? NULL : "an acceptance with more than its number";
    }
    if (v[5] != 0) return "a number of cells beside another verdict";
    if (a->number == 22) {
        int fit = v[0] < p.L && v[1] == 0 && v[2] < Q && v[3] == 0 && v[4] < Q && v[2] != v[4];
        return a->place == 0 && fit ? NULL : "22 without its row and two numbers";
    }
    if (a->number == 21 || a->number == 23) {
        int more = v[1] > v[3] || (v[1] == v[3] && v[2] > v[4]);
        return a->place == 0 && v[0] == 0 && more ? NULL : "a norm that is not above its limit";
    }
    return judge_refusal(a);
}

/* entries; the list is zero where the work ends without one */
const char *judge_mistyped(const answer *a) {
    labrador_parameters p = parameters_in_hand();
    size_t need = 2 * (size_t)p.l;
    scratch_is_cleared(a);
    slices[OUTPUT].touched = a->number >= 1 && a->number <= 12 ? 0 : need;
    slices[OUTPUT].zeroed = a->number != 0;
    if (a->number == 0) return a->place == 0 && a->values[0] >= 1 && a->values[0] <= p.l ? NULL : "not a number of entries";
    if (a->number == 2) return a->place == need && slices[OUTPUT].length < need && a->values[0] == 0 ? NULL : "not the list's length";
    return judge_refusal(a);
}

/* Operands of labrador_load and labrador_load_needs, and what their answers may be. */
#include <string.h>

#include "fuzz.h"

labrador_parameters load_parameters;
uint32_t load_seed;

/* job, witness and randomness of the parameters in hand, counts included */
typedef struct {
    size_t words[3];
} lengths;

static lengths lengths_needed(void) {
    const labrador_parameters *p = &load_parameters;
    size_t n = p->n, r = p->r, T = r * (r + 1) / 2, L = p->L, constraints = (size_t)p->K + p->l;
    size_t matrices = p->kappa * n + p->kappa_1 * (r * p->kappa * p->t_1 + T * p->t_2) + p->kappa_2 * T * p->t_1;
    lengths need;
    need.words[0] = 11 + PARAMETERS + 18 + 64 * (constraints * (T + r * n) + p->K + matrices) + p->l;
    need.words[1] = 1 + 64 * r * n;
    need.words[2] = 7 + 16384 * n * r + L * p->l + L * 256 + 64 * (p->K + L) + 41 * r + 63 * r;
    return need;
}

/* The parameters of a load, half of the time with one or two changed. */
void draw_load_parameters(void) {
    uint32_t words[PARAMETERS];
    load_seed = draw_word();
    load_parameters = draw_load()->sizes;
    memcpy(words, &load_parameters, sizeof words);
    for (uint32_t k = one_in(2) ? 0 : 1 + below(2); k > 0; k--) words[below(PARAMETERS)] = draw_limit();
    memcpy(&load_parameters, words, sizeof words);
}

/* Buffers that are mostly too short, which costs little, and else mostly as long as needed. */
void draw_load_buffers(void) {
    draw_load_parameters();
    lengths need = lengths_needed();
    int small = !one_in(8);
    for (int k = 0; k < 3; k++) lend_buffer(MADE_JOB + k, small && (k == 0 || one_in(2)) ? below(128) : about(need.words[k]));
}

const char *judge_load_needs(const answer *a) {
    lengths need = lengths_needed();
    if (a->number != 0) return judge_refusal_of(&load_parameters, a);
    for (int k = 0; k < 3; k++)
        if (a->values[k] != need.words[k]) return "not the lengths needed";
    return a->place == 0 ? NULL : "a place where nothing is refused";
}

const char *judge_load(const answer *a) {
    lengths need = lengths_needed();
    if (a->number == 4 || a->number == 5) return judge_refusal_of(&load_parameters, a);
    for (int k = 0; k < 3; k++)
        if (slices[MADE_JOB + k].length < need.words[k])
            return a->number == 2 && a->place == need.words[k] ? NULL : "not the first buffer that is too short";
    for (int k = 0; k < 3; k++) slices[MADE_JOB + k].touched = need.words[k];
    if (a->number != 0 || a->place != 0) return "refused without a reason";
    return labrador_scratch_need(slices[MADE_JOB].at, need.words[0]).number == 0 ? NULL : "the job that is made is refused";
}

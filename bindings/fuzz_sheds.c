/* Operands of the calls on a run of witness vectors and of the call that adds two p, and what their answers may be. */
#include <string.h>

#include "fuzz.h"

uint32_t run_first, run_end;

/* A run's part of a section of a load, with its count. */
static void hand_run(int s, const uint32_t *section, size_t each) {
    static uint32_t parts[2][MOST];
    uint32_t *part = parts[s == VECTORS];
    size_t count = each * (run_end - run_first);
    part[0] = (uint32_t)count;
    memcpy(part + 1, section + 1 + each * run_first, count * sizeof(uint32_t));
    hand_input(s, part, 1 + count);
}

/* Mostly a run of the load's vectors, now and then another one than its slices are of. */
static void draw_indexes(uint32_t r) {
    const uint32_t edges[] = {0, 1, r - 1, r, r + 1, 16, 17, Q - 1, Q, run_first, run_end};
    if (!one_in(4)) return;
    if (!one_in(3)) run_first = edges[below(11)];
    if (!one_in(3)) run_end = edges[below(11)];
}

static size_t run_output_need(const labrador_parameters *p) {
    return slices[PROJECTION].used ? 257 : 1 + 64 * (size_t)p->kappa * (run_end - run_first);
}

/* A's bound about the norms of the vectors. */
static void lower_bound_of_A(void) {
    uint32_t *bound = stage(JOB) + 1 + PARAMETERS + 6;
    bound[0] = below(64);
    bound[1] = bound[2] = 0;
}

/* The one of two loads with more vectors, or any. */
static const load *draw_several(void) {
    const load *one = draw_load(), *other = draw_load();
    return other->sizes.r > one->sizes.r ? other : one;
}

static void draw_run(int takes_projection) {
    const load *from = draw_several();
    const int which[] = {JOB, VECTORS, PROJECTION};
    run_first = below(from->sizes.r);
    run_end = run_first + 1 + below(from->sizes.r - run_first);
    hand_input(JOB, from->words[JOB], one_in(8) ? below(64) : from->lengths[JOB]);
    hand_run(VECTORS, from->words[WITNESS], 64 * (size_t)from->sizes.n);
    if (takes_projection) hand_run(PROJECTION, from->words[RANDOMNESS], 16384 * (size_t)from->sizes.n);
    for (uint32_t k = one_in(3) ? 0 : one_in(3) ? 1 + below(3) : 1; k > 0; k--) fault(which[one_in(3) ? 0 : below(takes_projection ? 3 : 2)]);
    if (one_in(8) && slices[JOB].length > PARAMETERS + 18) lower_bound_of_A();
    draw_indexes(from->sizes.r);
    lend_buffer(SCRATCH, about(scratch_need(&from->sizes)));
    lend_buffer(OUTPUT, about(run_output_need(&from->sizes) % MOST));
}

void draw_shed_projection(void) { draw_run(1); }
void draw_shed_rows(void) { draw_run(0); }

static int run_is_outside(const labrador_parameters *p) { return run_end <= run_first || run_end > p->r; }

/* The place of a refusal that only these calls give, or of slices that only they take. */
static int run_place_is_right(const labrador_parameters *p, const answer *a) {
    switch (a->number) {
    case 2:
        return a->place == run_output_need(p) && slices[OUTPUT].length < a->place;
    case 7:
        return a->place <= slices[PROJECTION].length;
    case 8:
        return above(PROJECTION, a->place, Q - 1);
    case 11:
        return a->place <= slices[VECTORS].length;
    case 12:
        return above(VECTORS, a->place, Q - 1);
    case 13:
        return a->place >= run_first && a->place < run_end;
    default:
        return a->place == 0;
    }
}

static int all_below_Q(const uint32_t *words, size_t count) {
    for (size_t k = 0; k < count; k++)
        if (words[k] >= Q) return 0;
    return 1;
}

static const char *judge_run(const answer *a) {
    labrador_parameters p = parameters_in_hand();
    int worked = a->number == 0 || a->number == 13;
    slices[SCRATCH].touched = worked ? scratch_need(&p) : 0;
    slices[SCRATCH].zeroed = 1;
    slices[OUTPUT].touched = worked ? run_output_need(&p) : 0;
    slices[OUTPUT].zeroed = a->number != 0;
    if (a->number == 1 || (a->number >= 3 && a->number <= 6)) return judge_refusal(a);
    if (a->number == 34) return run_is_outside(&p) && a->place == run_first ? NULL : "34 for another run, or at another place";
    if (run_is_outside(&p)) return "a run outside the vectors is taken";
    if (!run_place_is_right(&p, a)) return "a place that its number does not have";
    if (a->number != 0) return NULL;
    const uint32_t *made = slices[OUTPUT].at;
    return made[0] == run_output_need(&p) - 1 && all_below_Q(made + 1, made[0]) ? NULL : "not a section of numbers below Q";
}

const char *judge_shed_projection(const answer *a) { return judge_run(a); }
const char *judge_shed_rows(const answer *a) { return judge_run(a); }

/* Two p, of a transcript or drawn. */
void draw_two_p(void) {
    static uint32_t drawn[2][257];
    for (int k = 0; k < 2; k++) {
        const load *from = draw_load();
        const uint32_t *sent = from->words[TRANSCRIPT] + 1 + from->words[TRANSCRIPT][0];
        drawn[k][0] = 256;
        for (int j = 1; j <= 256; j++) drawn[k][j] = draw() % Q;
        hand_input(FIRST_P + k, one_in(2) ? sent : drawn[k], 257);
        if (one_in(3)) fault(FIRST_P + k);
    }
    lend_buffer(OUTPUT, about(257));
}

/* The refusal of one p: number 0 where it is fit. */
static answer refusal_of_p(int s) {
    const uint32_t *words = slices[s].words;
    size_t length = slices[s].length;
    if (length == 0 || words[0] != 256) return (answer){9, 0, 0, {0}};
    if (length != 257) return (answer){9, length < 257 ? length : 257, 0, {0}};
    for (size_t k = 1; k < 257; k++)
        if (words[k] >= Q) return (answer){10, k, 0, {0}};
    return (answer){0, 0, 0, {0}};
}

const char *judge_sum(const answer *a) {
    answer expected = refusal_of_p(FIRST_P);
    if (expected.number == 0) expected = refusal_of_p(SECOND_P);
    if (expected.number == 0 && slices[OUTPUT].length < 257) expected = (answer){2, 257, 0, {0}};
    if (a->number != expected.number || a->place != expected.place) return "not the refusal of two p";
    if (a->number != 0) return NULL;
    slices[OUTPUT].touched = 257;
    const uint32_t *made = slices[OUTPUT].at, *p = slices[FIRST_P].words, *other = slices[SECOND_P].words;
    if (made[0] != 256) return "not a p";
    for (size_t k = 1; k < 257; k++)
        if (made[k] != ((uint64_t)p[k] + other[k]) % Q) return "not the sum of two p";
    return NULL;
}

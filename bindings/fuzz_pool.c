/* Valid loads with their transcripts, and the faults that a slice of one is given. */
#include <stdio.h>
#include <stdlib.h>
#include <string.h>

#include "fuzz.h"

/* Smaller loads come first and are drawn more often. kappa is L, below it and above it. */
static load loads[] = {
    {.sizes = {1, 1, 4, 1, 1, 1, 1, 32, 256, 4, 4, 4}},
    {.sizes = {1, 1, 4, 1, 1, 0, 1, 32, 2, 1, 1, 4}},
    {.sizes = {1, 1, 5, 2, 1, 1, 0, 31, Q - 1, 1, 2, 5}},
    {.sizes = {1, 1, 3, 1, 2, 3, 2, 16, 3, 21, 1, 8}},
    {.sizes = {1, 2, 4, 1, 1, 1, 2, 32, 65536, 2, 2, 4}},
    {.sizes = {2, 1, 16, 1, 1, 2, 1, 26, 10, 3, 3, 5}},
    {.sizes = {2, 2, 4, 2, 2, 1, 1, 32, 16, 8, 8, 4}},
    {.sizes = {1, 1, 1, 1, 1, 64, 64, 32, 1000, 32, 32, 32}},
    {.sizes = {1, 5, 2, 1, 1, 1, 1, 32, 256, 1, 4, 6}},
    {.sizes = {12, 1, 4, 1, 1, 1, 1, 32, 256, 2, 2, 4}},
    {.sizes = {1, 12, 4, 1, 1, 1, 1, 32, 65537, 2, 2, 4}},
};

enum { LOADS = sizeof loads / sizeof *loads };

static void made(int fit, const char *what) {
    if (fit) return;
    printf("fuzz: no load to begin with: %s\n", what);
    exit(EXIT_FAILURE);
}

static void make_load(load *p, uint32_t seed) {
    labrador_load_need need = labrador_load_needs(p->sizes);
    p->lengths[JOB] = need.job;
    p->lengths[RANDOMNESS] = need.randomness;
    p->lengths[WITNESS] = need.witness;
    for (int s = JOB; s <= TRANSCRIPT; s++) {
        p->words[s] = calloc(MOST, sizeof(uint32_t));
        made(p->words[s] != NULL && p->lengths[s] <= MOST, "memory");
    }
    labrador_answer a = labrador_load(p->sizes, seed, p->words[JOB], need.job, p->words[WITNESS], need.witness, p->words[RANDOMNESS],
                                      need.randomness);
    made(need.number == 0 && a.number == 0, "labrador_load");
    p->lengths[TRANSCRIPT] = labrador_output_need(p->words[JOB], need.job).words;
    size_t scratch_need = labrador_scratch_need(p->words[JOB], need.job).words;
    uint32_t *scratch = calloc(scratch_need, sizeof *scratch);
    a = labrador_prove(p->words[JOB], need.job, p->words[RANDOMNESS], need.randomness, p->words[WITNESS], need.witness, scratch,
                       scratch_need, p->words[TRANSCRIPT], p->lengths[TRANSCRIPT]);
    made(p->lengths[TRANSCRIPT] <= MOST && a.number == 0, "labrador_prove");
    free(scratch);
}

void make_loads(void) {
    for (size_t k = 0; k < LOADS; k++) make_load(&loads[k], (uint32_t)k);
}

const load *draw_load(void) { return &loads[one_in(2) ? 0 : below(below(LOADS) + 1)]; }

/* Where each section's count stands, as far as the counts lead, and at last where the slice ends; gives how many these are. */
size_t sections(const uint32_t *words, size_t length, size_t *starts) {
    size_t count = 0, at = 0;
    while (at < length && count < SECTIONS) {
        starts[count++] = at;
        at += 1 + (size_t)words[at];
    }
    starts[count++] = length;
    return count;
}

/* The six bounds of three words follow the parameters. */
static void lower_bound(uint32_t *words) {
    uint32_t *bound = words + 1 + PARAMETERS + 3 * below(6);
    bound[0] = one_in(2) ? below(3) : draw();
    bound[1] = one_in(4) ? draw() : 0;
    bound[2] = 0;
}

/* A parameter at or beside a limit. */
uint32_t draw_limit(void) {
    static const uint32_t limits[] = {0, 1, 2, 3, 4, 5, 8, 15, 16, 17, 31, 32, 33, 64, 65, Q - 1, Q};
    return limits[below(sizeof limits / sizeof *limits)];
}

static void change_count(uint32_t *count) {
    const uint32_t counts[] = {0, *count + 1, *count - 1, *count + 64, *count / 2, Q, draw()};
    *count = counts[below(sizeof counts / sizeof *counts)];
}

/* A word of some section, its first, its last or one between, becomes another one, mostly below Q. */
static void change_in_section(uint32_t *words, const size_t *starts, size_t count) {
    size_t k = below((uint32_t)count - 1), from = starts[k] + 1, to = starts[k + 1];
    if (from == to) return;
    size_t ends[] = {from, to - 1, from + below((uint32_t)(to - from))}, at = ends[below(3)];
    words[at] = one_in(4) ? Q : (words[at] + 1 + (one_in(2) ? 0 : below(Q - 1))) % Q;
}

/* One fault more of a slice: its length, a count, a word; of a job also a bound or a parameter. */
void fault(int s) {
    size_t starts[SECTIONS + 1], count = sections(slices[s].words, slices[s].length, starts);
    uint32_t *words = stage(s);
    switch (count == 1 ? 0 : below(s == JOB && slices[s].length > PARAMETERS + 18 ? 12 : 6)) {
    case 0:
        cut_or_extend(s, starts, count);
        break;
    case 1:
        change_count(words + starts[below((uint32_t)count - 1)]);
        break;
    case 2:
        change_word(s);
        break;
    default:
        change_in_section(words, starts, count);
        break;
    case 6:
        words[1 + below(PARAMETERS)] = draw_limit();
        break;
    case 7:
    case 8:
    case 9:
        lower_bound(words);
    }
}

/* Draws, each fixed by the seed and the call's number, and the slices they fill. */
#include <string.h>

#include "fuzz.h"

slice slices[SLICES];
const char *const slice_names[SLICES] = {
    "job",     "randomness",  "witness",      "transcript", "lows",       "highs",          "digits",             "projection",
    "vectors", "the first p", "the second p", "scratch",    "the output", "the load's job", "the load's witness", "the load's randomness",
};
uint32_t operands[128];

static uint32_t staged[INPUTS][MOST];
static uint64_t state;

static uint64_t mix(uint64_t x) {
    x = (x ^ x >> 30) * 0xbf58476d1ce4e5b9u;
    x = (x ^ x >> 27) * 0x94d049bb133111ebu;
    return x ^ x >> 31;
}

void begin_draws(uint64_t seed, uint64_t call) {
    state = mix(mix(seed + 1) + call);
    for (int s = 0; s < SLICES; s++) slices[s].used = 0;
}

/* splitmix64 */
uint32_t draw(void) {
    state += 0x9e3779b97f4a7c15u;
    return (uint32_t)(mix(state) >> 32);
}

uint32_t below(uint32_t count) { return (uint32_t)((uint64_t)draw() * count >> 32); }

int one_in(uint32_t count) { return below(count) == 0; }

/* Any word, those at an edge more often. */
uint32_t draw_word(void) {
    static const uint32_t edges[] = {0, 1, 2, 31, 32, 33, 64, 65, 1073741823, 1073741824, 2147483647, 2147483648, Q - 2, Q - 1, Q, UINT32_MAX};
    return one_in(2) ? edges[below(sizeof edges / sizeof *edges)] : draw();
}

void hand_input(int s, const uint32_t *words, size_t length) {
    slices[s].words = words;
    slices[s].length = length;
    slices[s].width = s == LOWS || s == HIGHS ? 2 : 1;
    slices[s].used = 1;
}

void lend_buffer(int s, size_t length) {
    slices[s].length = length < MOST ? length : MOST;
    slices[s].width = 1;
    slices[s].used = 1;
}

/* An input's words in a copy that may be changed, with room for MOST. */
uint32_t *stage(int s) {
    if (slices[s].words != staged[s]) {
        memcpy(staged[s], slices[s].words, slices[s].length * slices[s].width * sizeof(uint32_t));
        slices[s].words = staged[s];
    }
    return staged[s];
}

static void put_word(uint32_t *at) {
    static const uint32_t steps[] = {1, UINT32_MAX, 2, 1u << 31};
    *at = one_in(2) ? draw_word() : *at + steps[below(4)];
}

/* One word becomes another, anywhere in the slice. */
void change_word(int s) {
    uint32_t *words = stage(s);
    if (slices[s].length > 0) put_word(words + below((uint32_t)(slices[s].length * slices[s].width)));
}

/* Another length: at or beside one of the bounds, shorter, longer, or none at all. What is added is drawn. */
void cut_or_extend(int s, const size_t *bounds, size_t count) {
    size_t most = MOST / slices[s].width, was = slices[s].length, length = 0;
    uint32_t *words = stage(s);
    switch (below(5)) {
    case 0:
    case 1:
        length = bounds[below((uint32_t)count)] + below(3);
        if (length > 0) length--;
        break;
    case 2:
        length = below((uint32_t)was + 1);
        break;
    case 3:
        length = was + 1 + below(one_in(8) ? 4096 : 3);
        break;
    }
    slices[s].length = length < most ? length : most;
    for (size_t k = was * slices[s].width; k < slices[s].length * slices[s].width; k++) words[k] = draw_word();
}

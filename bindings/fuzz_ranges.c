/* Operands of labrador_ranges, and what its answer may be. */
#include <string.h>

#include "fuzz.h"

enum { PAIRS = 8192 };
static const int64_t half = HALF;
static int64_t lows[PAIRS], highs[PAIRS];

/* So many pairs, now and then one of them crossed or beyond the numbers allowed. */
static void draw_pairs(size_t count) {
    static const int64_t beyond[] = {INT64_MIN, INT64_MAX, -(int64_t)HALF - 1, (int64_t)HALF + 1, -4294967295, 4294967296};
    uint32_t width = one_in(2) ? 3 : HALF;
    for (size_t k = 0; k < count; k++) {
        lows[k] = (int64_t)below(width) - (one_in(2) ? width : 0);
        highs[k] = lows[k] + (one_in(4) ? 0 : below((uint32_t)(half + 1 - (lows[k] > 0 ? lows[k] : 0))));
    }
    if (count == 0) return;
    if (one_in(4)) lows[below((uint32_t)count)] = half;
    if (one_in(4)) highs[below((uint32_t)count)] = -half;
    if (one_in(8)) (one_in(2) ? lows : highs)[below((uint32_t)count)] = beyond[below(6)];
}

static size_t pairs_needed(void) {
    labrador_parameters p = parameters_in_hand();
    return 64 * (size_t)p.n * p.r;
}

void draw_ranges(void) {
    draw_job();
    size_t need = pairs_needed(), count = need < PAIRS ? need : PAIRS;
    draw_pairs(count);
    hand_input(LOWS, (const uint32_t *)lows, count);
    hand_input(HIGHS, (const uint32_t *)highs, count);
    if (one_in(8)) cut_or_extend(LOWS, &need, 1);
    if (one_in(8)) cut_or_extend(HIGHS, &need, 1);
}

static const char *judge_vector(const uint64_t *v, int used) {
    int least_is_less = v[1] < v[3] || (v[1] == v[3] && v[2] <= v[4]);
    if (used) return v[0] >= 1 && v[0] <= 3 && least_is_less ? NULL : "a vector's answer outside its range";
    return v[0] == 0 && v[1] == 0 && v[2] == 0 && v[3] == 0 && v[4] == 0 ? NULL : "an unused vector is not zero";
}

/* The place of a 36 or 37: a pair that is crossed, or one with a number beyond. */
static int pair_is_wrong(const answer *a) {
    if (a->place >= pairs_needed()) return 0;
    int64_t low, high;
    memcpy(&low, slices[LOWS].words + 2 * a->place, sizeof low);
    memcpy(&high, slices[HIGHS].words + 2 * a->place, sizeof high);
    int beyond = low < -half || low > half || high < -half || high > half;
    return a->number == 37 ? beyond : low > high && !beyond;
}

const char *judge_ranges(const answer *a) {
    labrador_parameters p = parameters_in_hand();
    if (a->number == 11 && a->place > pairs_needed()) return "a place that its number does not have";
    if ((a->number == 36 || a->number == 37) && !pair_is_wrong(a)) return "a pair that is not wrong";
    if (a->number >= 3 && a->number <= 6 && judge_refusal(a)) return judge_refusal(a);
    if (a->number == 0 && a->place != 0) return "a place where nothing is refused";
    for (size_t k = 0; k < 16; k++) {
        const char *wrong = judge_vector(a->values + 5 * k, a->number == 0 && k < p.r);
        if (wrong) return wrong;
    }
    return NULL;
}

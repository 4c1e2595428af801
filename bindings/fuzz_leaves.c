/* Operands of the leaf calls, and what their answers may be. */
#include "fuzz.h"

/* how many operands there are, and from which one on they are numbers below Q */
static size_t operand_count, first_number;

/* So many words by place; now and then one or two of them are not below Q, and now and then most lie at an edge. */
static void draw_operands(size_t from, size_t count) {
    first_number = from;
    operand_count = from + count;
    int at_edges = one_in(4);
    for (size_t k = from; k < operand_count; k++) {
        uint32_t word = at_edges ? draw_word() : draw();
        operands[k] = word >= Q ? Q - 1 - below(2) : word;
    }
    if (one_in(4)) operands[from + below((uint32_t)count)] = Q;
    if (one_in(8)) operands[from + below((uint32_t)count)] = UINT32_MAX;
}

void draw_word_operand(void) { draw_operands(0, 1); }
void draw_word_operands(void) { draw_operands(0, 2); }
void draw_element(void) { draw_operands(0, 64); }
void draw_elements(void) { draw_operands(0, 128); }
void draw_element_and_word(void) { draw_operands(0, 65); }

/* A base and a number of parts, mostly fit. */
static void draw_base_and_parts(void) {
    operands[0] = one_in(4) ? draw_word() : 2 + below(one_in(2) ? 30 : Q - 3);
    operands[1] = one_in(8) ? draw_word() : 1 + below(32);
}

void draw_base(void) {
    draw_operands(0, 1);
    draw_base_and_parts();
}

void draw_word_for_digits(void) {
    draw_operands(2, 1);
    draw_base_and_parts();
}

void draw_element_for_digits(void) {
    draw_operands(2, 64);
    draw_base_and_parts();
}

void draw_element_and_rows(void) {
    static const size_t lengths[] = {0, 1, 2047, 2048, 2048, 2048, 2048, 2049, 2112, 4096};
    draw_element_for_digits();
    lend_buffer(OUTPUT, one_in(8) ? below(5000) : lengths[below(sizeof lengths / sizeof *lengths)]);
}

/* Sign words, 0 or 1 but for a few, and any shuffle words. */
void draw_challenge_words(void) {
    draw_operands(41, 63);
    for (int k = 0; k < 41; k++) operands[k] = below(2);
    if (one_in(3)) operands[below(41)] = draw_word();
    for (int k = 41; k < 104; k++) operands[k] = draw_word();
}

/* Digits as a slice of any length: up to 33, and now and then far more, which are not read. */
void draw_digits(void) {
    static uint32_t digits[MOST];
    size_t length = one_in(64) ? below(MOST) : below(36);
    draw_base_and_parts();
    for (size_t k = 0; k < length && k < 64; k++) digits[k] = draw() % Q;
    if (length > 0 && one_in(4)) digits[below((uint32_t)(length < 64 ? length : 64))] = Q;
    hand_input(DIGITS, digits, length);
}

/* The place of the first word above `most`, or `to`. */
static size_t first_above(const uint32_t *words, size_t from, size_t to, uint32_t most) {
    while (from < to && words[from] <= most) from++;
    return from;
}

static int is_base(uint32_t base) { return base >= 2 && base <= Q - 1; }
static int is_parts(uint64_t parts) { return parts >= 1 && parts <= 32; }

/* A refusal with its place, and nothing beside it. */
static const char *refused(const answer *a, uint32_t number, uint64_t place) {
    if (a->number != number) return "another number than that of the first wrong operand";
    if (a->place != place) return "another place than that of the first wrong operand";
    for (size_t k = 0; k < a->count; k++)
        if (a->values[k] != 0) return "a result beside a refusal";
    return NULL;
}

static const char *values_up_to(const answer *a, uint64_t most) {
    if (a->number != 0 || a->place != 0) return "right operands are refused";
    for (size_t k = 0; k < a->count; k++)
        if (a->values[k] > most) return "a result outside its range";
    return NULL;
}

/* Operands below Q, and results too. */
static const char *judged(const answer *a, uint64_t most) {
    size_t place = first_above(operands, first_number, operand_count, Q - 1);
    return place < operand_count ? refused(a, 6, place) : values_up_to(a, most);
}

const char *judge_words(const answer *a) { return judged(a, Q - 1); }

const char *judge_centre(const answer *a) {
    if (operands[0] >= Q) return refused(a, 6, 0);
    int64_t centre = (int64_t)a->values[0];
    return a->number == 0 && a->place == 0 && centre >= -(int64_t)HALF && centre <= (int64_t)HALF ? NULL : "no centre";
}

/* 64 squares are below 2^68. */
const char *judge_norm(const answer *a) {
    const char *wrong = judged(a, UINT64_MAX);
    return wrong ? wrong : a->values[0] > 15 ? "a norm outside its range" : NULL;
}

const char *judge_digits(const answer *a) {
    if (!is_base(operands[0])) return refused(a, 4, 0);
    return is_parts(operands[1]) ? judge_words(a) : refused(a, 4, 1);
}

/* The rows are written, or zero on a refusal, wherever there is room for them. */
const char *judge_rows(const answer *a) {
    int room = slices[OUTPUT].length >= 2048;
    slices[OUTPUT].touched = room ? 2048 : 0;
    slices[OUTPUT].zeroed = a->number != 0;
    int fit = is_base(operands[0]) && is_parts(operands[1]) && first_above(operands, 2, 66, Q - 1) == 66;
    return fit && !room ? refused(a, 2, 2048) : judge_digits(a);
}

const char *judge_challenge(const answer *a) {
    size_t place = first_above(operands, 0, 41, 1);
    return place < 41 ? refused(a, 8, place) : values_up_to(a, Q - 1);
}

const char *judge_parts(const answer *a) {
    if (!is_base(operands[0])) return refused(a, 31, 0);
    const char *wrong = values_up_to(a, 31);
    return wrong ? wrong : a->values[0] == 0 ? "no parts" : NULL;
}

const char *judge_recomposed(const answer *a) {
    const slice *digits = &slices[DIGITS];
    if (!is_base(operands[0])) return refused(a, 31, 0);
    if (!is_parts(digits->length)) return refused(a, 31, 1);
    size_t place = first_above(digits->words, 0, digits->length, Q - 1);
    return place < digits->length ? refused(a, 6, 2 + place) : values_up_to(a, Q - 1);
}

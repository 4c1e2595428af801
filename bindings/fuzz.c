/* Every call of labrador.h on fit and unfit operands under guard pages: `fuzz SEED COUNT [FIRST]` makes COUNT calls, each twice: its slices
   end at an unreadable page the first time and begin after one the second time, inputs cannot be written, and buffers held something else
   before. The answer is in the header's list, both answers and what they write are the same, and no other word is changed. `fuzz` alone
   prints the calls' names. fuzz_calls.h is the table of the calls. */
#define _GNU_SOURCE
#include <inttypes.h>
#include <signal.h>
#include <stdio.h>
#include <stdlib.h>
#include <string.h>
#include <sys/time.h>
#include <unistd.h>

#include "fuzz.h"

static labrador_element element(size_t from) {
    labrador_element a;
    memcpy(a.coeffs, operands + from, sizeof a.coeffs);
    return a;
}

static labrador_challenge_words challenge_words(void) {
    labrador_challenge_words w;
    memcpy(w.words, operands, sizeof w.words);
    return w;
}

static answer with_words(uint32_t number, uint64_t place, const uint32_t *words, size_t count) {
    answer a = {number, place, count, {0}};
    for (size_t k = 0; k < count; k++) a.values[k] = words[k];
    return a;
}

static answer of_word(labrador_word_answer r) { return with_words(r.number, r.place, &r.value, 1); }
static answer of_centre(labrador_centre_answer r) { return (answer){r.number, r.place, 1, {(uint64_t)r.value}}; }
static answer of_digits(labrador_digits_answer r) {
    answer a = with_words(r.number, r.place, r.digits, 32);
    a.values[a.count++] = r.left;
    return a;
}
static answer of_element(labrador_element_answer r) { return with_words(r.number, r.place, r.coeffs, 64); }
static answer of_norm(labrador_norm_answer r) { return (answer){r.number, r.place, 2, {r.hi, r.lo}}; }
static answer of_status(labrador_status r) { return (answer){r.number, r.place, 0, {0}}; }
static answer of_answer(labrador_answer r) { return (answer){r.number, r.place, 0, {0}}; }
static answer of_need(labrador_need r) { return (answer){r.number, r.place, 1, {r.words}}; }
static answer of_load_need(labrador_load_need r) { return (answer){r.number, r.place, 3, {r.job, r.witness, r.randomness}}; }

static answer of_verdict(labrador_verdict v) {
    return (answer){v.number, v.place, 6, {v.index, v.first_hi, v.first_lo, v.second_hi, v.second_lo, v.cells_left}};
}

/* eight values of each verdict, its number first */
static answer of_verdicts(labrador_verdicts r) {
    answer a = {r.number, r.place, 64, {0}};
    for (int m = 0; m < 8; m++) {
        const labrador_verdict *v = &r.verdicts[m];
        const uint64_t values[8] = {v->number, v->place, v->index, v->first_hi, v->first_lo, v->second_hi, v->second_lo, v->cells_left};
        memcpy(a.values + 8 * m, values, sizeof values);
    }
    return a;
}

static answer of_mistyped(labrador_mistyped_answer r) { return (answer){r.number, r.place, 1, {r.entries}}; }

static answer of_ranges(labrador_ranges_answer r) {
    answer a = {r.number, r.place, 80, {0}};
    for (int k = 0; k < 16; k++) {
        const labrador_range_norms *v = &r.vectors[k];
        const uint64_t values[5] = {v->meets, v->least_hi, v->least_lo, v->greatest_hi, v->greatest_lo};
        memcpy(a.values + 5 * k, values, sizeof values);
    }
    return a;
}

#define CALL(name, share, draw, call, judge, ...) \
    static answer call_##name(void) { return call; }
#include "fuzz_calls.h"
#undef CALL

#define CALL(name, share, draw, call, judge, ...) {"labrador_" #name, share, draw, call_##name, judge, {__VA_ARGS__}},
static const row rows[] = {
#include "fuzz_calls.h"
};
#undef CALL

enum { ROWS = sizeof rows / sizeof *rows, LAST_NUMBER = 64 };

static uint64_t seed, call_number, made[ROWS][LAST_NUMBER];
const row *in_hand;

static void fail(const answer *a, int turn, const char *what) {
    printf("fuzz: seed %" PRIu64 ", call %" PRIu64 ", %s: %s (answer %" PRIu32 " at %" PRIu64 ", %s)\n", seed, call_number, in_hand->name, what,
           a->number, a->place, turn == 0 ? "slices end at an unreadable page" : "slices begin after an unreadable page");
    for (int s = 0; s < SLICES; s++)
        if (slices[s].used) printf("  %s: %zu\n", slice_names[s], slices[s].length);
    exit(EXIT_FAILURE);
}

/* A signal during a call: what was read or written, as far as it can be told. */
static void crashed(int number, siginfo_t *info, void *context) {
    (void)context;
    int past_its_end = 0;
    char said[256];
    const char *beside = number == SIGSEGV ? slice_beside(info->si_addr, &past_its_end) : NULL;
    int length = snprintf(said, sizeof said, "fuzz: seed %" PRIu64 ", call %" PRIu64 ", %s: signal %d%s%s\n", seed, call_number,
                          in_hand ? in_hand->name : "none", number,
                          !beside ? "" : past_its_end ? ", past the end of " : ", before or on ", beside ? beside : "");
    if (write(STDOUT_FILENO, said, (size_t)length) < 0) _exit(2);
    _exit(EXIT_FAILURE);
}

/* A call that takes longer than a minute of the processor's time. */
static void tick(int number, siginfo_t *info, void *context) {
    static uint64_t last, ticks;
    ticks = call_number == last ? ticks + 1 : 0;
    last = call_number;
    if (ticks >= 6) crashed(number, info, context);
}

static void catch_signals(void) {
    static char stack[65536];
    stack_t other = {.ss_sp = stack, .ss_size = sizeof stack};
    struct sigaction action = {.sa_sigaction = crashed, .sa_flags = SA_SIGINFO | SA_ONSTACK}, timed = action;
    const int signals[] = {SIGSEGV, SIGBUS, SIGILL, SIGFPE, SIGABRT, SIGTRAP};
    const struct itimerval ten_seconds = {{10, 0}, {10, 0}};
    timed.sa_sigaction = tick;
    sigaltstack(&other, NULL);
    for (size_t k = 0; k < sizeof signals / sizeof *signals; k++) sigaction(signals[k], &action, NULL);
    sigaction(SIGVTALRM, &timed, NULL);
    setitimer(ITIMER_VIRTUAL, &ten_seconds, NULL);
}

static const row *draw_row(void) {
    uint32_t all = 0, k = 0;
    for (size_t i = 0; i < ROWS; i++) all += rows[i].share;
    for (uint32_t at = below(all); at >= rows[k].share; k++) at -= rows[k].share;
    return &rows[k];
}

static int is_listed(uint32_t number) {
    return number == 0 || (number < LAST_NUMBER && memchr(in_hand->numbers, (int)number, sizeof in_hand->numbers) != NULL);
}

static int same(const answer *a, const answer *b) {
    return a->number == b->number && a->place == b->place && memcmp(a->values, b->values, sizeof a->values) == 0;
}

static void try_call(void) {
    begin_draws(seed, call_number);
    in_hand = draw_row();
    in_hand->draw();
    answer first;
    for (int turn = 0; turn < 2; turn++) {
        uint32_t salt = draw();
        place_slices(turn, salt);
        answer a = in_hand->call();
        const char *wrong = is_listed(a.number) ? in_hand->judge(&a) : "a number that the header does not give";
        if (!wrong) wrong = check_buffers(turn, salt);
        if (!wrong && turn == 1 && !same(&a, &first)) wrong = "the same call answers something else";
        if (wrong) fail(&a, turn, wrong);
        first = a;
    }
    made[in_hand - rows][first.number]++;
}

/* How often a call gave each number, of those that it gave. */
static void print_row(size_t i) {
    uint64_t calls = 0;
    for (uint32_t number = 0; number < LAST_NUMBER; number++) calls += made[i][number];
    if (calls == 0) return;
    printf("  %-28s", rows[i].name);
    for (uint32_t number = 0; number < LAST_NUMBER; number++)
        if (made[i][number] > 0) printf(" %" PRIu32 ": %" PRIu64, number, made[i][number]);
    printf("\n");
}

/* Whether each call gave each of its numbers. */
static int all_came(void) {
    int all = 1;
    for (size_t i = 0; i < ROWS; i++) {
        in_hand = &rows[i];
        for (uint32_t number = 0; number < LAST_NUMBER; number++)
            if (is_listed(number) && made[i][number] == 0) {
                printf("fuzz: %s never gave %" PRIu32 "\n", rows[i].name, number);
                all = 0;
            }
    }
    return all;
}

int main(int count, char **arguments) {
    if (count == 1)
        for (size_t i = 0; i < ROWS; i++) printf("%s\n", rows[i].name);
    if (count == 1) return EXIT_SUCCESS;
    seed = strtoull(arguments[1], NULL, 10);
    uint64_t calls = count > 2 ? strtoull(arguments[2], NULL, 10) : 0, from = count > 3 ? strtoull(arguments[3], NULL, 10) : 0;
    if (calls == 0) {
        fprintf(stderr, "usage: fuzz SEED COUNT [FIRST]\n");
        return 64;
    }
    make_rooms();
    make_loads();
    catch_signals();
    for (call_number = from; call_number < from + calls; call_number++) try_call();
    for (size_t i = 0; i < ROWS; i++) print_row(i);
    /* a run of this length meets every number of the header */
    if (calls >= 150000 && !all_came()) return EXIT_FAILURE;
    printf("%" PRIu64 " calls under guard pages, each twice, of %d kinds, seed %" PRIu64 "\n", calls, ROWS, seed);
    return EXIT_SUCCESS;
}

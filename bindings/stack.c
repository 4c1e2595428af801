/* How much stack the calls of labrador.h take.
   stack                  makes each call at the sizes where it takes most, on a thread that has as much stack as the header states, above memory that cannot
                          be touched, and prints what it took
   stack --low            the same with a little less than each takes: none may come to its end
   stack --search COUNT   makes each call at so many sizes and prints where it took most
   stack --names          prints the names of the calls */
#include <limits.h>
#include <pthread.h>
#include <stdio.h>
#include <stdlib.h>
#include <string.h>
#include <sys/mman.h>
#include <sys/wait.h>
#include <unistd.h>

#include "labrador.h"

#define Q LABRADOR_Q

enum {
    KIB = 1024,
    ROOM = 512 * KIB,         /* more than any call takes */
    BELOW = 512 * KIB,        /* that cannot be touched */
    ABOVE = PTHREAD_STACK_MIN /* for what the C library keeps on a thread's stack */
};

static void need(int fit, const char *what) {
    if (fit) return;
    printf("stack: %s\n", what);
    exit(EXIT_FAILURE);
}

/* Slices of words, and how many words each has. */
enum { JOB, WITNESS, RANDOMNESS, TRANSCRIPT, SCRATCH, OUTPUT, MISTYPED, SEVERAL_RANDOMNESS, SEVERAL, SLICES };

/* A test load with its transcript, what the calls write to, a job with another constant, and transcripts of it end to end. */
typedef struct {
    labrador_parameters sizes;
    uint32_t transcripts;
    uint32_t *words[SLICES];
    size_t lengths[SLICES];
    int64_t *numbers;
} load;

#define WORDS(s) l->words[s], l->lengths[s]

static void make_slice(load *l, int s, size_t length) {
    l->words[s] = calloc(length + 1, sizeof(uint32_t));
    l->lengths[s] = length;
    need(l->words[s] != NULL, "no memory");
}

/* The word after so many sections' counts and words. */
static size_t section(const load *l, int s, int sections) {
    size_t at = 0;
    while (sections-- > 0) at += 1 + (size_t)l->words[s][at];
    return at;
}

static void several(load *l, int s, int of) {
    make_slice(l, s, l->transcripts * l->lengths[of]);
    for (size_t m = 0; m < l->transcripts; m++) memcpy(l->words[s] + m * l->lengths[of], l->words[of], l->lengths[of] * sizeof(uint32_t));
}

static void make_load(load *l) {
    labrador_load_need lengths = labrador_load_needs(l->sizes);
    need(lengths.number == 0, "no load of these sizes");
    make_slice(l, JOB, lengths.job);
    make_slice(l, WITNESS, lengths.witness);
    make_slice(l, RANDOMNESS, lengths.randomness);
    need(labrador_load(l->sizes, 1, WORDS(JOB), WORDS(WITNESS), WORDS(RANDOMNESS)).number == 0, "no load");
    make_slice(l, SCRATCH, l->transcripts * labrador_scratch_need(WORDS(JOB)).words);
    make_slice(l, TRANSCRIPT, labrador_output_need(WORDS(JOB)).words);
    make_slice(l, OUTPUT, l->lengths[TRANSCRIPT] + 2048);
    need(labrador_prove(WORDS(JOB), WORDS(RANDOMNESS), WORDS(WITNESS), WORDS(SCRATCH), WORDS(TRANSCRIPT)).number == 0, "no transcript");
    several(l, SEVERAL_RANDOMNESS, RANDOMNESS);
    several(l, SEVERAL, TRANSCRIPT);
    make_slice(l, MISTYPED, lengths.job);
    memcpy(l->words[MISTYPED], l->words[JOB], lengths.job * sizeof(uint32_t));
    uint32_t *b0 = l->words[MISTYPED] + section(l, JOB, 3);
    if (b0[0] > 0) b0[1] = (b0[1] + 1) % Q;
    l->numbers = calloc(lengths.witness, sizeof *l->numbers);
    need(l->numbers != NULL, "no memory");
}

static void drop_load(load *l) {
    for (int s = 0; s < SLICES; s++) free(l->words[s]);
    free(l->numbers);
}

/* The randomness of a round ends after so many sections. */
#define PROVER(name, sections) \
    labrador_##name(WORDS(JOB), l->words[RANDOMNESS], section(l, RANDOMNESS, sections), WORDS(WITNESS), WORDS(SCRATCH), WORDS(OUTPUT)).number

static labrador_element element;
static labrador_challenge_words challenge;
static uint32_t digits[32], rows[2048], sum[257] = {256};

/* The list of mistyped constants is there where there is a constant. */
static uint32_t mistyped(const load *l) {
    uint32_t number = labrador_mistyped(WORDS(MISTYPED), WORDS(RANDOMNESS), WORDS(TRANSCRIPT), WORDS(SCRATCH), WORDS(OUTPUT)).number;
    return number == (l->sizes.l > 0 ? 0 : LABRADOR_REFUSAL_NOT_CHECK_22) ? 0 : number + 1;
}

/* 0 where all transcripts are accepted. */
static uint32_t many(const load *l) {
    labrador_verdicts told = labrador_verify_many(WORDS(JOB), l->transcripts, WORDS(SEVERAL_RANDOMNESS), WORDS(SEVERAL), WORDS(SCRATCH));
    uint32_t number = told.number;
    for (uint32_t m = 0; m < l->transcripts; m++) number |= told.verdicts[m].number;
    return number;
}

/* Every call of labrador.h: its name, what the header states of it, and its answer's number. Those on leaves take the same at all sizes. */
#define LEAVES(CALL)                                                                             \
    CALL(zq_add, LABRADOR_STACK_OTHER, labrador_zq_add(Q - 1, Q - 1).number)                     \
    CALL(zq_sub, LABRADOR_STACK_OTHER, labrador_zq_sub(0, Q - 1).number)                         \
    CALL(zq_mul, LABRADOR_STACK_OTHER, labrador_zq_mul(Q - 1, Q - 1).number)                     \
    CALL(zq_neg, LABRADOR_STACK_OTHER, labrador_zq_neg(Q - 1).number)                            \
    CALL(zq_centre, LABRADOR_STACK_OTHER, labrador_zq_centre(Q - 1).number)                      \
    CALL(zq_digits, LABRADOR_STACK_OTHER, labrador_zq_digits(2, 32, Q / 2).number)               \
    CALL(recompose, LABRADOR_STACK_OTHER, labrador_recompose(2, digits, 32).number)              \
    CALL(parts_needed, LABRADOR_STACK_OTHER, labrador_parts_needed(2).number)                    \
    CALL(projection_entry, LABRADOR_STACK_OTHER, labrador_projection_entry(Q - 1).number)        \
    CALL(rq_add, LABRADOR_STACK_OTHER, labrador_rq_add(element, element).number)                 \
    CALL(rq_sub, LABRADOR_STACK_OTHER, labrador_rq_sub(element, element).number)                 \
    CALL(rq_mul, LABRADOR_STACK_OTHER, labrador_rq_mul(element, element).number)                 \
    CALL(rq_mul_fast, LABRADOR_STACK_OTHER, labrador_rq_mul_fast(element, element).number)       \
    CALL(rq_scale, LABRADOR_STACK_OTHER, labrador_rq_scale(element, Q - 1).number)               \
    CALL(rq_conj, LABRADOR_STACK_OTHER, labrador_rq_conj(element).number)                        \
    CALL(rq_norm, LABRADOR_STACK_OTHER, labrador_rq_norm(element).number)                        \
    CALL(rq_digits, LABRADOR_STACK_OTHER, labrador_rq_digits(2, 32, element, rows, 2048).number) \
    CALL(rq_left, LABRADOR_STACK_OTHER, labrador_rq_left(2, 1, element).number)                  \
    CALL(challenge, LABRADOR_STACK_OTHER, labrador_challenge(challenge).number)                  \
    CALL(add_projections, LABRADOR_STACK_OTHER, labrador_add_projections(sum, 257, sum, 257, rows, 2048).number)

#define WHOLE(CALL)                                                                                                               \
    CALL(scratch_need, LABRADOR_STACK_OTHER, labrador_scratch_need(WORDS(JOB)).number)                                            \
    CALL(output_need, LABRADOR_STACK_OTHER, labrador_output_need(WORDS(JOB)).number)                                              \
    CALL(load_needs, LABRADOR_STACK_OTHER, labrador_load_needs(l->sizes).number)                                                  \
    CALL(load, LABRADOR_STACK_LOAD, labrador_load(l->sizes, 1, WORDS(JOB), WORDS(WITNESS), WORDS(RANDOMNESS)).number)             \
    CALL(prove, LABRADOR_STACK_PROVE, PROVER(prove, 7))                                                                           \
    CALL(round_1, LABRADOR_STACK_PROVE, PROVER(round_1, 0))                                                                       \
    CALL(round_2, LABRADOR_STACK_PROVE, PROVER(round_2, 1))                                                                       \
    CALL(round_3, LABRADOR_STACK_PROVE, PROVER(round_3, 3))                                                                       \
    CALL(round_4, LABRADOR_STACK_PROVE, PROVER(round_4, 5))                                                                       \
    CALL(round_5, LABRADOR_STACK_PROVE, PROVER(round_5, 7))                                                                       \
    CALL(shed_projection, LABRADOR_STACK_OTHER,                                                                                   \
         labrador_shed_projection(WORDS(JOB), 0, l->sizes.r, l->words[RANDOMNESS], section(l, RANDOMNESS, 1), WORDS(WITNESS),     \
                                  WORDS(SCRATCH), WORDS(OUTPUT))                                                                  \
             .number)                                                                                                             \
    CALL(shed_rows, LABRADOR_STACK_OTHER,                                                                                         \
         labrador_shed_rows(WORDS(JOB), 0, l->sizes.r, WORDS(WITNESS), WORDS(SCRATCH), WORDS(OUTPUT)).number)                     \
    CALL(verify, LABRADOR_STACK_VERIFY, labrador_verify(WORDS(JOB), WORDS(RANDOMNESS), WORDS(TRANSCRIPT), WORDS(SCRATCH)).number) \
    CALL(verify_many, LABRADOR_STACK_MANY, many(l))                                                                               \
    CALL(mistyped, LABRADOR_STACK_VERIFY, mistyped(l))                                                                            \
    CALL(ranges, LABRADOR_STACK_OTHER,                                                                                            \
         labrador_ranges(WORDS(JOB), l->numbers, l->lengths[WITNESS] - 1, l->numbers, l->lengths[WITNESS] - 1).number)

#define FUNCTION(name, stated, number)                                     \
    static __attribute__((noinline)) uint32_t call_##name(const load *l) { \
        (void)l;                                                           \
        return number;                                                     \
    }
LEAVES(FUNCTION)
WHOLE(FUNCTION)

typedef struct {
    const char *name;
    size_t stated;
    uint32_t (*call)(const load *);
    int at_all_sizes;
} row;

#define ROW(name, stated, number) {"labrador_" #name, stated, call_##name, 1},
#define ROW_OF_SIZES(name, stated, number) {"labrador_" #name, stated, call_##name, 0},
static const row calls[] = {LEAVES(ROW) WHOLE(ROW_OF_SIZES)};
enum { CALLS = sizeof calls / sizeof *calls };

/* A call that is made on a thread where so much stack is left. */
typedef struct {
    const row *row;
    const load *load;
    size_t room;
    size_t took;
    uint32_t number;
} trial;

/* The lowest byte of the thread's stack; what is below cannot be touched. */
static char *bottom;

static uint64_t mark(const uint64_t *at) { return (uint64_t)(uintptr_t)at * 0x9e3779b97f4a7c15u + 1; }

static __attribute__((noinline)) void *on_thread(void *given) {
    trial *t = given;
    char *here = __builtin_alloca(16);
    need(here >= bottom + t->room, "the C library keeps more on a thread's stack");
    char *top = __builtin_alloca((size_t)(here - (bottom + t->room)));
    /* so that it is laid there */
    __asm__ volatile("" : : "r"(top) : "memory");
    t->number = t->row->call(t->load);
    uint64_t *at = (uint64_t *)(void *)bottom;
    while ((char *)at < top && *at == mark(at)) at++;
    t->took = (char *)at < top ? (size_t)(top - (char *)at) : 0;
    return NULL;
}

static void make(trial *t) {
    for (uint64_t *at = (uint64_t *)(void *)bottom; (char *)at < bottom + t->room; at++) *at = mark(at);
    pthread_attr_t attributes;
    pthread_t thread;
    need(pthread_attr_init(&attributes) == 0 && pthread_attr_setstack(&attributes, bottom, t->room + ABOVE) == 0, "no stack of this length");
    need(pthread_create(&thread, &attributes, on_thread, t) == 0 && pthread_join(thread, NULL) == 0, "no thread");
    pthread_attr_destroy(&attributes);
    need(t->number == 0, t->row->name);
}

/* The same in a process of its own: whether the call comes to its end. */
static int ends(trial *t) {
    static trial *shared;
    if (shared == NULL) shared = mmap(NULL, sizeof *shared, PROT_READ | PROT_WRITE, MAP_SHARED | MAP_ANONYMOUS, -1, 0);
    need(shared != MAP_FAILED, "no memory");
    *shared = *t;
    fflush(stdout);
    pid_t child = fork();
    need(child >= 0, "no process");
    if (child == 0) {
        make(shared);
        _exit(EXIT_SUCCESS);
    }
    int status;
    need(waitpid(child, &status, 0) == child, "no end of a process");
    *t = *shared;
    need(!WIFEXITED(status) || WEXITSTATUS(status) == EXIT_SUCCESS, "a call refuses");
    return WIFEXITED(status);
}

static void print_sizes(const labrador_parameters *p) {
    printf("%u %u %u %u %u %u %u %u %u %u %u %u", p->n, p->r, p->kappa, p->kappa_1, p->kappa_2, p->K, p->l, p->log_q, p->b, p->t_1, p->t_2, p->L);
}

static size_t most[CALLS];
static labrador_parameters most_at[CALLS];

static void search_at(labrador_parameters sizes, uint32_t transcripts) {
    load l = {.sizes = sizes, .transcripts = transcripts};
    make_load(&l);
    for (int k = 0; k < CALLS; k++) {
        trial t = {.row = &calls[k], .load = &l, .room = ROOM};
        make(&t);
        if (t.took <= most[k]) continue;
        most[k] = t.took;
        most_at[k] = sizes;
    }
    drop_load(&l);
}

#define COUNT(list) (sizeof(list) / sizeof *(list))

static uint64_t state = 1;

static uint32_t one_of(const uint32_t *list, size_t count) {
    state = state * 6364136223846793005u + 1442695040888963407u;
    return list[(state >> 33) % count];
}

#define ONE_OF(list) one_of(list, COUNT(list))

static void search(size_t count) {
    static const uint32_t lengths[] = {1, 2, 3, 4, 5, 8, 16, 64}, vectors[] = {1, 2, 3, 4, 8, 16}, constraints[] = {0, 1, 2, 5, 32, 56, 60, 63, 64};
    static const uint32_t aggregations[] = {4, 5, 7, 8, 9, 10, 16, 31, 32}, rows_of[] = {1, 2, 4, 15, 16}, parts[] = {1, 2, 4, 5, 31, 32};
    static const uint32_t bases[] = {2, 3, 256, 65535, 65536, 65537, 65538, Q / 2, Q - 1}, transcripts[] = {1, 2, 3, 8};
    for (size_t k = 0; k < count; k++) {
        labrador_parameters p = {ONE_OF(lengths), ONE_OF(vectors), ONE_OF(rows_of),  ONE_OF(rows_of), ONE_OF(rows_of), ONE_OF(constraints),
                                 ONE_OF(constraints), 32, ONE_OF(bases), ONE_OF(parts), ONE_OF(parts), ONE_OF(aggregations)};
        uint32_t m = ONE_OF(transcripts);
        if (p.K + p.l == 0) p.l = 1;
        /* small ones more often */
        if (k % 8 != 0 && p.n * p.r > 16) p.r = 1 + p.r % 2;
        search_at(p, p.n * p.r > 64 ? 1 + m % 2 : m);
    }
    for (int k = 0; k < CALLS; k++) {
        printf("%-26s %7zu bytes at ", calls[k].name, most[k]);
        print_sizes(&most_at[k]);
        printf("\n");
    }
}

/* Sizes where a call takes most, and others at which it goes another way. */
static load loads[] = {
    {.sizes = {1, 1, 4, 1, 1, 1, 1, 32, 256, 4, 4, 4}, .transcripts = 8},
    {.sizes = {2, 1, 4, 4, 4, 0, 1, 32, 2, 31, 32, 4}, .transcripts = 2},
    {.sizes = {3, 4, 2, 1, 16, 64, 56, 32, Q / 2, 5, 31, 8}, .transcripts = 8},
    {.sizes = {4, 3, 16, 4, 2, 32, 2, 32, 3, 1, 32, 32}, .transcripts = 3},
    {.sizes = {8, 2, 1, 15, 16, 5, 0, 32, Q - 1, 2, 5, 5}, .transcripts = 1},
    {.sizes = {8, 2, 4, 4, 4, 5, 5, 32, 65538, 2, 2, 9}, .transcripts = 8},
    {.sizes = {16, 4, 4, 4, 4, 5, 5, 32, 65536, 2, 2, 4}, .transcripts = 8},
    {.sizes = {64, 1, 16, 16, 16, 64, 64, 32, 256, 4, 4, 4}, .transcripts = 2},
};

enum { LOADS = sizeof loads / sizeof *loads, LESS = 128 };

/* What a call takes at one load, in the stack that is stated. */
static size_t taken_at(const row *row, const load *at) {
    trial t = {.row = row, .load = at, .room = row->stated};
    if (!ends(&t)) {
        printf("stack: %s takes more than %zu bytes\n", row->name, row->stated);
        exit(EXIT_FAILURE);
    }
    return t.took;
}

static int loads_of(const row *row) { return row->at_all_sizes ? 1 : LOADS; }

/* What it takes at most. */
static size_t taken(const row *row) {
    size_t greatest = 0;
    for (int k = 0; k < loads_of(row); k++) {
        size_t took = taken_at(row, &loads[k]);
        if (took > greatest) greatest = took;
    }
    return greatest;
}

/* Whether it ends in no load where it has a little less. */
static int is_found_out(const row *row) {
    for (int k = 0; k < loads_of(row); k++) {
        size_t took = taken_at(row, &loads[k]);
        trial t = {.row = row, .load = &loads[k], .room = took > LESS ? (took - LESS) / 16 * 16 : 0};
        if (ends(&t)) return 0;
    }
    return 1;
}

int main(int count, char **words) {
    const char *asked = count > 1 ? words[1] : "";
    if (strcmp(asked, "--names") == 0) {
        for (int k = 0; k < CALLS; k++) puts(calls[k].name);
        return EXIT_SUCCESS;
    }
    char *memory = mmap(NULL, BELOW + ROOM + ABOVE, PROT_READ | PROT_WRITE, MAP_PRIVATE | MAP_ANONYMOUS, -1, 0);
    need(memory != MAP_FAILED && mprotect(memory, BELOW, PROT_NONE) == 0, "no memory");
    bottom = memory + BELOW;
    if (strcmp(asked, "--search") == 0 && count > 2) {
        search(strtoul(words[2], NULL, 10));
        return EXIT_SUCCESS;
    }
    for (int k = 0; k < LOADS; k++) make_load(&loads[k]);
    for (int k = 0; k < CALLS; k++) {
        if (strcmp(asked, "--low") != 0)
            printf("%-26s %6zu bytes of %6zu\n", calls[k].name, taken(&calls[k]), calls[k].stated);
        else if (!is_found_out(&calls[k])) {
            printf("stack: %s ends in less than it takes\n", calls[k].name);
            return EXIT_FAILURE;
        }
    }
    printf("%d calls %s\n", CALLS, strcmp(asked, "--low") == 0 ? "do not end in less stack than they take" : "in the stack that the header states");
    return EXIT_SUCCESS;
}

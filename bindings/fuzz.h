/* What the files of `bindings/fuzz` share: the slices that a call is handed, the draws, and an answer in one form. */
#ifndef FUZZ_H
#define FUZZ_H

#include <stddef.h>
#include <stdint.h>

#include "labrador.h"

#define Q LABRADOR_Q
#define HALF (Q / 2)

/* The slices. Each stands in memory of its own between two unreadable pages; inputs cannot be written there. */
enum {
    JOB,
    RANDOMNESS,
    WITNESS,
    TRANSCRIPT,
    LOWS,
    HIGHS,
    DIGITS,
    PROJECTION,
    VECTORS,
    FIRST_P,
    SECOND_P,
    INPUTS,
    SCRATCH = INPUTS,
    OUTPUT,
    MADE_JOB,
    MADE_WITNESS,
    MADE_RANDOMNESS,
    SLICES
};

/* the most words of a slice, 256 pages of 4096 bytes */
enum { MOST = 262144 };

typedef struct {
    const uint32_t *words; /* what an input holds */
    size_t length;         /* in items, as handed to the call */
    size_t width;          /* words of an item: 2 of an int64_t */
    uint32_t *at;          /* where the call finds it */
    size_t touched;        /* of a buffer: the first words that the call may change, */
    int zeroed;            /* and whether they are zero then */
    int used;
} slice;

extern slice slices[SLICES];
extern const char *const slice_names[SLICES];

/* A slice as a call's two operands. */
#define WORDS(s) slices[s].at, slices[s].length
#define NUMBERS(s) (const int64_t *)(const void *)slices[s].at, slices[s].length

/* The operands of a leaf call by place. */
extern uint32_t operands[128];

/* An answer: number, place, and all its other fields. */
typedef struct {
    uint32_t number;
    uint64_t place;
    size_t count;
    uint64_t values[96];
} answer;

/* fuzz_memory.c */
void make_rooms(void);
void place_slices(int turn, uint32_t salt);
const char *check_buffers(int turn, uint32_t salt);
const char *slice_beside(const void *address, int *past_its_end);

/* fuzz_draw.c */
void begin_draws(uint64_t seed, uint64_t call);
uint32_t draw(void);
uint32_t below(uint32_t count);
int one_in(uint32_t count);
uint32_t draw_word(void);
void hand_input(int s, const uint32_t *words, size_t length);
void lend_buffer(int s, size_t length);
uint32_t *stage(int s);
void change_word(int s);
void cut_or_extend(int s, const size_t *bounds, size_t count);

/* fuzz_pool.c */
typedef struct {
    labrador_parameters sizes;
    uint32_t *words[4]; /* JOB to TRANSCRIPT */
    size_t lengths[4];
} load;

/* the most sections of a slice, and the parameters of section one */
enum { SECTIONS = 12, PARAMETERS = sizeof(labrador_parameters) / sizeof(uint32_t) };

void make_loads(void);
const load *draw_load(void);
uint32_t draw_limit(void);
void fault(int s);
size_t sections(const uint32_t *words, size_t length, size_t *starts);

/* fuzz_slices.c */
labrador_parameters parameters_in_hand(void);
const char *judge_refusal_of(const labrador_parameters *p, const answer *a);
const char *judge_refusal(const answer *a);
size_t about(size_t need);
size_t scratch_need(const labrador_parameters *p);
int above(int s, uint64_t place, uint32_t most);

/* fuzz_sheds.c */
extern uint32_t run_first, run_end;

/* fuzz_many.c */
extern uint32_t many_count;

/* fuzz_load.c */
extern labrador_parameters load_parameters;
extern uint32_t load_seed;

/* The calls, a row each. */
typedef struct {
    const char *name;
    uint32_t share;
    void (*draw)(void);
    answer (*call)(void);
    const char *(*judge)(const answer *);
    uint8_t numbers[24]; /* of its refusals and failed checks */
} row;

extern const row *in_hand; /* none before the first */

#define CALL(name, share, draw, call, judge, ...) \
    void draw(void);                              \
    const char *judge(const answer *);
#include "fuzz_calls.h"
#undef CALL

#endif

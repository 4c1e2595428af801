/* Memory for the slices: rooms of whole pages between two unreadable ones, seen twice. The view that is handed to a call is read-only for
   inputs; the other, which no call knows, is written and compared here. */
#define _GNU_SOURCE
#include <stdio.h>
#include <stdlib.h>
#include <string.h>
#include <sys/mman.h>
#include <unistd.h>

#include "fuzz.h"

typedef struct {
    uint32_t *handed, *own;
    size_t words;
} room;

/* The smallest room that fits is taken. */
enum { ROOMS = 5 };
static const size_t shares_of_most[ROOMS] = {256, 64, 16, 4, 1};
static room rooms[SLICES][ROOMS];
static size_t page;

static void *mapped(void *at, size_t bytes, int protection, int flags, int file) {
    void *p = mmap(at, bytes, protection, flags, file, 0);
    if (p == MAP_FAILED) {
        perror("fuzz: mmap");
        exit(EXIT_FAILURE);
    }
    return p;
}

static room make_room(size_t bytes, int protection) {
    int file = memfd_create("room", 0);
    if (file < 0 || ftruncate(file, (off_t)bytes) != 0) {
        perror("fuzz: memfd_create");
        exit(EXIT_FAILURE);
    }
    char *all = mapped(NULL, bytes + 2 * page, PROT_NONE, MAP_PRIVATE | MAP_ANONYMOUS, -1);
    room r;
    r.handed = mapped(all + page, bytes, protection, MAP_SHARED | MAP_FIXED, file);
    r.own = mapped(NULL, bytes, PROT_READ | PROT_WRITE, MAP_SHARED, file);
    r.words = bytes / sizeof *r.own;
    close(file);
    return r;
}

void make_rooms(void) {
    page = (size_t)sysconf(_SC_PAGESIZE);
    for (int s = 0; s < SLICES; s++)
        for (int k = 0; k < ROOMS; k++) {
            size_t bytes = MOST * sizeof(uint32_t) / shares_of_most[k];
            rooms[s][k] = make_room((bytes + page - 1) / page * page, s < INPUTS ? PROT_READ : PROT_READ | PROT_WRITE);
        }
}

static const room *room_of(int s) {
    size_t words = slices[s].length * slices[s].width;
    const room *r = rooms[s];
    while (r->words < words) r++;
    return r;
}

/* A slice ends at the unreadable page behind its room in turn 0, and begins after the one before it in turn 1. */
static size_t first_word(int s, int turn) { return turn == 0 ? room_of(s)->words - slices[s].length * slices[s].width : 0; }

/* What stands at a word of a room before a call. */
static uint32_t mark(size_t k, uint32_t salt) { return (uint32_t)k * 2654435761u ^ salt; }

void place_slices(int turn, uint32_t salt) {
    for (int s = 0; s < SLICES; s++) {
        if (!slices[s].used) continue;
        const room *r = room_of(s);
        size_t first = first_word(s, turn);
        if (s < INPUTS)
            memcpy(r->own + first, slices[s].words, slices[s].length * slices[s].width * sizeof(uint32_t));
        else
            for (size_t k = 0; k < r->words; k++) r->own[k] = mark(k, salt);
        slices[s].at = r->handed + first;
        slices[s].touched = 0;
        slices[s].zeroed = 0;
    }
}

static int marks_stay(const room *r, size_t from, size_t to, uint32_t salt) {
    uint32_t differ = 0;
    for (size_t k = from; k < to; k++) differ |= r->own[k] ^ mark(k, salt);
    return differ == 0;
}

static int all_zero(const uint32_t *words, size_t count) {
    uint32_t any = 0;
    for (size_t k = 0; k < count; k++) any |= words[k];
    return any == 0;
}

static uint32_t written[SLICES - INPUTS][MOST];

static const char *check_buffer(int s, int turn, uint32_t salt) {
    const room *r = room_of(s);
    size_t first = first_word(s, turn), touched = slices[s].touched;
    if (touched > slices[s].length) return "more is written than the buffer has";
    if (!marks_stay(r, 0, first, salt)) return "a word before the buffer is changed";
    if (!marks_stay(r, first + touched, r->words, salt)) return "a word beyond the need is changed";
    if (slices[s].zeroed && !all_zero(r->own + first, touched)) return "a word is not zero";
    if (turn == 0) memcpy(written[s - INPUTS], r->own + first, touched * sizeof(uint32_t));
    if (memcmp(written[s - INPUTS], r->own + first, touched * sizeof(uint32_t)) != 0) return "the same call writes something else";
    return NULL;
}

const char *check_buffers(int turn, uint32_t salt) {
    static char said[128];
    for (int s = INPUTS; s < SLICES; s++) {
        const char *wrong = slices[s].used ? check_buffer(s, turn, salt) : NULL;
        if (wrong) {
            snprintf(said, sizeof said, "%s: %s", slice_names[s], wrong);
            return said;
        }
    }
    return NULL;
}

const char *slice_beside(const void *address, int *past_its_end) {
    for (int s = 0; s < SLICES; s++)
        for (int k = 0; k < ROOMS; k++) {
            const char *from = (const char *)rooms[s][k].handed, *to = (const char *)(rooms[s][k].handed + rooms[s][k].words);
            const char *at = address;
            *past_its_end = at >= to;
            if (at >= from - page && at < to + page) return slice_names[s];
        }
    return NULL;
}

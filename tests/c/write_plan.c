/* write_plan.c: each format's write_plan on plans of every kind of length: each refusal, each pair, and the file between guards. */
#include <stdio.h>

#include "image.h"

enum { ROWS = OWN_FIELDS, WORDS_MORE, OUT_MORE, LENGTH_LEN };

static const uint32_t order[] = {LATCH_BAD_PLAN, LATCH_NO_ROOM, LATCH_DONE};

static struct faults of_plan(const struct format *format) {
    const struct fault rows[] = {
        {"a word more", LATCH_BAD_PLAN, {{WORDS_MORE, 1}}, 0},
        {"a word fewer", LATCH_BAD_PLAN, {{WORDS_MORE, -1}}, 0},
        {"half a row fewer", LATCH_BAD_PLAN, {{WORDS_MORE, -format->words / 2}}, 0},
        {"a row fewer but for a word", LATCH_BAD_PLAN, {{WORDS_MORE, 1 - format->words}}, 0},
        {"length empty", LATCH_NO_ROOM, {{LENGTH_LEN, 0}}, 0},
        {"length longer", LATCH_DONE, {{LENGTH_LEN, 3}}, 0},
        {"out one byte short", LATCH_NO_ROOM, {{OUT_MORE, -1}}, 0},
        {"out a block short", LATCH_NO_ROOM, {{OUT_MORE, -LATCH_BLOCK_BYTES}}, 0},
        {"out empty", LATCH_NO_ROOM, {{OUT_MORE, NONE}}, 0},
        {"out longer", LATCH_DONE, {{OUT_MORE, 3}}, 0},
        {"out a block longer", LATCH_DONE, {{OUT_MORE, LATCH_BLOCK_BYTES}}, 0},
    };
    return KEPT(rows);
}

/* Past the largest plan. A row more needs no block more. */
static struct faults of_largest(const struct format *format) {
    const struct fault rows[] = {{"a row more", LATCH_BAD_PLAN, {{WORDS_MORE, format->words}}, 0}};
    return KEPT(rows);
}

/* A plan without a job needs no room for bytes. */
static struct faults of_empty(const struct format *format) {
    const struct fault rows[] = {
        {"a word", LATCH_BAD_PLAN, {{WORDS_MORE, 1}}, 0},
        {"half a row", LATCH_BAD_PLAN, {{WORDS_MORE, format->words / 2}}, 0},
        {"a row but for a word", LATCH_BAD_PLAN, {{WORDS_MORE, format->words - 1}}, 0},
        {"length empty", LATCH_NO_ROOM, {{LENGTH_LEN, 0}}, 0},
        {"length longer", LATCH_DONE, {{LENGTH_LEN, 3}}, 0},
        {"out longer", LATCH_DONE, {{OUT_MORE, 3}}, 0},
    };
    return KEPT(rows);
}

static uint32_t make(const struct call *call, const int64_t *f, bool *kept) {
    const struct format *format = call->target;
    return write_kept(format, some_rows(), length(format->words * f[ROWS], f[WORDS_MORE]),
                      length((int64_t)image_size(format, (size_t)f[ROWS]), f[OUT_MORE]), (size_t)f[LENGTH_LEN], kept);
}

/* A plan without a job is done and has no bytes, whatever the pointers of its empty lists are; 45 still refuses it. */
static void empty(const struct format *format) {
    static uint8_t byte;
    void *const nowhere[] = {NULL, (void *)1, (void *)16, &byte};
    for (size_t k = 0; k < 4 * 4 * 4; k++) {
        size_t length[] = {99, 77};
        void *plan = nowhere[k % 4], *out = nowhere[k / 4 % 4], *none = nowhere[k / 16];
        uint32_t done = format->write(plan, 0, out, 0, length, 1);
        uint32_t refused = format->write(plan, 0, out, 0, none, 0);
        check(done == LATCH_DONE && refused == LATCH_NO_ROOM && length[0] == 0 && length[1] == 77 && byte == 0,
              "%s: an empty plan, pointers %zu: %u, %u, length %zu", format->name, k, done, refused, length[0]);
    }
}

/* Plans of about one, two and three blocks, and of about the largest file's full ones. */
static void some(const struct format *format) {
    const int r = format->rows, last = format->last;
    const int rows[] = {1,     2,         r - 1,    r,    r + 1,    r + 2, 2 * r - 1, 2 * r, 2 * r + 1,
                        3 * r, 3 * r + 1, last - 1, last, last + 1, 1023,  1024};
    const struct faults plain = of_plan(format), largest = of_largest(format);
    for (size_t i = 0; i < COUNT(rows); i++) {
        struct call call = {.order = order, .tables = {plain}, .make = make, .plain = {[ROWS] = rows[i], [LENGTH_LEN] = 1},
                            .target = format};
        if (rows[i] == LATCH_JOBS_MOST) call.tables[1] = largest;
        snprintf(call.name, sizeof call.name, "%s_write_plan of %d rows", format->name, rows[i]);
        try_faults(&call);
    }
}

void test_write_plan(void) {
    for (size_t i = 0; i < COUNT(formats); i++) {
        const struct format *format = &formats[i];
        struct call none = {.order = order, .tables = {of_empty(format)}, .make = make, .plain = {[LENGTH_LEN] = 1},
                            .target = format};
        some(format);
        snprintf(none.name, sizeof none.name, "%s_write_plan of no rows", format->name);
        try_faults(&none);
        empty(format);
    }
}

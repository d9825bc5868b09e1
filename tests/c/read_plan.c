/* read_plan.c: each format's read_plan on files with faults in one block: each refusal, each pair, and what a call must keep. */
#include <stdio.h>
#include <string.h>

#include "block_faults.h"

#define PLAIN_FILE(rows, block) \
    {[ROWS] = (rows), [BLOCK] = (block), [USED] = NONE, [ZERO_AT] = NONE, [TOO_AT] = NONE, [CHANGED] = NONE, [ROWS_LEN] = 1}

static const uint32_t order[] = {LATCH_NOT_BLOCKS, LATCH_BAD_CHECK, LATCH_OUT_OF_TURN, LATCH_BAD_USED, LATCH_NOT_ZERO,
                                 LATCH_NO_ROOM, LATCH_DONE};

/* Which blocks of three a file has, in order. The first is the file as it is. */
static const char *const picks[] = {"012", "102", "210", "12", "2", "021", "002", "0012", "02", "011", "010", "0112", "0122"};

/* Changes the block that the fields name. */
static void change_block(const struct format *format, const int64_t *f, uint8_t *block) {
    if (f[INDEX_MORE] != 0) put_word(block, (uint32_t)(f[BLOCK] + f[INDEX_MORE]));
    if (f[USED] != NONE) put_word(block + USED_AT, (uint32_t)f[USED]);
    if (f[USED] != NONE && f[USED] < format->rows)
        memset(block + format->rows_at + f[USED] * format->row_bytes, 0, (size_t)((format->rows - f[USED]) * format->row_bytes));
    if (f[ZERO_AT] != NONE) block[f[ZERO_AT]] = (uint8_t)f[ZERO_IS];
    if (f[TOO_AT] != NONE) block[f[TOO_AT]] = (uint8_t)f[TOO_IS];
    mend(block);
    if (f[CHANGED] != NONE) block[f[CHANGED]] ^= (uint8_t)(1 << f[CHANGED] / 4 % 8);
}

/* Makes the file of the fields; gives its length. */
static size_t make_file(const struct format *format, const int64_t *f, uint8_t *bytes) {
    size_t len = image_size(format, (size_t)f[ROWS]);
    image_bytes whole;
    image_of(format, some_rows(), (size_t)f[ROWS], bytes);
    if (f[PICK] != 0) {
        const char *pick = picks[f[PICK]];
        memcpy(whole, bytes, len);
        len = strlen(pick) * LATCH_BLOCK_BYTES;
        for (size_t k = 0; pick[k]; k++)
            memcpy(bytes + k * LATCH_BLOCK_BYTES, whole + (pick[k] - '0') * LATCH_BLOCK_BYTES, LATCH_BLOCK_BYTES);
    }
    change_block(format, f, bytes + f[BLOCK] * LATCH_BLOCK_BYTES);
    return length((int64_t)len, f[LEN_MORE]);
}

static uint32_t make(const struct call *call, const int64_t *f, bool *kept) {
    static image_bytes bytes;
    const struct format *format = call->target;
    size_t len = make_file(format, f, bytes);
    return read_kept(format, bytes, len, length(format->words * f[ROWS], f[PLAN_MORE]), (size_t)f[ROWS_LEN], some_rows(),
                     (size_t)f[ROWS], kept);
}

/* Of two full blocks and three rows more, of one row, and of the largest plan. */
static void try_format(const struct format *f) {
    const int three = 2 * f->rows + 3;
    const struct faults lists = of_lists(f), head = of_head(f), places = of_places(f);
    struct call calls[] = {
        {"first of three", order, {lists, head, of_first(f), places}, PLAIN_FILE(three, 0), make, f},
        {"second of three", order, {lists, head, of_second(f), places}, PLAIN_FILE(three, 1), make, f},
        {"last of three", order, {lists, head, of_last(f), places}, PLAIN_FILE(three, 2), make, f},
        {"a block alone", order, {lists, head, of_alone(f), places}, PLAIN_FILE(1, 0), make, f},
        {"last of the most", order, {lists, head, of_largest(f)}, PLAIN_FILE(LATCH_JOBS_MOST, f->most - 1), make, f},
    };
    for (size_t i = 0; i < COUNT(calls); i++) {
        char name[sizeof calls[i].name];
        snprintf(name, sizeof name, "%s_read_plan, %.40s", f->name, calls[i].name);
        memcpy(calls[i].name, name, sizeof name);
        try_faults(&calls[i]);
    }
}

void test_read_plan(void) {
    for (size_t i = 0; i < COUNT(formats); i++) try_format(&formats[i]);
}

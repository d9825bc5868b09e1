/* block_faults.c: the faults that read_plan's test puts into a plan's file, by the numbers of its format. */
#include "block_faults.h"

#include <stdio.h>

struct faults of_lists(const struct format *f) {
    const struct fault rows[] = {
        {"a byte more", LATCH_NOT_BLOCKS, {{LEN_MORE, 1}}, 0},
        {"a byte fewer", LATCH_NOT_BLOCKS, {{LEN_MORE, -1}}, 0},
        {"a block more but for a byte", LATCH_NOT_BLOCKS, {{LEN_MORE, LATCH_BLOCK_BYTES - 1}}, 0},
        {"a block fewer but for a byte", LATCH_NOT_BLOCKS, {{LEN_MORE, 1 - LATCH_BLOCK_BYTES}}, 0},
        {"plan one word short", LATCH_NO_ROOM, {{PLAN_MORE, -1}}, 0},
        {"plan one row short", LATCH_NO_ROOM, {{PLAN_MORE, -f->words}}, 0},
        {"plan empty", LATCH_NO_ROOM, {{PLAN_MORE, NONE}}, 0},
        {"plan longer", LATCH_DONE, {{PLAN_MORE, 3}}, 0},
        {"plan rows longer", LATCH_DONE, {{PLAN_MORE, 20 * f->words}}, 0},
        {"rows empty", LATCH_NO_ROOM, {{ROWS_LEN, 0}}, 0},
        {"rows longer", LATCH_DONE, {{ROWS_LEN, 3}}, 0},
    };
    return KEPT(rows);
}

struct faults of_head(const struct format *f) {
    const struct fault rows[] = {
        {"index one too large", LATCH_OUT_OF_TURN, {{INDEX_MORE, 1}}, 0},
        {"index one too small", LATCH_OUT_OF_TURN, {{INDEX_MORE, -1}}, 0},
        {"index 256 too large", LATCH_OUT_OF_TURN, {{INDEX_MORE, 256}}, 0},
        {"index 65536 too large", LATCH_OUT_OF_TURN, {{INDEX_MORE, 65536}}, 0},
        {"index 2^31 too large", LATCH_OUT_OF_TURN, {{INDEX_MORE, INT64_C(1) << 31}}, 0},
        {"no rows used", LATCH_BAD_USED, {{USED, 0}}, 0},
        {"one row too many used", LATCH_BAD_USED, {{USED, f->rows + 1}}, 0},
        {"all rows and 256 used", LATCH_BAD_USED, {{USED, 256 + f->rows}}, 0},
        {"65536 + 1 used", LATCH_BAD_USED, {{USED, 65536 + 1}}, 0},
        {"all rows used, big-endian", LATCH_BAD_USED, {{USED, f->rows << 24}}, 0},
        {"2^31 used", LATCH_BAD_USED, {{USED, INT64_C(1) << 31}}, 0},
        {"2^32 - 1 used", LATCH_BAD_USED, {{USED, UINT32_MAX}}, 0},
        {"zero bytes that add up to nothing", LATCH_NOT_ZERO, {{ZERO_AT, 8}, {ZERO_IS, 128}, {TOO_AT, 24}, {TOO_IS, 128}}, 0},
    };
    return KEPT(rows);
}

#define PICKED(number, pick) {"blocks of pick " #pick, number, {{PICK, pick}}, BIT(INDEX_MORE)}
#define NOT_ZERO(at, is) {"a byte that must be zero, " #at, LATCH_NOT_ZERO, {{ZERO_AT, at}, {ZERO_IS, is}}, 0}
#define NOT_FULL(f) {"one row too few used", LATCH_BAD_USED, {{USED, (f)->rows - 1}}, 0}, {"1 used", LATCH_BAD_USED, {{USED, 1}}, 0}

struct faults of_first(const struct format *f) {
    const struct fault rows[] = {
        PICKED(LATCH_OUT_OF_TURN, 1), PICKED(LATCH_OUT_OF_TURN, 2), PICKED(LATCH_OUT_OF_TURN, 3), PICKED(LATCH_OUT_OF_TURN, 4),
        NOT_FULL(f),
    };
    return KEPT(rows);
}

struct faults of_second(const struct format *f) {
    const struct fault rows[] = {
        PICKED(LATCH_OUT_OF_TURN, 5), PICKED(LATCH_OUT_OF_TURN, 6), PICKED(LATCH_OUT_OF_TURN, 7), PICKED(LATCH_OUT_OF_TURN, 8),
        {"index big-endian", LATCH_OUT_OF_TURN, {{INDEX_MORE, (1 << 24) - 1}}, 0}, NOT_FULL(f),
    };
    return KEPT(rows);
}

struct faults of_last(const struct format *f) {
    const struct fault rows[] = {
        PICKED(LATCH_OUT_OF_TURN, 9), PICKED(LATCH_OUT_OF_TURN, 10), PICKED(LATCH_OUT_OF_TURN, 11), PICKED(LATCH_BAD_USED, 12),
        {"index big-endian", LATCH_OUT_OF_TURN, {{INDEX_MORE, (2 << 24) - 2}}, 0},
        NOT_ZERO(f->rows_at + 3 * f->row_bytes, 1), NOT_ZERO(f->rows_at + 4 * f->row_bytes - 1, 128),
        NOT_ZERO(CHECK_AT - f->row_bytes, 255), NOT_ZERO(CHECK_AT - 1, 1),
    };
    return KEPT(rows);
}

struct faults of_alone(const struct format *f) {
    const struct fault rows[] = {
        NOT_ZERO(f->rows_at + f->row_bytes, 1), NOT_ZERO(f->rows_at + 2 * f->row_bytes - 1, 128), NOT_ZERO(CHECK_AT - 1, 255),
    };
    return KEPT(rows);
}

struct faults of_largest(const struct format *f) {
    const int used = LATCH_JOBS_MOST - f->last, index = f->most - 1;
    const struct fault rows[] = {
        {"a block more", LATCH_NOT_BLOCKS, {{LEN_MORE, LATCH_BLOCK_BYTES}}, 0},
        {"index big-endian", LATCH_OUT_OF_TURN, {{INDEX_MORE, (INT64_C(1) << 24) * index - index}}, 0},
        {"1025 jobs", LATCH_BAD_USED, {{USED, used + 1}}, 0}, {"all rows used", LATCH_BAD_USED, {{USED, f->rows}}, 0},
        {"check", LATCH_BAD_CHECK, {{CHANGED, CHECK_AT}}, 0}, {"last row", LATCH_BAD_CHECK, {{CHANGED, CHECK_AT - 1}}, 0},
        NOT_ZERO(f->rows_at + used * f->row_bytes, 1), NOT_ZERO(CHECK_AT - 1, 1), NOT_ZERO(ZEROS_AT, 1), NOT_ZERO(f->rows_at - 1, 1),
    };
    return KEPT(rows);
}

struct faults of_places(const struct format *f) {
    enum { WORDS = LATCH_BLOCK_BYTES / 4, MOST = LATCH_BLOCK_BYTES };
    static struct fault rows[WORDS + MOST];
    static char names[WORDS + MOST][32];
    int zeros = f->rows_at - ZEROS_AT;
    for (int i = 0; i < WORDS + zeros; i++) {
        bool word = i < WORDS;
        int at = word ? 4 * i + i % 4 : ZEROS_AT + i - WORDS;
        snprintf(names[i], sizeof names[i], "byte %d %s", at, word ? "changed" : "not zero");
        if (word) rows[i] = (struct fault){names[i], LATCH_BAD_CHECK, {{CHANGED, at}}, 0};
        else rows[i] = (struct fault){names[i], LATCH_NOT_ZERO, {{ZERO_AT, at}, {ZERO_IS, INT64_C(1) << i % 8}}, 0};
    }
    return (struct faults){rows, (size_t)(WORDS + zeros)};
}

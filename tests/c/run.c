/* run.c: latch_run on a plan of three jobs in every mode: each refusal of the run and of a job, each pair, and what it keeps. */
#include <stdio.h>
#include <string.h>

#include "plan.h"

enum { ORDER = ROW_FIELDS, ORDER_MORE, ANSWERS_MORE };
enum { JOBS = 3 };

/* The run's own refusals, and then those of the first job, which the answer list tells. */
static const uint32_t order[] = {
    LATCH_BAD_PLANE, LATCH_BAD_PLAN, LATCH_NOT_EACH_ONCE, LATCH_PAIR_TURNED, LATCH_BAD_SIZE, LATCH_BAD_DEPTH, LATCH_BAD_MODE,
    LATCH_OUTSIDE_PLANE, LATCH_NO_NEIGHBOUR, LATCH_BAD_BASE, LATCH_NO_DIFFERENCES, LATCH_BAD_SAMPLE, LATCH_DONE};

/* The first row is the fields'. The two others touch, and the right one reads the left; the first row's plain block neither
 * reads nor writes what they do. They are of other depths, and need sixteen differences. */
static const row_words others[] = {
    {[LATCH_X] = 8, [LATCH_Y] = 4, [LATCH_B] = 4, [LATCH_D] = 10, [LATCH_BASE] = 1022},
    {[LATCH_X] = 12, [LATCH_Y] = 4, [LATCH_B] = 4, [LATCH_D] = 12, [LATCH_MODE] = LATCH_MODE_SMOOTH,
     [LATCH_FLAGS] = LATCH_HAVE_LEFT, [LATCH_AVAILABLE_LEFT] = 4},
};

/* The orders that ORDER tells; a longer order goes on with the last entry. */
static const uint16_t orders[][JOBS + 1] = {
    {0, 1, 2, 3}, {1, 0, 2, 3}, {1, 2, 0, 3}, {0, 2, 1, 3}, {2, 1, 0, 3}, {2, 0, 1, 3},
    {0, 1, 1, 3}, {0, 0, 2, 3}, {2, 2, 2, 3}, {0, 1, 3, 3}, {3, 1, 2, 0}, {0, 1, 65535, 3}, {2, 1, 1, 3}, {0, 257, 2, 3},
};

static const struct fault faults[] = {
    {"order one short", LATCH_BAD_PLAN, {{ORDER_MORE, -1}}, 0},
    {"order one longer", LATCH_BAD_PLAN, {{ORDER_MORE, 1}}, 0},
    {"order empty", LATCH_BAD_PLAN, {{ORDER_MORE, NONE}}, 0},
    {"answers one short", LATCH_BAD_PLAN, {{ANSWERS_MORE, -1}}, 0},
    {"answers one longer", LATCH_BAD_PLAN, {{ANSWERS_MORE, 1}}, 0},
    {"answers empty", LATCH_BAD_PLAN, {{ANSWERS_MORE, NONE}}, 0},
    {"a row less", LATCH_BAD_PLAN, {{WORDS_MORE, -LATCH_ROW_WORDS}}, 0},
    {"order and answers of two", LATCH_BAD_PLAN, {{ORDER_MORE, -1}, {ANSWERS_MORE, -1}}, BIT(WORDS_MORE)},
    {"order 1 0 2", LATCH_DONE, {{ORDER, 1}}, ABOVE_BITS | LEFT_BITS},
    {"order 1 2 0", LATCH_DONE, {{ORDER, 2}}, ABOVE_BITS | LEFT_BITS},
    {"order 0 2 1", LATCH_PAIR_TURNED, {{ORDER, 3}}, 0},
    {"order 2 1 0", LATCH_PAIR_TURNED, {{ORDER, 4}}, 0},
    {"order 2 0 1", LATCH_PAIR_TURNED, {{ORDER, 5}}, 0},
    {"order 0 1 1", LATCH_NOT_EACH_ONCE, {{ORDER, 6}}, 0},
    {"order 0 0 2", LATCH_NOT_EACH_ONCE, {{ORDER, 7}}, 0},
    {"order 2 2 2", LATCH_NOT_EACH_ONCE, {{ORDER, 8}}, 0},
    {"order 0 1 3", LATCH_NOT_EACH_ONCE, {{ORDER, 9}}, 0},
    {"order 3 1 2", LATCH_NOT_EACH_ONCE, {{ORDER, 10}}, 0},
    {"order 0 1 65535", LATCH_NOT_EACH_ONCE, {{ORDER, 11}}, 0},
    {"order 2 1 1", LATCH_NOT_EACH_ONCE, {{ORDER, 12}}, 0},
    {"order 0 257 2", LATCH_NOT_EACH_ONCE, {{ORDER, 13}}, 0},
};

static struct zone plane_zone, differences_zone;

/* The answer is the run's, or else the first job's. A plan that is too long has the first row once more. */
static uint32_t make(const struct call *call, const int64_t *f, bool *kept) {
    int64_t most = (INT64_C(1) << call->plain[D]) - 1;
    size_t plane_len, differences_len;
    float *plane = block_plane(&plane_zone, f, most, &plane_len);
    const int16_t *differences = differences_of(&differences_zone, f, &differences_len);
    row_words rows[JOBS + 1];
    row_of(f, most, rows[0]);
    row_of(f, most, rows[JOBS]);
    memcpy(&rows[1], others, sizeof others);
    struct run run = {.width = (size_t)f[WIDTH], .height = (size_t)f[HEIGHT], .plan = (const uint16_t *)rows,
                      .plan_len = length(JOBS * LATCH_ROW_WORDS, f[WORDS_MORE]), .order = orders[f[ORDER]],
                      .order_len = length(JOBS, f[ORDER_MORE]), .answers_len = length(JOBS, f[ANSWERS_MORE])};
    uint16_t answers[JOBS + 1] = {0};
    uint32_t answer = run_over(&plane_zone, plane, plane_len, &run, differences, differences_len, answers, kept);
    *kept = *kept && zone_kept(&differences_zone, 0);
    return answer == LATCH_DONE ? answers[0] : answer;
}

void test_run(void) {
    for (int64_t mode = 0; mode < 5; mode++) {
        int64_t d = 8 + 2 * (mode % 3);
        struct call call = {.order = order, .tables = {size_faults, block_faults, row_faults, mode_5_faults, mode_faults(mode),
                                            FAULTS(faults)},
                            .make = make, .plain = {PLAIN_ROW(d, mode)}};
        snprintf(call.name, sizeof call.name, "latch_run D %d mode %d", (int)d, (int)mode);
        try_faults(&call);
    }
}

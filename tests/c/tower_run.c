/* tower_run.c: tower_run on a plan of three jobs, the first in every mode: each refusal of the run and of a job, each pair, what it keeps. */
#include "tower.h"

#include <stdio.h>
#include <string.h>

enum { ORDER = TOWER_FIELDS, ORDER_MORE, ANSWERS_MORE };
enum { JOBS = 3 };
_Static_assert((int)ANSWERS_MORE < (int)FIELDS_MOST, "the fields are too many");

/* The run's own refusals, and then those of the first job, which the answer list tells. */
static const uint32_t order[] = {
    LATCH_BAD_PLANE, LATCH_BAD_PLAN, LATCH_NOT_EACH_ONCE, LATCH_PAIR_TURNED, LATCH_BAD_SIZE, LATCH_BAD_DEPTH, LATCH_BAD_MODE,
    LATCH_OUTSIDE_PLANE, LATCH_NO_NEIGHBOUR, LATCH_BAD_BASE, LATCH_NO_DIFFERENCES, LATCH_BAD_COLOUR_DIRECTION, LATCH_BAD_REFERENCE,
    LATCH_BAD_LINES, LATCH_BAD_SAMPLE, LATCH_SUM_TOO_LARGE, LATCH_DONE};

/* The first row is the fields', on plane 0 or 1. The two others touch on plane 2, and the right one, a colour job, reads the left. Its luma
 * window is in the last three rows and last four columns, where the first row's plain job neither reads nor writes. They need sixteen
 * differences. */
static const tower_row others[] = {
    {[LATCH_X] = 0, [LATCH_Y] = 0, [LATCH_B] = 4, [LATCH_D] = 10, [LATCH_BASE] = 1022, [TOWER_PLANE] = 2},
    {[LATCH_X] = 2, [LATCH_Y] = 4, [LATCH_D] = 12, [LATCH_MODE] = TOWER_MODE_COLOUR, [TOWER_PLANE] = 2, [TOWER_ABOVE_LINES] = 2,
     [TOWER_REF_WIDTH] = 4, [TOWER_REF_HEIGHT] = 3, [TOWER_WIDTH] = 2, [TOWER_HEIGHT] = 1},
};

/* The orders that ORDER tells; a longer order goes on with the last entry. */
static const uint16_t orders[][JOBS + 1] = {
    {0, 1, 2, 3}, {1, 0, 2, 3}, {1, 2, 0, 3}, {0, 2, 1, 3}, {2, 1, 0, 3}, {2, 0, 1, 3},
    {0, 1, 1, 3}, {0, 0, 2, 3}, {2, 2, 2, 3}, {0, 1, 3, 3}, {3, 1, 2, 0}, {0, 1, 65535, 3}, {2, 1, 1, 3}, {0, 257, 2, 3},
};

#define ROW_BITS (ABOVE_BITS | LEFT_BITS | ACROSS_BITS | DOWN_BITS | BIT(PLANE_NUMBER))
static const struct fault faults[] = {
    {"order one short", LATCH_BAD_PLAN, {{ORDER_MORE, -1}}, 0},
    {"order one longer", LATCH_BAD_PLAN, {{ORDER_MORE, 1}}, 0},
    {"order empty", LATCH_BAD_PLAN, {{ORDER_MORE, NONE}}, 0},
    {"answers one short", LATCH_BAD_PLAN, {{ANSWERS_MORE, -1}}, 0},
    {"answers one longer", LATCH_BAD_PLAN, {{ANSWERS_MORE, 1}}, 0},
    {"answers empty", LATCH_BAD_PLAN, {{ANSWERS_MORE, NONE}}, 0},
    {"a row less", LATCH_BAD_PLAN, {{WORDS_MORE, -TOWER_ROW_WORDS}}, 0},
    {"a row more", LATCH_BAD_PLAN, {{WORDS_MORE, TOWER_ROW_WORDS}}, 0},
    {"order and answers of two", LATCH_BAD_PLAN, {{ORDER_MORE, -1}, {ANSWERS_MORE, -1}}, BIT(WORDS_MORE)},
    {"order and answers of four", LATCH_BAD_PLAN, {{ORDER_MORE, 1}, {ANSWERS_MORE, 1}}, BIT(WORDS_MORE)},
    {"order 1 0 2", LATCH_DONE, {{ORDER, 1}}, ROW_BITS},
    {"order 1 2 0", LATCH_DONE, {{ORDER, 2}}, ROW_BITS},
    {"order 0 2 1", LATCH_PAIR_TURNED, {{ORDER, 3}}, 0},
    {"order 2 1 0", LATCH_PAIR_TURNED, {{ORDER, 4}}, 0},
    {"order 2 0 1", LATCH_PAIR_TURNED, {{ORDER, 5}}, 0},
    {"order 0 1 1", LATCH_NOT_EACH_ONCE, {{ORDER, 6}}, 0},
    {"order 0 0 2", LATCH_NOT_EACH_ONCE, {{ORDER, 7}}, 0},
    {"order 2 2 2", LATCH_NOT_EACH_ONCE, {{ORDER, 8}}, 0},
    {"order 0 1 3", LATCH_NOT_EACH_ONCE, {{ORDER, 9}}, 0},
    {"order 3 1 2", LATCH_NOT_EACH_ONCE, {{ORDER, 10}}, 0},
    {"order 0 1 65535", LATCH_NOT_EACH_ONCE, {{ORDER, 11}}, 0},
    {"order 2 1 1", LATCH_NOT_EACH_ONCE, {{ORDER, 12}}, 0},
    {"order 0 257 2", LATCH_NOT_EACH_ONCE, {{ORDER, 13}}, 0},
};

static struct planes planes;
static struct zone differences_zone;

/* The answer is the run's, or else the first job's. A plan that is too long has the first row once more. */
static uint32_t make(const struct call *call, const int64_t *f, bool *kept) {
    int64_t most = (INT64_C(1) << call->plain[D]) - 1;
    size_t differences_len;
    lend_planes(&planes, f, most);
    const int16_t *differences = differences_of(&differences_zone, f, &differences_len);
    tower_row rows[JOBS + 1];
    tower_row_of(f, most, rows[0]);
    tower_row_of(f, most, rows[JOBS]);
    memcpy(&rows[1], others, sizeof others);
    rows[2][TOWER_LUMA_Y] = (uint16_t)(call->plain[HEIGHT] - 3);
    rows[2][TOWER_LUMA_X] = (uint16_t)(call->plain[WIDTH] - 4);
    struct run run = {.width = (size_t)f[WIDTH], .height = (size_t)f[HEIGHT], .plan = (const uint16_t *)rows,
                      .plan_len = length(JOBS * TOWER_ROW_WORDS, f[WORDS_MORE]), .order = orders[f[ORDER]],
                      .order_len = length(JOBS, f[ORDER_MORE]), .answers_len = length(JOBS, f[ANSWERS_MORE])};
    uint16_t answers[JOBS + 1] = {0};
    uint32_t answer = tower_over(&planes, &run, differences, differences_len, answers, kept);
    *kept = *kept && zone_kept(&differences_zone, 0);
    return answer == LATCH_DONE ? answers[0] : answer;
}

void test_tower_run(void) {
    for (int64_t mode = 0; mode < 5; mode++) {
        int64_t d = 8 + 2 * (mode % 3), plane = mode % 2;
        struct call call = {.order = order, .make = make, .plain = {PLAIN_TOWER(d, mode, plane)},
                            .tables = {size_faults, block_faults, row_faults, mode_faults(mode), planes_faults, words_faults,
                                       FAULTS(faults)}};
        snprintf(call.name, sizeof call.name, "tower_run D %d mode %d", (int)d, (int)mode);
        try_faults(&call);
    }
    struct call calls[] = {
        {.plain = {PLAIN_COLOUR(8), SMALL_COLOUR}, .tables = {colour_row_faults, planes_faults, small_faults, sample_faults, FAULTS(faults)}},
        {.plain = {PLAIN_COLOUR(10), WIDE_COLOUR}, .tables = {colour_row_faults, planes_faults, wide_faults, FAULTS(faults)}},
        {.plain = {PLAIN_COLOUR(12), TALL_COLOUR}, .tables = {colour_row_faults, planes_faults, tall_faults, FAULTS(faults)}}};
    for (size_t i = 0; i < COUNT(calls); i++) {
        calls[i].order = order;
        calls[i].make = make;
        snprintf(calls[i].name, sizeof calls[i].name, "tower_run D %d mode 5", (int)calls[i].plain[D]);
        try_faults(&calls[i]);
    }
}

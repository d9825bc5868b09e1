/* tower_job.c: tower_run_job in every mode on every plane: each refusal, each pair, and what it keeps; of colour jobs also long windows. */
#include "tower.h"

#include <stdio.h>

static struct planes planes;
static struct zone row_zone, differences_zone;

/* Two rows are made, for a row that is too long; of a job that is done the first library's calls say what it writes. */
static uint32_t make(const struct call *call, const int64_t *f, bool *kept) {
    int64_t most = (INT64_C(1) << call->plain[D]) - 1;
    size_t differences_len, row_len = length(TOWER_ROW_WORDS, f[WORDS_MORE]);
    lend_planes(&planes, f, most);
    const int16_t *differences = differences_of(&differences_zone, f, &differences_len);
    tower_row rows[2];
    tower_row_of(f, most, rows[0]);
    tower_row_of(f, most, rows[1]);
    uint16_t *row = zone_lend(&row_zone, row_len * sizeof *row);
    for (size_t i = 0; i < row_len; i++) row[i] = rows[i / TOWER_ROW_WORDS][i % TOWER_ROW_WORDS];
    zone_remember(&row_zone);
    size_t width = (size_t)f[WIDTH], height = (size_t)f[HEIGHT];
    uint32_t answer = tower_job(&planes, width, height, row, row_len, differences, differences_len);
    if (answer == LATCH_DONE) tower_due(&planes, width, height, rows[0], differences);
    *kept = planes_kept(&planes) && zone_kept(&row_zone, 0) && zone_kept(&differences_zone, 0);
    return answer;
}

/* The first library's faults on one of the planes, with those of the new words. */
static void plain_modes(void) {
    for (int64_t mode = 0; mode < 5; mode++) {
        int64_t plane = (mode + 1) % 3, d = 8 + 2 * (mode % 3);
        struct call call = {.order = tower_order, .make = make, .plain = {PLAIN_TOWER(d, mode, plane)},
                            .tables = {size_faults, block_faults, row_faults, mode_faults(mode), planes_faults, words_faults}};
        snprintf(call.name, sizeof call.name, "tower_run_job D %d mode %d plane %d", (int)d, (int)mode, (int)plane);
        try_faults(&call);
    }
}

/* Without differences: a colour job has none, and any other list than an empty one is as good. */
static const struct fault no_differences[] = {
    {"no differences", LATCH_DONE, {{START, 65535}, {DIFFERENCES_MORE, NONE}}, 0},
    {"differences longer", LATCH_DONE, {{DIFFERENCES_MORE, 300}}, BIT(START)},
};

static void colour_modes(void) {
    for (int64_t d = 8; d <= 12; d += 2) {
        struct call calls[] = {
            {.plain = {PLAIN_COLOUR(d), SMALL_COLOUR},
             .tables = {colour_row_faults, planes_faults, small_faults, sample_faults, FAULTS(no_differences)}},
            {.plain = {PLAIN_COLOUR(d), WIDE_COLOUR}, .tables = {colour_row_faults, planes_faults, wide_faults}},
            {.plain = {PLAIN_COLOUR(d), TALL_COLOUR}, .tables = {colour_row_faults, planes_faults, tall_faults}}};
        for (size_t i = 0; i < COUNT(calls); i++) {
            calls[i].order = tower_order;
            calls[i].make = make;
            snprintf(calls[i].name, sizeof calls[i].name, "tower_run_job D %d mode 5, planes of %d by %d", (int)d,
                     (int)calls[i].plain[WIDTH], (int)calls[i].plain[HEIGHT]);
            try_faults(&calls[i]);
        }
    }
}

/* The ends of what the planes' sides may be, with the smallest colour job. */
static void sides(void) {
    static const int64_t ends[] = {3, 4, 4096, 4097};
    for (size_t i = 0; i < 2 * COUNT(ends); i++) {
        int64_t side = ends[i / 2], width = i % 2 ? 8 : side, height = i % 2 ? side : 8;
        const struct call call = {.plain = {[D] = 8}};
        const int64_t f[FIELDS_MOST] = {ANY_COLOUR(8), [PLANE_NUMBER] = 1, [WIDTH] = width, [HEIGHT] = height, [X] = width - 1, [Y] = height - 1,
                                        [LUMA_X] = width - 1, [LUMA_Y] = height - 1, [REF_WIDTH] = 1, [REF_HEIGHT] = 1,
                                        [COLOUR_WIDTH] = 1, [COLOUR_HEIGHT] = 1};
        uint32_t due = side < 4 || side > 4096 ? LATCH_BAD_PLANE : LATCH_DONE;
        bool kept = false;
        uint32_t got = make(&call, f, &kept);
        check(got == due && kept, "tower_run_job, width %d, height %d: %u, not %u, kept %d", (int)width, (int)height, got, due, kept);
    }
}

void test_tower_job(void) {
    plain_modes();
    colour_modes();
    sides();
}

/* run_job.c: latch_run_job in every mode: each refusal, each pair, what it keeps, the plane's sides and the differences' end. */
#include <stdio.h>

#include "plan.h"

static const uint32_t order[] = {
    LATCH_BAD_PLANE, LATCH_BAD_PLAN, LATCH_BAD_SIZE, LATCH_BAD_DEPTH, LATCH_BAD_MODE, LATCH_OUTSIDE_PLANE, LATCH_NO_NEIGHBOUR,
    LATCH_BAD_BASE, LATCH_NO_DIFFERENCES, LATCH_BAD_SAMPLE, LATCH_DONE};

static const struct fault faults[] = {
    {"no differences", LATCH_NO_DIFFERENCES, {{DIFFERENCES_MORE, NONE}}, 0},
    {"no differences, start 0", LATCH_NO_DIFFERENCES, {{START, 0}, {DIFFERENCES_MORE, NONE}}, 0},
};

static struct zone plane_zone, row_zone, differences_zone;

/* Two rows are made, for a row that is too long; of a job that is done the direct calls say what it writes. */
static uint32_t make(const struct call *call, const int64_t *f, bool *kept) {
    int64_t most = (INT64_C(1) << call->plain[D]) - 1;
    size_t plane_len, differences_len, row_len = length(LATCH_ROW_WORDS, f[WORDS_MORE]);
    float *plane = block_plane(&plane_zone, f, most, &plane_len);
    const int16_t *differences = differences_of(&differences_zone, f, &differences_len);
    row_words rows[2];
    row_of(f, most, rows[0]);
    row_of(f, most, rows[1]);
    uint16_t *row = zone_lend(&row_zone, row_len * sizeof *row);
    for (size_t i = 0; i < row_len; i++) row[i] = rows[i / LATCH_ROW_WORDS][i % LATCH_ROW_WORDS];
    zone_remember(&row_zone);
    size_t width = (size_t)f[WIDTH], height = (size_t)f[HEIGHT];
    uint32_t answer = latch_run_job(plane, plane_len, width, height, row, row_len, differences, differences_len);
    if (answer == LATCH_DONE) job_due(zone_due(&plane_zone), width, height, rows[0], differences);
    *kept = zone_kept(&plane_zone, 0) && zone_kept(&row_zone, 0) && zone_kept(&differences_zone, 0);
    return answer;
}

static struct call plain_call(int64_t d, int64_t mode) {
    struct call call = {.order = order, .tables = {size_faults, block_faults, row_faults, mode_5_faults, mode_faults(mode),
                                            FAULTS(faults)},
                        .make = make, .plain = {PLAIN_ROW(d, mode)}};
    snprintf(call.name, sizeof call.name, "latch_run_job D %d mode %d", (int)d, (int)mode);
    return call;
}

/* A fault of its own, which stands in no table. */
static void try_alone(const struct call *call, const char *name, uint32_t due, const int64_t *f) {
    bool kept = false;
    uint32_t got = make(call, f, &kept);
    check(got == due && kept, "%s, %s: %u, not %u, kept %d", call->name, name, got, due, kept);
}

/* The ends of what a plane's sides may be, with a block that the smallest plane holds. */
static void try_sides(const struct call *call) {
    static const struct { int64_t width, height; uint32_t due; } sides[] = {
        {3, 8, LATCH_BAD_PLANE}, {4, 8, LATCH_DONE}, {4096, 8, LATCH_DONE}, {4097, 8, LATCH_BAD_PLANE}, {8, 3, LATCH_BAD_PLANE},
        {8, 4, LATCH_DONE}, {8, 4096, LATCH_DONE}, {8, 4097, LATCH_BAD_PLANE}, {4, 4, LATCH_DONE}};
    for (size_t i = 0; i < COUNT(sides); i++) {
        const int64_t f[FIELDS_MOST] = {[WIDTH] = sides[i].width, [HEIGHT] = sides[i].height, [B] = 4, [D] = call->plain[D],
                                        [MODE] = call->plain[MODE], [BASE] = 128, [SAMPLE_AT] = NOWHERE};
        char name[64];
        snprintf(name, sizeof name, "width %d, height %d", (int)f[WIDTH], (int)f[HEIGHT]);
        try_alone(call, name, sides[i].due, f);
    }
}

/* The last block start that differences can have, 65535 units, in a list that ends with it or one entry before. */
static void last_start(void) {
    static int16_t differences[UINT16_MAX * LATCH_DIFFERENCES_UNIT + 4 * 4];
    static float plane[4 * 4];
    const row_words row = {[LATCH_B] = 4, [LATCH_D] = 8, [LATCH_BASE] = 128, [LATCH_DIFFERENCES] = UINT16_MAX};
    uint32_t shorter = latch_run_job(plane, COUNT(plane), 4, 4, row, COUNT(row), differences, COUNT(differences) - 1);
    uint32_t whole = latch_run_job(plane, COUNT(plane), 4, 4, row, COUNT(row), differences, COUNT(differences));
    check(shorter == LATCH_NO_DIFFERENCES && whole == LATCH_DONE, "differences from 65535 units on: %u, %u", shorter, whole);
}

void test_run_job(void) {
    for (int64_t k = 0; k < 3 * 5; k++) {
        struct call call = plain_call(8 + 2 * (k % 3), k / 3);
        try_sides(&call);
        for (int bit = 2; bit < 16; bit++) {
            int64_t f[FIELDS_MOST];
            char name[64];
            for (int i = 0; i < FIELDS_MOST; i++) f[i] = call.plain[i];
            f[FLAGS_MORE] = INT64_C(1) << bit;
            snprintf(name, sizeof name, "flag bit %d alone", bit);
            try_alone(&call, name, bit < 5 ? LATCH_DONE : LATCH_BAD_MODE, f);
        }
        try_faults(&call);
    }
    last_start();
}

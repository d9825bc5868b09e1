/* tower_clashes.c: which pairs an order may turn round: two jobs at every place of every plane, held to what jobs read and write. */
#include "tower.h"

#include <string.h>

enum { SIDE = 12 };
static const uint16_t forwards[] = {0, 1}, backwards[] = {1, 0};

/* Whether a rectangle holds a place. */
static bool holds(int x, int y, int left, int top, int width, int height) {
    return x >= left && x < left + width && y >= top && y < top + height;
}

/* Whether a job writes the sample of a plane at column x, row y. Blocks of modes 0 to 4 are here without neighbours, or with left alone. */
static bool writes(const uint16_t *row, int plane, int x, int y) {
    bool colour = row[LATCH_MODE] == TOWER_MODE_COLOUR;
    int width = colour ? row[TOWER_WIDTH] : row[LATCH_B], height = colour ? row[TOWER_HEIGHT] : row[LATCH_B];
    return plane == row[TOWER_PLANE] && holds(x, y, row[LATCH_X], row[LATCH_Y], width, height);
}

/* Whether it reads it. */
static bool reads(const uint16_t *row, int plane, int x, int y) {
    if (row[LATCH_MODE] != TOWER_MODE_COLOUR)
        return plane == row[TOWER_PLANE] && row[LATCH_FLAGS] & LATCH_HAVE_LEFT &&
               holds(x, y, row[LATCH_X] - 1, row[LATCH_Y], 1, row[LATCH_B]);
    int rw = row[TOWER_REF_WIDTH], rh = row[TOWER_REF_HEIGHT], above = row[TOWER_ABOVE_LINES], left = row[TOWER_LEFT_LINES];
    if (plane == 0) return holds(x, y, row[TOWER_LUMA_X], row[TOWER_LUMA_Y], rw, rh);
    int i = x - (row[LATCH_X] - left), j = y - (row[LATCH_Y] - above);
    return plane == row[TOWER_PLANE] && i >= 1 && i <= rw - 2 && j >= 1 && j <= rh - 2 && (j < above || i < left);
}

/* Whether one of two jobs writes a sample that the other writes or reads. */
static bool clash(const uint16_t *one, const uint16_t *two) {
    for (int k = 0; k < TOWER_PLANES * SIDE * SIDE; k++) {
        int plane = k / (SIDE * SIDE), x = k % SIDE, y = k / SIDE % SIDE;
        if (writes(one, plane, x, y) && (writes(two, plane, x, y) || reads(two, plane, x, y))) return true;
        if (writes(two, plane, x, y) && reads(one, plane, x, y)) return true;
    }
    return false;
}

/* Two jobs in both orders, with either of them first in the plan. */
static void try_pair(const uint16_t *stays, const uint16_t *goes) {
    for (int first = 0; first < 2; first++) {
        tower_row jobs[2];
        memcpy(jobs[first], stays, sizeof jobs[0]);
        memcpy(jobs[1 - first], goes, sizeof jobs[0]);
        uint32_t due = clash(stays, goes) ? LATCH_PAIR_TURNED : LATCH_DONE;
        for (int turned = 0; turned < 2; turned++) {
            struct run run = {SIDE, SIDE, NOWHERE, jobs[0], turned ? backwards : forwards, 2 * TOWER_ROW_WORDS, 2, 2};
            bool kept = false;
            uint16_t answers[2] = {0};
            uint32_t got = tower_kept(&run, answers, &kept);
            bool done = got != LATCH_DONE || (answers[0] == LATCH_DONE && answers[1] == LATCH_DONE);
            check(got == (turned ? due : LATCH_DONE) && kept && done,
                  "mode %d on plane %d at %d, %d and mode %d on plane %d at %d, %d, turned %d: %u, not %u, kept %d", stays[LATCH_MODE],
                  stays[TOWER_PLANE], stays[LATCH_X], stays[LATCH_Y], goes[LATCH_MODE], goes[TOWER_PLANE], goes[LATCH_X], goes[LATCH_Y],
                  turned, got, turned ? due : LATCH_DONE, kept);
        }
    }
}

/* A colour job that reads one luma sample and writes one sample, at a place. */
static void point(const uint16_t *stays, int plane, int at, int luma) {
    const tower_row goes = {
        [LATCH_X] = (uint16_t)(at % SIDE), [LATCH_Y] = (uint16_t)(at / SIDE), [LATCH_D] = 8, [LATCH_MODE] = TOWER_MODE_COLOUR,
        [TOWER_PLANE] = (uint16_t)plane, [TOWER_REF_WIDTH] = 1, [TOWER_REF_HEIGHT] = 1, [TOWER_WIDTH] = 1, [TOWER_HEIGHT] = 1,
        [TOWER_LUMA_X] = (uint16_t)(luma % SIDE), [TOWER_LUMA_Y] = (uint16_t)(luma / SIDE)};
    try_pair(stays, goes);
}

static void round_of(const uint16_t *stays) {
    for (int at = 0; at < SIDE * SIDE; at++) {
        point(stays, 1, at, 7);
        point(stays, 2, at, SIDE * SIDE - 1);
        if (stays[TOWER_PLANE] == 0) point(stays, 1, 30, at);
    }
    for (int k = 0; k < TOWER_PLANES * (SIDE - 3) * (SIDE - 3); k++) {
        int plane = k % TOWER_PLANES, x = k / TOWER_PLANES % (SIDE - 3), y = k / TOWER_PLANES / (SIDE - 3);
        const tower_row goes = {[LATCH_X] = (uint16_t)x, [LATCH_Y] = (uint16_t)y, [LATCH_B] = 4, [LATCH_D] = 8, [LATCH_BASE] = 90,
                                [LATCH_FLAGS] = x > 0 && (x + y) % 3 == 0 ? LATCH_HAVE_LEFT : 0, [LATCH_AVAILABLE_LEFT] = 4,
                                [TOWER_PLANE] = (uint16_t)plane};
        try_pair(stays, goes);
    }
}

void test_tower_clashes(void) {
    /* plane, x, y, above_lines, left_lines, ref_width, ref_height, width, height, luma x, luma y */
    static const uint16_t colour[][11] = {
        {1, 5, 4, 3, 4, 8, 7, 3, 2, 2, 1}, {2, 6, 6, 2, 2, 5, 5, 2, 3, 7, 7}, {1, 3, 5, 4, 0, 6, 6, 4, 1, 0, 0},
        {2, 6, 2, 0, 5, 7, 6, 1, 4, 5, 6}, {1, 4, 4, 1, 1, 4, 4, 2, 2, 4, 4}, {2, 0, 0, 0, 0, 3, 3, 3, 3, 9, 0},
        {1, 7, 7, 6, 6, 8, 8, 2, 2, 3, 3}};
    for (size_t k = 0; k < COUNT(colour); k++) {
        const uint16_t *c = colour[k];
        const tower_row stays = {
            [LATCH_X] = c[1], [LATCH_Y] = c[2], [LATCH_D] = 8, [LATCH_MODE] = TOWER_MODE_COLOUR, [TOWER_PLANE] = c[0],
            [TOWER_COLOUR_DIRECTION] = (uint16_t)(k % 3), [TOWER_ABOVE_LINES] = c[3], [TOWER_LEFT_LINES] = c[4], [TOWER_REF_WIDTH] = c[5],
            [TOWER_REF_HEIGHT] = c[6], [TOWER_WIDTH] = c[7], [TOWER_HEIGHT] = c[8], [TOWER_LUMA_X] = c[9], [TOWER_LUMA_Y] = c[10]};
        round_of(stays);
    }
    for (uint16_t plane = 0; plane < TOWER_PLANES; plane++) {
        const tower_row stays = {[LATCH_X] = 5, [LATCH_Y] = 3, [LATCH_B] = 4, [LATCH_D] = 8, [LATCH_FLAGS] = LATCH_HAVE_LEFT,
                                 [LATCH_AVAILABLE_LEFT] = 4, [TOWER_PLANE] = plane};
        round_of(stays);
    }
}

/* clashes.c: which pairs an order may turn round: two blocks at every place, held to what jobs read and write. */
#include <string.h>

#include "plan.h"

enum { SIDE = 20, ABOVE = LATCH_HAVE_ABOVE, LEFT = LATCH_HAVE_LEFT, BOTH = ABOVE + LEFT };
static const uint16_t forwards[] = {0, 1}, backwards[] = {1, 0};

static uint32_t run_two(const row_words *jobs, const uint16_t *order, bool *kept) {
    struct run run = {SIDE, SIDE, NOWHERE, jobs[0], order, 2 * LATCH_ROW_WORDS, 2, 2};
    return run_kept(&run, NULL, kept);
}

static int least(int a, int b) {
    return a < b ? a : b;
}

/* Whether a job writes the sample at column x, row y. */
static bool writes(const uint16_t *row, int x, int y) {
    int b = row[LATCH_B], left = row[LATCH_X], top = row[LATCH_Y];
    return x >= left && x < left + b && y >= top && y < top + b;
}

/* Whether a run of B samples from `start` on, `available` of them there, and min(more, B) after them has the place. */
static bool along(int place, int start, int b, int available, int more) {
    for (int c = 0; c < b; c++)
        if (place == start + least(c, available - 1)) return true;
    return place >= start + b && place < start + b + least(more, b);
}

/* Whether a job reads it. */
static bool reads(const uint16_t *row, int x, int y) {
    int b = row[LATCH_B], left = row[LATCH_X], top = row[LATCH_Y];
    bool above_there = row[LATCH_FLAGS] & LATCH_HAVE_ABOVE, left_there = row[LATCH_FLAGS] & LATCH_HAVE_LEFT;
    return (above_there && y == top - 1 && along(x, left, b, row[LATCH_AVAILABLE_ABOVE], row[LATCH_TOP_RIGHT])) ||
           (left_there && x == left - 1 && along(y, top, b, row[LATCH_AVAILABLE_LEFT], row[LATCH_BOTTOM_LEFT])) ||
           (above_there && left_there && x == left - 1 && y == top - 1);
}

/* Whether one of two jobs writes a sample that the other writes or reads. */
static bool clash(const uint16_t *one, const uint16_t *two) {
    for (int i = 0; i < SIDE * SIDE; i++) {
        int x = i % SIDE, y = i / SIDE;
        if (writes(one, x, y) && (writes(two, x, y) || reads(two, x, y))) return true;
        if (writes(two, x, y) && reads(one, x, y)) return true;
    }
    return false;
}

/* A block at every place round a reader in the middle, before it in the plan and after it; at odd places it reads too. */
void test_clashes(void) {
    static const struct { uint16_t flags, top_right, bottom_left, available_above, available_left; } readers[] = {
        {0, 4, 4, 4, 4}, {ABOVE, 0, 4, 4, 4}, {ABOVE, 3, 4, 2, 4}, {ABOVE, 0, 4, 1, 4}, {LEFT, 4, 0, 4, 4}, {LEFT, 4, 2, 4, 1},
        {LEFT, 4, 0, 4, 2}, {BOTH, 0, 0, 4, 4}, {BOTH, 0, 0, 3, 1}, {BOTH, 4, 4, 4, 4}, {BOTH, 1, 3, 65535, 3},
        {BOTH, 65535, 65535, 1, 1}, {BOTH, 2, 65535, 3, 65535}};
    for (int k = 0; k < (int)COUNT(readers) * 2 * (SIDE - 3) * (SIDE - 3); k++) {
        int first = k % 2, x = k / 2 % (SIDE - 3), y = k / 2 / (SIDE - 3) % (SIDE - 3), r = k / 2 / (SIDE - 3) / (SIDE - 3);
        row_words jobs[2];
        const row_words middle = {
            [LATCH_X] = 8, [LATCH_Y] = 8, [LATCH_B] = 4, [LATCH_D] = 8, [LATCH_MODE] = LATCH_MODE_SMOOTH, [LATCH_BASE] = 90,
            [LATCH_FLAGS] = readers[r].flags, [LATCH_TOP_RIGHT] = readers[r].top_right,
            [LATCH_BOTTOM_LEFT] = readers[r].bottom_left,
            [LATCH_AVAILABLE_ABOVE] = readers[r].available_above, [LATCH_AVAILABLE_LEFT] = readers[r].available_left};
        const row_words moved = {
            [LATCH_X] = (uint16_t)x, [LATCH_Y] = (uint16_t)y, [LATCH_D] = 8,
            [LATCH_B] = x <= SIDE - 8 && y <= SIDE - 8 && (x + y) % 3 == 0 ? 8 : 4,
            [LATCH_FLAGS] = (x > 0 && x % 2 ? LATCH_HAVE_LEFT : 0) | (y > 0 && y % 2 ? LATCH_HAVE_ABOVE : 0),
            [LATCH_AVAILABLE_ABOVE] = 4, [LATCH_AVAILABLE_LEFT] = 4, [LATCH_BASE] = 200};
        memcpy(jobs[first], middle, sizeof middle);
        memcpy(jobs[1 - first], moved, sizeof moved);
        bool kept = false, kept_forwards = false;
        uint32_t due = clash(jobs[0], jobs[1]) ? LATCH_PAIR_TURNED : LATCH_DONE;
        uint32_t got = run_two(jobs, backwards, &kept);
        check(got == due && kept, "reader %d at plan row %d, a block at column %d, row %d, turned: %u, not %u, kept %d", r, first,
              x, y, got, due, kept);
        got = run_two(jobs, forwards, &kept_forwards);
        check(got == LATCH_DONE && kept_forwards, "reader %d at plan row %d, a block at column %d, row %d: %u, kept %d", r, first,
              x, y, got, kept_forwards);
    }
}

/* tower_turned.c: pairs that an order turns round, by name: a colour job and the luma or chroma that it reads, and jobs that are refused. */
#include "tower.h"

#include <string.h>

enum { SIDE = 40, LUMA_SAMPLE = 9 * SIDE + 9, CHROMA_SAMPLE = SIDE * SIDE + 9 * SIDE + 9 };
static const uint16_t backwards[] = {1, 0}, forwards[] = {0, 1};

/* A block of luma, and a colour job that reads it: luma window and chroma window from column 8, row 8 on, block at column 12, row 11. */
static const tower_row pair[2] = {
    {[LATCH_X] = 4, [LATCH_Y] = 5, [LATCH_B] = 8, [LATCH_D] = 8, [LATCH_BASE] = 128},
    {[LATCH_X] = 12, [LATCH_Y] = 11, [LATCH_D] = 8, [LATCH_MODE] = TOWER_MODE_COLOUR, [TOWER_PLANE] = 1, [TOWER_ABOVE_LINES] = 3,
     [TOWER_LEFT_LINES] = 4, [TOWER_REF_WIDTH] = 8, [TOWER_REF_HEIGHT] = 6, [TOWER_WIDTH] = 3, [TOWER_HEIGHT] = 2, [TOWER_LUMA_X] = 8,
     [TOWER_LUMA_Y] = 8, [TOWER_HAVE_TOP] = 1, [TOWER_HAVE_LEFT] = 1},
};

struct set { int job, word; uint16_t value; };

/* The pair with up to three words set, done in an order; the answers that are then due, or LATCH_PAIR_TURNED. */
static void ordered(const char *name, const uint16_t *order, const struct set *sets, int64_t nan_at, uint32_t due, uint16_t first,
                    uint16_t second) {
    tower_row jobs[2];
    memcpy(jobs, pair, sizeof jobs);
    for (int i = 0; i < 3; i++)
        if (sets[i].value != 0 || sets[i].word != 0) jobs[sets[i].job][sets[i].word] = sets[i].value;
    uint16_t answers[2] = {0};
    bool kept = false;
    struct run run = {SIDE, SIDE, nan_at, jobs[0], order, 2 * TOWER_ROW_WORDS, 2, 2};
    uint32_t got = tower_kept(&run, answers, &kept);
    check(got == due && kept, "%s: %u, not %u, kept %d", name, got, due, kept);
    if (due == LATCH_DONE)
        check(answers[0] == first && answers[1] == second, "%s: answers %u, %u, not %u, %u", name, answers[0], answers[1], first, second);
}

/* Backwards: the reader's words, and how the run and the reader are then answered. */
static void reader(const char *name, int word, uint16_t value, uint32_t due, uint16_t second) {
    const struct set sets[3] = {{1, word, value}};
    ordered(name, backwards, sets, NOWHERE, due, LATCH_DONE, second);
}

static void by_words(void) {
    reader("a colour job that reads luma of an earlier job", LATCH_D, 8, LATCH_PAIR_TURNED, 0);
    reader("luma window beside the block of luma", TOWER_LUMA_X, 12, LATCH_DONE, LATCH_DONE);
    reader("luma window one column into it", TOWER_LUMA_X, 11, LATCH_PAIR_TURNED, 0);
    reader("luma window below the block of luma", TOWER_LUMA_Y, 13, LATCH_DONE, LATCH_DONE);
    reader("luma window one row into it", TOWER_LUMA_Y, 12, LATCH_PAIR_TURNED, 0);
    reader("another D", LATCH_D, 10, LATCH_PAIR_TURNED, 0);
    reader("a reader that 2 refuses", LATCH_D, 9, LATCH_DONE, LATCH_BAD_DEPTH);
    reader("a reader with B 5", LATCH_B, 5, LATCH_PAIR_TURNED, 0);
    reader("a reader with flags 65535", LATCH_FLAGS, 65535, LATCH_PAIR_TURNED, 0);
    reader("a reader that 3 refuses for its plane", TOWER_PLANE, 0, LATCH_DONE, LATCH_BAD_MODE);
    reader("a reader that 3 refuses for its spare word", TOWER_SPARE + 3, 1, LATCH_DONE, LATCH_BAD_MODE);
    reader("a reader that 4 refuses", TOWER_LUMA_Y, SIDE - 5, LATCH_DONE, LATCH_OUTSIDE_PLANE);
    reader("a reader that 10 refuses", TOWER_COLOUR_DIRECTION, 3, LATCH_DONE, LATCH_BAD_COLOUR_DIRECTION);
    reader("a reader that 12 refuses", TOWER_WIDTH, 5, LATCH_DONE, LATCH_BAD_LINES);
}

/* The block of luma made one of a chroma plane, at places about the chroma that counts. */
static void on_chroma(void) {
    static const struct { const char *name; uint16_t plane, x, y; uint32_t due; } tries[] = {
        {"a block over the chroma that counts", 1, 2, 2, LATCH_PAIR_TURNED}, {"the same on the other chroma plane", 2, 2, 2, LATCH_DONE},
        {"its last row is the window's first", 1, 4, 1, LATCH_DONE}, {"its last column is the window's first", 1, 1, 5, LATCH_DONE},
        {"it starts where the block's columns end in the last row", 1, 15, 10, LATCH_DONE},
        {"it starts in the last column but one over the block", 1, 14, 10, LATCH_PAIR_TURNED},
        {"it starts in the window's last row", 1, 4, 13, LATCH_DONE}, {"it starts in the last row but one", 1, 4, 12, LATCH_PAIR_TURNED},
        {"it starts right of the block", 1, 15, 11, LATCH_DONE}, {"it starts in the block's last sample", 1, 14, 12, LATCH_PAIR_TURNED},
        {"the same place of luma", 0, 14, 12, LATCH_PAIR_TURNED}, {"past the luma window's last corner", 0, 16, 14, LATCH_DONE},
    };
    for (size_t i = 0; i < COUNT(tries); i++) {
        const struct set sets[3] = {{0, TOWER_PLANE, tries[i].plane}, {0, LATCH_X, tries[i].x}, {0, LATCH_Y, tries[i].y}};
        ordered(tries[i].name, backwards, sets, NOWHERE, tries[i].due, LATCH_DONE, LATCH_DONE);
    }
}

/* Jobs that 8 and 14 refuse still clash with what they would read, and with nothing beside it; where no pair is turned their answers stand. */
static void refused_by_samples(void) {
    const struct set none[3] = {{0, 0, 0}}, deep[3] = {{1, LATCH_D, 12}};
    ordered("a luma sample that is NaN", forwards, none, 13 * SIDE + 15, LATCH_DONE, LATCH_DONE, LATCH_BAD_SAMPLE);
    ordered("a reader that 8 refuses for luma still clashes", backwards, none, 13 * SIDE + 15, LATCH_PAIR_TURNED, 0, 0);
    ordered("a chroma sample that is NaN", forwards, none, CHROMA_SAMPLE, LATCH_DONE, LATCH_DONE, LATCH_BAD_SAMPLE);
    ordered("a reader that 8 refuses for chroma still clashes", backwards, none, CHROMA_SAMPLE, LATCH_PAIR_TURNED, 0, 0);
    ordered("luma that was NaN is painted first", forwards, none, LUMA_SAMPLE, LATCH_DONE, LATCH_DONE, LATCH_DONE);
    ordered("a reader of 12 bits", backwards, deep, NOWHERE, LATCH_PAIR_TURNED, 0, 0);
    /* 28 x 20 = 560 samples count, too many at 12 bits: windows of 30 by 22, the block one sample at their last row */
    const tower_row wide = {[LATCH_X] = 9, [LATCH_Y] = 26, [LATCH_D] = 12, [LATCH_MODE] = TOWER_MODE_COLOUR, [TOWER_PLANE] = 2,
                            [TOWER_ABOVE_LINES] = 21, [TOWER_REF_WIDTH] = 30, [TOWER_REF_HEIGHT] = 22, [TOWER_WIDTH] = 1,
                            [TOWER_HEIGHT] = 1, [TOWER_LUMA_X] = 6, [TOWER_LUMA_Y] = 6};
    tower_row jobs[2];
    memcpy(jobs[0], pair[0], sizeof jobs[0]);
    memcpy(jobs[1], wide, sizeof wide);
    /* the block of luma in the luma window, whose columns are 6 to 35, in its last column and beside it */
    static const struct { uint16_t x, b; const uint16_t *order; uint32_t due; } tries[] = {
        {4, 8, forwards, LATCH_DONE}, {4, 8, backwards, LATCH_PAIR_TURNED}, {28, 4, backwards, LATCH_PAIR_TURNED},
        {35, 4, backwards, LATCH_PAIR_TURNED}, {36, 4, backwards, LATCH_DONE}};
    for (size_t i = 0; i < COUNT(tries); i++) {
        uint16_t answers[2] = {99, 99};
        bool kept = false;
        jobs[0][LATCH_X] = tries[i].x;
        jobs[0][LATCH_B] = tries[i].b;
        struct run run = {SIDE, SIDE, NOWHERE, jobs[0], tries[i].order, 2 * TOWER_ROW_WORDS, 2, 2};
        uint32_t got = tower_kept(&run, answers, &kept), due = tries[i].due;
        check(got == due && kept, "a job that 14 refuses, %zu: %u, not %u, kept %d", i, got, due, kept);
        if (due == LATCH_DONE)
            check(answers[0] == LATCH_DONE && answers[1] == LATCH_SUM_TOO_LARGE, "a job that 14 refuses, %zu: answers %u, %u", i, answers[0],
                  answers[1]);
    }
}

/* Two jobs at one place of different planes, with either plane first in the plan, done backwards: each plane is as if the other job were not
 * there. At one place of one plane they clash. */
static void planes_apart(void) {
    for (uint16_t k = 0; k < 9; k++) {
        tower_row jobs[2];
        memcpy(jobs[0], pair[0], sizeof jobs[0]);
        memcpy(jobs[1], pair[0], sizeof jobs[1]);
        jobs[0][TOWER_PLANE] = k % 3;
        jobs[1][TOWER_PLANE] = k / 3;
        jobs[1][LATCH_BASE] = 50;
        uint16_t answers[2] = {99, 99};
        bool kept = false;
        struct run run = {SIDE, SIDE, NOWHERE, jobs[0], backwards, 2 * TOWER_ROW_WORDS, 2, 2};
        uint32_t got = tower_kept(&run, answers, &kept), due = k % 3 == k / 3 ? LATCH_PAIR_TURNED : LATCH_DONE;
        check(got == due && kept, "one place of planes %d and %d: %u, not %u, kept %d", k % 3, k / 3, got, due, kept);
        if (due == LATCH_DONE)
            check(answers[0] == LATCH_DONE && answers[1] == LATCH_DONE, "one place of planes %d and %d: answers %u, %u", k % 3, k / 3,
                  answers[0], answers[1]);
    }
}

void test_tower_turned(void) {
    by_words();
    on_chroma();
    refused_by_samples();
    planes_apart();
}

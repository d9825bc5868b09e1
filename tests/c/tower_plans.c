/* tower_plans.c: tower_run on plans of every length, empty ones with any pointers, answers at plan rows, depths and planes together. */
#include "tower.h"

#include <string.h>

enum { JOBS_OVER = LATCH_JOBS_MOST + 1, ACROSS = 20, STEP = 4, AREA = ACROSS * STEP };

static tower_row rows[JOBS_OVER];
static uint16_t forward[JOBS_OVER], backward[JOBS_OVER];

/* Jobs that touch nothing of each other's, on all planes: blocks of 4 without neighbours, and on planes 1 and 2 every other one is a colour
 * job, whose luma is one sample that no job writes. */
static void make_rows(void) {
    for (uint16_t i = 0; i < JOBS_OVER; i++) {
        uint16_t *row = rows[i], plane = i / (ACROSS * ACROSS) % 3;
        bool colour = plane > 0 && i % 2;
        row[LATCH_X] = (uint16_t)(STEP * (i % ACROSS));
        row[LATCH_Y] = (uint16_t)(STEP * (i / ACROSS % ACROSS));
        row[LATCH_B] = colour ? 0 : 4;
        row[LATCH_D] = (uint16_t)(8 + 2 * (i % 3));
        row[LATCH_MODE] = colour ? TOWER_MODE_COLOUR : i % 4;
        row[LATCH_BASE] = (uint16_t)(1 + i % 254);
        row[LATCH_DIFFERENCES] = i % 5;
        row[TOWER_PLANE] = plane;
        row[TOWER_REF_WIDTH] = row[TOWER_REF_HEIGHT] = row[TOWER_WIDTH] = row[TOWER_HEIGHT] = colour;
        row[TOWER_LUMA_X] = row[TOWER_LUMA_Y] = AREA;
        forward[i] = i;
        backward[i] = (uint16_t)(LATCH_JOBS_MOST - 1 - i);
    }
}

static struct run run_of(const uint16_t *order, size_t words, size_t entries, size_t answers) {
    return (struct run){AREA + 1, AREA + 1, NOWHERE, (const uint16_t *)rows, order, words, entries, answers};
}

/* Lengths of plan, order and answers, in words and entries. */
static void lengths(void) {
    enum { ROW = TOWER_ROW_WORDS, MOST = LATCH_JOBS_MOST };
    static const struct { size_t plan, order, answers; uint32_t due; } tries[] = {
        {0, 0, 0, LATCH_DONE}, {0, 1, 0, LATCH_BAD_PLAN}, {0, 0, 1, LATCH_BAD_PLAN}, {0, 1, 1, LATCH_BAD_PLAN},
        {1, 0, 0, LATCH_BAD_PLAN}, {16, 0, 0, LATCH_BAD_PLAN}, {16, 1, 1, LATCH_BAD_PLAN}, {31, 0, 0, LATCH_BAD_PLAN},
        {31, 1, 1, LATCH_BAD_PLAN}, {32, 1, 1, LATCH_DONE}, {32, 2, 2, LATCH_BAD_PLAN}, {32, 0, 1, LATCH_BAD_PLAN},
        {32, 2, 1, LATCH_BAD_PLAN}, {32, 1, 0, LATCH_BAD_PLAN}, {32, 1, 2, LATCH_BAD_PLAN}, {33, 1, 1, LATCH_BAD_PLAN},
        {48, 1, 1, LATCH_BAD_PLAN}, {48, 2, 2, LATCH_BAD_PLAN}, {48, 3, 3, LATCH_BAD_PLAN}, {64, 2, 2, LATCH_DONE}, {64, 4, 4, LATCH_BAD_PLAN},
        {MOST * ROW, MOST, MOST, LATCH_DONE}, {MOST * ROW - 1, MOST, MOST, LATCH_BAD_PLAN},
        {MOST * ROW + 1, MOST, MOST, LATCH_BAD_PLAN}, {MOST * ROW, MOST - 1, MOST, LATCH_BAD_PLAN},
        {MOST * ROW, MOST + 1, MOST, LATCH_BAD_PLAN}, {MOST * ROW, MOST, MOST - 1, LATCH_BAD_PLAN},
        {MOST * ROW, MOST, MOST + 1, LATCH_BAD_PLAN}, {MOST * ROW + ROW, MOST + 1, MOST + 1, LATCH_BAD_PLAN},
        {MOST * ROW + ROW, MOST, MOST, LATCH_BAD_PLAN}, {MOST * ROW + 16, MOST, MOST, LATCH_BAD_PLAN}};
    for (size_t i = 0; i < COUNT(tries); i++) {
        struct run run = run_of(forward, tries[i].plan, tries[i].order, tries[i].answers);
        bool kept = false;
        uint32_t got = tower_kept(&run, NULL, &kept);
        check(got == tries[i].due && kept, "tower_run with %zu words, order of %zu, answers of %zu: %u, not %u, kept %d", tries[i].plan,
              tries[i].order, tries[i].answers, got, tries[i].due, kept);
    }
}

/* An empty plan is done, and 20 still refuses it, whatever the pointers of its empty lists are. */
static void empty(void) {
    static float planes[TOWER_PLANES][4 * 4];
    void *const nowhere[] = {NULL, (void *)1, (void *)16, planes};
    for (size_t k = 0; k < 4 * 4 * 4 * 4; k++) {
        for (size_t i = 0; i < 3 * 16; i++) planes[i / 16][i % 16] = (float)i;
        void *plan = nowhere[k % 4], *order = nowhere[k / 4 % 4], *differences = nowhere[k / 16 % 4], *answers = nowhere[k / 64];
        uint32_t done = tower_run(planes[0], 16, planes[1], 16, planes[2], 16, 4, 4, plan, 0, order, 0, differences, 0, answers, 0);
        uint32_t wrong = tower_run(planes[0], 16, planes[1], 16, planes[2], 15, 4, 4, plan, 0, order, 0, differences, 0, answers, 0);
        bool kept = true;
        for (size_t i = 0; i < 3 * 16; i++) kept = kept && planes[i / 16][i % 16] == (float)i;
        check(done == LATCH_DONE && wrong == LATCH_BAD_PLANE && kept, "an empty plan, pointers %zu: %u, %u, kept %d", k, done, wrong, kept);
    }
}

/* The longest plan backwards: its jobs touch nothing of each other's, and every one of them is done. */
static void longest_backwards(void) {
    static uint16_t answers[LATCH_JOBS_MOST];
    struct run run = run_of(backward, (size_t)LATCH_JOBS_MOST * TOWER_ROW_WORDS, LATCH_JOBS_MOST, LATCH_JOBS_MOST);
    bool kept = false, done = true;
    uint32_t got = tower_kept(&run, answers, &kept);
    for (size_t i = 0; i < COUNT(answers); i++) done = done && answers[i] == LATCH_DONE;
    check(got == LATCH_DONE && kept && done, "1024 jobs apart, done backwards: %u, kept %d, all done %d", got, kept, done);
}

/* A job for each answer, at its own row of the plan: whichever order they are done in, entry i is plan row i. */
static void answers_at_rows(void) {
    enum { WIDTH_OF = 400, HEIGHT_OF = 40, NAN_AT = 30 * WIDTH_OF + 5 };
    static const uint16_t due[] = {LATCH_DONE, LATCH_BAD_SIZE, LATCH_BAD_DEPTH, LATCH_BAD_MODE, LATCH_OUTSIDE_PLANE, LATCH_NO_NEIGHBOUR,
                                   LATCH_BAD_BASE, LATCH_NO_DIFFERENCES, LATCH_BAD_SAMPLE, LATCH_DONE, LATCH_BAD_COLOUR_DIRECTION,
                                   LATCH_BAD_REFERENCE, LATCH_BAD_LINES, LATCH_BAD_SAMPLE, LATCH_SUM_TOO_LARGE, LATCH_OUTSIDE_PLANE};
    enum { JOBS = COUNT(due), COLOURS = 9 };
    tower_row jobs[JOBS];
    uint16_t answers[JOBS];
    for (uint16_t i = 0; i < JOBS; i++) {
        const tower_row plain = {[LATCH_X] = 8 * i, [LATCH_B] = 4, [LATCH_D] = 8, [LATCH_BASE] = 100, [TOWER_PLANE] = i % 3};
        const tower_row colour = {[LATCH_X] = 200, [LATCH_Y] = (uint16_t)(i + 10), [LATCH_D] = 12, [LATCH_MODE] = TOWER_MODE_COLOUR,
                                  [TOWER_PLANE] = 1 + i % 2, [TOWER_REF_WIDTH] = 4, [TOWER_REF_HEIGHT] = 1, [TOWER_WIDTH] = 4,
                                  [TOWER_HEIGHT] = 1, [TOWER_LUMA_X] = 1, [TOWER_LUMA_Y] = (uint16_t)(i + 10)};
        memcpy(jobs[i], i < COLOURS ? plain : colour, sizeof jobs[i]);
    }
    static const struct { uint16_t row, word, value; } sets[] = {
        {1, LATCH_B, 5}, {2, LATCH_D, 9}, {3, LATCH_MODE, 6}, {4, LATCH_X, WIDTH_OF - 3}, {5, LATCH_FLAGS, LATCH_HAVE_ABOVE},
        {6, LATCH_BASE, 0}, {7, LATCH_DIFFERENCES, 5}, {8, LATCH_X, 5}, {8, LATCH_Y, 31}, {8, TOWER_PLANE, 0},
        {8, LATCH_FLAGS, LATCH_HAVE_ABOVE}, {8, LATCH_AVAILABLE_ABOVE, 1}, {10, TOWER_COLOUR_DIRECTION, 3}, {11, TOWER_REF_WIDTH, 257},
        {11, LATCH_X, 100}, {12, TOWER_WIDTH, 5}, {13, TOWER_LUMA_Y, 30}, {13, TOWER_LUMA_X, 5},
        /* 254 x 3 = 762 samples count, which is too many at 12 bits */
        {14, LATCH_Y, 34}, {14, TOWER_ABOVE_LINES, 4}, {14, TOWER_REF_WIDTH, 256}, {14, TOWER_REF_HEIGHT, 5}, {14, LATCH_X, 140},
        {14, TOWER_LUMA_X, 144}, {14, TOWER_LUMA_Y, 20}, {15, LATCH_X, 65535}};
    for (size_t i = 0; i < COUNT(sets); i++) jobs[sets[i].row][sets[i].word] = sets[i].value;
    for (size_t turn = 0; turn < JOBS; turn++) {
        uint16_t order[JOBS];
        for (size_t i = 0; i < JOBS; i++) order[i] = (uint16_t)((i + turn) % JOBS);
        struct run run = {WIDTH_OF, HEIGHT_OF, NAN_AT, jobs[0], order, (size_t)JOBS * TOWER_ROW_WORDS, JOBS, JOBS};
        bool kept = false;
        uint32_t got = tower_kept(&run, answers, &kept);
        check(got == LATCH_DONE && kept, "a job for each answer, turn %zu: %u, kept %d", turn, got, kept);
        for (size_t i = 0; i < JOBS; i++)
            check(answers[i] == due[i], "row %zu, turn %zu, is answered %u, not %u", i, turn, answers[i], due[i]);
    }
}

/* Depths together: luma of 12 bits can be more than a colour job of 8 bits takes, which is 8 for that job alone. */
static void depths_together(void) {
    enum { RW = TOWER_REF_WIDTH, RH = TOWER_REF_HEIGHT };
    static const tower_row jobs[] = {
        {[LATCH_B] = 4, [LATCH_D] = 12, [LATCH_BASE] = 4000},
        {[LATCH_D] = 8, [LATCH_MODE] = 5, [TOWER_PLANE] = 1, [RW] = 4, [RH] = 4, [TOWER_WIDTH] = 4, [TOWER_HEIGHT] = 4},
        {[LATCH_D] = 12, [LATCH_MODE] = 5, [TOWER_PLANE] = 2, [RW] = 4, [RH] = 4, [TOWER_WIDTH] = 4, [TOWER_HEIGHT] = 4},
        {[LATCH_X] = 4, [LATCH_B] = 4, [LATCH_D] = 10, [LATCH_BASE] = 200, [TOWER_PLANE] = 2},
    };
    static const uint16_t order[] = {3, 0, 2, 1}, due[] = {LATCH_DONE, LATCH_BAD_SAMPLE, LATCH_DONE, LATCH_DONE};
    struct run run = {12, 4, NOWHERE, jobs[0], order, COUNT(jobs) * TOWER_ROW_WORDS, COUNT(jobs), COUNT(jobs)};
    uint16_t answers[COUNT(jobs)] = {0};
    bool kept = false;
    uint32_t got = tower_kept(&run, answers, &kept);
    check(got == LATCH_DONE && kept && memcmp(answers, due, sizeof due) == 0, "depths together: %u, answers %u %u %u %u, kept %d", got,
          answers[0], answers[1], answers[2], answers[3], kept);
}

void test_tower_plans(void) {
    make_rows();
    lengths();
    empty();
    longest_backwards();
    answers_at_rows();
    depths_together();
}

/* plans.c: latch_run on plans of every length, empty ones with any pointers, answers at plan rows, and depths together. */
#include <string.h>

#include "plan.h"

enum { JOBS_OVER = LATCH_JOBS_MOST + 1, ACROSS = 32, SIDE = 4 * ACROSS };

static row_words rows[JOBS_OVER];
static uint16_t forward[JOBS_OVER], backward[JOBS_OVER];

/* Blocks of 4 without neighbours, side by side and row under row; the one over the limit is the first again. */
static void make_rows(void) {
    for (uint16_t i = 0; i < JOBS_OVER; i++) {
        uint16_t *row = rows[i];
        row[LATCH_X] = 4 * (i % ACROSS);
        row[LATCH_Y] = 4 * (i / ACROSS % ACROSS);
        row[LATCH_B] = 4;
        row[LATCH_D] = 8 + 2 * (i % 3);
        row[LATCH_MODE] = i % 4;
        row[LATCH_BASE] = 1 + i % 254;
        row[LATCH_DIFFERENCES] = i % 5;
        forward[i] = i;
        backward[i] = LATCH_JOBS_MOST - 1 - i;
    }
}

/* Lengths of plan, order and answers, in words and entries. */
static void lengths(void) {
    enum { ROW = LATCH_ROW_WORDS, MOST = LATCH_JOBS_MOST };
    static const struct { size_t plan, order, answers; uint32_t due; } tries[] = {
        {0, 0, 0, LATCH_DONE}, {0, 1, 0, LATCH_BAD_PLAN}, {0, 0, 1, LATCH_BAD_PLAN}, {0, 1, 1, LATCH_BAD_PLAN},
        {1, 0, 0, LATCH_BAD_PLAN}, {15, 0, 0, LATCH_BAD_PLAN}, {15, 1, 1, LATCH_BAD_PLAN}, {16, 1, 1, LATCH_DONE},
        {16, 0, 1, LATCH_BAD_PLAN}, {16, 2, 1, LATCH_BAD_PLAN}, {16, 1, 0, LATCH_BAD_PLAN}, {16, 1, 2, LATCH_BAD_PLAN},
        {16, 2, 2, LATCH_BAD_PLAN}, {17, 1, 1, LATCH_BAD_PLAN}, {31, 1, 1, LATCH_BAD_PLAN}, {32, 2, 2, LATCH_DONE},
        {MOST * ROW, MOST, MOST, LATCH_DONE}, {MOST * ROW - 1, MOST, MOST, LATCH_BAD_PLAN},
        {MOST * ROW + 1, MOST, MOST, LATCH_BAD_PLAN}, {MOST * ROW, MOST - 1, MOST, LATCH_BAD_PLAN},
        {MOST * ROW, MOST + 1, MOST, LATCH_BAD_PLAN}, {MOST * ROW, MOST, MOST - 1, LATCH_BAD_PLAN},
        {MOST * ROW, MOST, MOST + 1, LATCH_BAD_PLAN}, {MOST * ROW + ROW, MOST + 1, MOST + 1, LATCH_BAD_PLAN},
        {MOST * ROW + ROW, MOST, MOST, LATCH_BAD_PLAN}};
    for (size_t i = 0; i < COUNT(tries); i++) {
        struct run run = {SIDE, SIDE, NOWHERE, (const uint16_t *)rows, forward, tries[i].plan, tries[i].order, tries[i].answers};
        bool kept = false;
        uint32_t got = run_kept(&run, NULL, &kept);
        check(got == tries[i].due && kept, "latch_run with %zu words, order of %zu, answers of %zu: %u, not %u, kept %d",
              tries[i].plan, tries[i].order, tries[i].answers, got, tries[i].due, kept);
    }
}

/* The ends of what a plane's sides may be, with the first job alone. */
static void sides(void) {
    static const size_t ends[] = {3, 4, 4096, 4097};
    for (size_t i = 0; i < 2 * COUNT(ends); i++) {
        size_t side = ends[i / 2], width = i % 2 ? 8 : side, height = i % 2 ? side : 8;
        struct run run = {width, height, NOWHERE, rows[0], forward, LATCH_ROW_WORDS, 1, 1};
        uint32_t due = side < 4 || side > 4096 ? LATCH_BAD_PLANE : LATCH_DONE;
        bool kept = false;
        uint32_t got = run_kept(&run, NULL, &kept);
        check(got == due && kept, "latch_run, width %zu, height %zu: %u, not %u, kept %d", width, height, got, due, kept);
    }
}

/* An empty plan is done, and 20 still refuses it, whatever the pointers of its empty lists are. */
static void empty(void) {
    static float plane[4 * 4];
    void *const nowhere[] = {NULL, (void *)1, (void *)16, plane};
    for (size_t k = 0; k < 4 * 4 * 4 * 4; k++) {
        for (size_t i = 0; i < COUNT(plane); i++) plane[i] = (float)i;
        void *plan = nowhere[k % 4], *order = nowhere[k / 4 % 4], *differences = nowhere[k / 16 % 4], *answers = nowhere[k / 64];
        uint32_t done = latch_run(plane, COUNT(plane), 4, 4, plan, 0, order, 0, differences, 0, answers, 0);
        uint32_t wrong = latch_run(plane, COUNT(plane), 4, 3, plan, 0, order, 0, differences, 0, answers, 0);
        bool kept = true;
        for (size_t i = 0; i < COUNT(plane); i++) kept = kept && plane[i] == (float)i;
        check(done == LATCH_DONE && wrong == LATCH_BAD_PLANE && kept, "an empty plan, pointers %zu: %u, %u, kept %d", k, done,
              wrong, kept);
    }
}

/* The longest plan backwards: its blocks stand apart, so the order is taken, and all is as the plan's own order has it. */
static void longest_backwards(void) {
    struct run run = {SIDE, SIDE, NOWHERE, (const uint16_t *)rows, backward, LATCH_ROW_WORDS * LATCH_JOBS_MOST,
                      LATCH_JOBS_MOST, LATCH_JOBS_MOST};
    bool kept = false;
    uint32_t got = run_kept(&run, NULL, &kept);
    check(got == LATCH_DONE && kept, "1024 blocks apart, done backwards: %u, kept %d", got, kept);
}

/* A job for each answer, 0 to 8, at its own row of the plan: whichever order they are done in, entry i is plan row i. */
static void answers_at_rows(void) {
    static const uint16_t due[] = {LATCH_DONE, LATCH_BAD_SIZE, LATCH_BAD_DEPTH, LATCH_BAD_MODE, LATCH_OUTSIDE_PLANE,
                                   LATCH_NO_NEIGHBOUR, LATCH_BAD_BASE, LATCH_NO_DIFFERENCES, LATCH_BAD_SAMPLE};
    row_words jobs[COUNT(due)];
    uint16_t answers[COUNT(due)];
    memcpy(jobs, rows, sizeof jobs);
    jobs[1][LATCH_B] = 5;
    jobs[2][LATCH_D] = 9;
    jobs[3][LATCH_MODE] = 5;
    jobs[4][LATCH_X] = SIDE - 3;
    jobs[5][LATCH_FLAGS] = LATCH_HAVE_ABOVE;
    jobs[6][LATCH_BASE] = 0;
    jobs[7][LATCH_DIFFERENCES] = 5;
    jobs[8][LATCH_Y] = 9;
    jobs[8][LATCH_FLAGS] = LATCH_HAVE_ABOVE;
    jobs[8][LATCH_AVAILABLE_ABOVE] = 1;
    for (size_t turn = 0; turn < COUNT(due); turn++) {
        uint16_t order[COUNT(due)];
        for (size_t i = 0; i < COUNT(due); i++) order[i] = (uint16_t)((i + turn) % COUNT(due));
        struct run run = {SIDE, SIDE, 8 * SIDE + 4 * 8, jobs[0], order, COUNT(due) * LATCH_ROW_WORDS, COUNT(due), COUNT(due)};
        bool kept = false;
        uint32_t got = run_kept(&run, answers, &kept);
        check(got == LATCH_DONE && kept, "a job for each answer, turn %zu: %u, kept %d", turn, got, kept);
        for (size_t i = 0; i < COUNT(due); i++)
            check(answers[i] == due[i], "row %zu, turn %zu, is answered %u, not %u", i, turn, answers[i], due[i]);
    }
}

/* Depths together on one plane: a block of 12 bits can be more than a reader of 8 bits takes, which is 8 for that job alone. */
static void depths_together(void) {
    static const row_words jobs[] = {
        {[LATCH_B] = 4, [LATCH_D] = 12, [LATCH_BASE] = 4000},
        {[LATCH_X] = 4, [LATCH_B] = 4, [LATCH_D] = 8, [LATCH_FLAGS] = LATCH_HAVE_LEFT, [LATCH_AVAILABLE_LEFT] = 4},
        {[LATCH_X] = 4, [LATCH_B] = 4, [LATCH_D] = 12, [LATCH_FLAGS] = LATCH_HAVE_LEFT, [LATCH_AVAILABLE_LEFT] = 4},
        {[LATCH_X] = 8, [LATCH_B] = 4, [LATCH_D] = 10, [LATCH_BASE] = 200},
    };
    static const uint16_t order[] = {3, 0, 1, 2}, due[] = {LATCH_DONE, LATCH_BAD_SAMPLE, LATCH_DONE, LATCH_DONE};
    struct run run = {12, 4, NOWHERE, jobs[0], order, COUNT(jobs) * LATCH_ROW_WORDS, COUNT(jobs), COUNT(jobs)};
    uint16_t answers[COUNT(jobs)] = {0};
    bool kept = false;
    uint32_t got = run_kept(&run, answers, &kept);
    check(got == LATCH_DONE && kept && memcmp(answers, due, sizeof due) == 0, "depths together: %u, answers %u %u %u %u, kept %d",
          got, answers[0], answers[1], answers[2], answers[3], kept);
}

void test_plans(void) {
    make_rows();
    lengths();
    sides();
    empty();
    longest_backwards();
    answers_at_rows();
    depths_together();
}

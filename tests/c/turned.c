/* turned.c: pairs that an order turns round, by name: document 01's own, jobs that are refused, and a job between two. */
#include <string.h>

#include "plan.h"

enum { SIDE = 20 };
static const uint16_t backwards[] = {1, 0};
static const uint16_t forwards[] = {0, 1};

/* Two touching blocks, the right one reading the left. */
static const row_words touching[2] = {
    {[LATCH_X] = 4, [LATCH_Y] = 4, [LATCH_B] = 4, [LATCH_D] = 8, [LATCH_BASE] = 128},
    {[LATCH_X] = 8, [LATCH_Y] = 4, [LATCH_B] = 4, [LATCH_D] = 8, [LATCH_FLAGS] = LATCH_HAVE_LEFT, [LATCH_AVAILABLE_LEFT] = 4,
     [LATCH_BOTTOM_LEFT] = 1, [LATCH_BASE] = 128},
};

/* The touching blocks with one word set, done in an order; the answers that are then due, or LATCH_PAIR_TURNED. */
static void ordered(const char *name, const uint16_t *order, int job, int word, uint16_t value, int64_t nan_at, uint32_t due,
                    uint16_t first, uint16_t second) {
    row_words jobs[2];
    memcpy(jobs, touching, sizeof jobs);
    jobs[job][word] = value;
    uint16_t answers[2] = {0};
    bool kept = false;
    struct run run = {SIDE, SIDE, nan_at, jobs[0], order, 2 * LATCH_ROW_WORDS, 2, 2};
    uint32_t got = run_kept(&run, answers, &kept);
    check(got == due && kept, "%s: %u, not %u, kept %d", name, got, due, kept);
    if (due == LATCH_DONE)
        check(answers[0] == first && answers[1] == second, "%s: answers %u, %u, not %u, %u", name, answers[0], answers[1], first,
              second);
}

/* The same backwards. */
static void named(const char *name, int job, int word, uint16_t value, int64_t nan_at, uint32_t due, uint16_t first,
                  uint16_t second) {
    ordered(name, backwards, job, word, value, nan_at, due, first, second);
}

/* The touching blocks with a job between them that meets neither, in all six orders: the pair counts wherever it stands. */
static void between(void) {
    static const uint16_t orders[][3] = {{0, 1, 2}, {0, 2, 1}, {1, 0, 2}, {1, 2, 0}, {2, 0, 1}, {2, 1, 0}};
    row_words jobs[3] = {{0}, {[LATCH_Y] = 12, [LATCH_B] = 8, [LATCH_D] = 10, [LATCH_BASE] = 300}};
    memcpy(jobs[0], touching[0], sizeof jobs[0]);
    memcpy(jobs[2], touching[1], sizeof jobs[2]);
    for (size_t k = 0; k < COUNT(orders); k++) {
        uint32_t due = LATCH_DONE;
        for (int i = 0; i < 3; i++)
            for (int j = i + 1; j < 3; j++)
                if (orders[k][i] == 2 && orders[k][j] == 0) due = LATCH_PAIR_TURNED;
        struct run run = {SIDE, SIDE, NOWHERE, jobs[0], orders[k], 3 * LATCH_ROW_WORDS, 3, 3};
        bool kept = false;
        uint32_t got = run_kept(&run, NULL, &kept);
        check(got == due && kept, "a job between two that clash, order %zu: %u, not %u, kept %d", k, got, due, kept);
    }
}

void test_turned(void) {
    between();
    named("job order written backwards on two touching blocks, the right one reading the left", 0, LATCH_X, 4, NOWHERE,
          LATCH_PAIR_TURNED, LATCH_DONE, LATCH_DONE);
    named("two touching blocks, neither reading", 1, LATCH_FLAGS, 0, NOWHERE, LATCH_DONE, LATCH_DONE, LATCH_DONE);
    ordered("a job that 8 refuses, in the plan's order", forwards, 1, LATCH_X, 8, 8 * SIDE + 7, LATCH_DONE, LATCH_DONE,
            LATCH_BAD_SAMPLE);
    named("a job that 8 refuses still clashes", 1, LATCH_X, 8, 8 * SIDE + 7, LATCH_PAIR_TURNED, LATCH_DONE, LATCH_DONE);
    named("a job that 1 refuses", 0, LATCH_B, 5, NOWHERE, LATCH_DONE, LATCH_BAD_SIZE, LATCH_DONE);
    named("a reader that 1 refuses", 1, LATCH_B, 0, NOWHERE, LATCH_DONE, LATCH_DONE, LATCH_BAD_SIZE);
    named("a job that 2 refuses", 0, LATCH_D, 9, NOWHERE, LATCH_DONE, LATCH_BAD_DEPTH, LATCH_DONE);
    named("a reader that 2 refuses", 1, LATCH_D, 0, NOWHERE, LATCH_DONE, LATCH_DONE, LATCH_BAD_DEPTH);
    named("a job that 3 refuses", 0, LATCH_MODE, 5, NOWHERE, LATCH_DONE, LATCH_BAD_MODE, LATCH_DONE);
    named("a reader that 3 refuses", 1, LATCH_FLAGS, ALL_FLAGS + 1 + LATCH_HAVE_LEFT, NOWHERE, LATCH_DONE, LATCH_DONE,
          LATCH_BAD_MODE);
    named("a job that 4 refuses", 0, LATCH_Y, SIDE - 3, NOWHERE, LATCH_DONE, LATCH_OUTSIDE_PLANE, LATCH_DONE);
    named("a reader that 4 refuses", 1, LATCH_Y, SIDE - 3, NOWHERE, LATCH_DONE, LATCH_DONE, LATCH_OUTSIDE_PLANE);
    named("a reader that 5 refuses", 1, LATCH_AVAILABLE_LEFT, 0, NOWHERE, LATCH_DONE, LATCH_DONE, LATCH_NO_NEIGHBOUR);
    named("a job that 6 refuses", 0, LATCH_BASE, 0, NOWHERE, LATCH_DONE, LATCH_BAD_BASE, LATCH_DONE);
    named("a job that 7 refuses", 0, LATCH_DIFFERENCES, 5, NOWHERE, LATCH_DONE, LATCH_NO_DIFFERENCES, LATCH_DONE);
    named("a reader that 7 refuses", 1, LATCH_DIFFERENCES, 65535, NOWHERE, LATCH_DONE, LATCH_DONE, LATCH_NO_DIFFERENCES);
}

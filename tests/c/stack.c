/* stack.c: runs of the largest blocks, and the largest plans' files, in a thread whose whole stack is 128 KiB: a call that needs
 * more ends the test. */
#define _POSIX_C_SOURCE 200809L
#include <pthread.h>

#include "check.h"

enum { SIDE = 512, ACROSS = 3, JOBS = ACROSS * ACROSS, BLOCK = 64, STACK = 128 * 1024 };

/* Every mode, and a direction of each zone and of each copy. */
static const uint16_t kinds[JOBS][2] = {
    {LATCH_MODE_PAETH, 0},
    {LATCH_MODE_SMOOTH, 0},
    {LATCH_MODE_SMOOTH_V, 0},
    {LATCH_MODE_SMOOTH_H, 0},
    {LATCH_MODE_DIRECTIONAL, LATCH_D45},
    {LATCH_MODE_DIRECTIONAL, LATCH_D135},
    {LATCH_MODE_DIRECTIONAL, LATCH_D203},
    {LATCH_MODE_DIRECTIONAL, LATCH_VERTICAL},
    {LATCH_MODE_DIRECTIONAL, LATCH_HORIZONTAL},
};

static float plane[SIDE * SIDE];
static uint16_t plan[JOBS * LATCH_ROW_WORDS], order[JOBS], answers[JOBS];
static int16_t differences[BLOCK * BLOCK];
static uint16_t rows[LATCH_JOBS_MOST * LATCH_ROW_WORDS], tower_rows[LATCH_JOBS_MOST * TOWER_ROW_WORDS];
static uint8_t file[LATCH_BLOCKS_MOST * LATCH_BLOCK_BYTES], tower_file[TOWER_BLOCKS_MOST * LATCH_BLOCK_BYTES];

/* Jobs that stand apart, so that they may be run backwards: that order is walked and each row compared. */
static void make_plan(void) {
    for (size_t i = 0; i < COUNT(plane); i++) plane[i] = (float)(i % 251);
    for (uint16_t j = 0; j < JOBS; j++) {
        uint16_t *row = plan + j * LATCH_ROW_WORDS;
        row[LATCH_X] = (uint16_t)(BLOCK + 2 * BLOCK * (j % ACROSS));
        row[LATCH_Y] = (uint16_t)(BLOCK + 2 * BLOCK * (j / ACROSS));
        row[LATCH_B] = BLOCK;
        row[LATCH_D] = 8;
        row[LATCH_MODE] = kinds[j][0];
        row[LATCH_DIRECTION] = kinds[j][1];
        row[LATCH_DELTA] = 3;
        row[LATCH_FLAGS] = LATCH_HAVE_ABOVE | LATCH_HAVE_LEFT | LATCH_LUMA | LATCH_EDGE_FILTER;
        row[LATCH_TOP_RIGHT] = row[LATCH_BOTTOM_LEFT] = BLOCK;
        row[LATCH_AVAILABLE_ABOVE] = row[LATCH_AVAILABLE_LEFT] = BLOCK;
        order[j] = (uint16_t)(JOBS - 1 - j);
    }
}

static void *in_thread(void *number) {
    *(uint32_t *)number = latch_run(plane, COUNT(plane), SIDE, SIDE, plan, COUNT(plan), order, JOBS, differences,
                                    COUNT(differences), answers, JOBS);
    for (int j = 0; j < JOBS; j++)
        *(uint32_t *)number |= latch_run_job(plane, COUNT(plane), SIDE, SIDE, plan + j * LATCH_ROW_WORDS, LATCH_ROW_WORDS,
                                             differences, COUNT(differences));
    size_t count[1];
    *(uint32_t *)number |= latch_write_plan(rows, COUNT(rows), file, COUNT(file), count, 1);
    *(uint32_t *)number |= latch_read_plan(file, COUNT(file), rows, COUNT(rows), count, 1);
    *(uint32_t *)number |= tower_write_plan(tower_rows, COUNT(tower_rows), tower_file, COUNT(tower_file), count, 1);
    *(uint32_t *)number |= tower_read_plan(tower_file, COUNT(tower_file), tower_rows, COUNT(tower_rows), count, 1);
    return NULL;
}

void test_stack(void) {
    make_plan();
    pthread_attr_t attributes;
    pthread_t thread;
    uint32_t number = 99;
    bool started = pthread_attr_init(&attributes) == 0 && pthread_attr_setstacksize(&attributes, STACK) == 0 &&
                   pthread_create(&thread, &attributes, in_thread, &number) == 0;
    check(started, "no thread with a stack of %d bytes", STACK);
    if (started) pthread_join(thread, NULL);
    check(number == LATCH_DONE, "in a small stack: %u", number);
    for (int j = 0; j < JOBS; j++) check(answers[j] == LATCH_DONE, "in a small stack, job %d: %u", j, answers[j]);
}

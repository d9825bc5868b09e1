/* tower_stack.c: runs of the largest blocks and windows over three planes in a thread whose whole stack is 1 MiB, which two windows of 256
 * by 256 numbers leave room in: a call that needs more ends the test. */
#define _POSIX_C_SOURCE 200809L
#include <pthread.h>

#include "tower.h"

enum { SIDE = 384, JOBS = 4, STACK = 1 << 20 };

static float planes[TOWER_PLANES][SIDE * SIDE];
static const uint16_t order[JOBS] = {3, 2, 1, 0};
static uint16_t answers[JOBS];
static int16_t differences[64 * 64];
static const tower_row plan[JOBS] = {
    {[LATCH_D] = 8, [LATCH_MODE] = TOWER_MODE_COLOUR, [LATCH_X] = 128, [LATCH_Y] = 128, [TOWER_PLANE] = 1, [TOWER_ABOVE_LINES] = 128,
     [TOWER_LEFT_LINES] = 128, [TOWER_REF_WIDTH] = 256, [TOWER_REF_HEIGHT] = 256, [TOWER_WIDTH] = 128, [TOWER_HEIGHT] = 128,
     [TOWER_HAVE_TOP] = 1, [TOWER_HAVE_LEFT] = 1},
    {[LATCH_D] = 8, [LATCH_MODE] = TOWER_MODE_COLOUR, [LATCH_X] = 383, [LATCH_Y] = 383, [TOWER_PLANE] = 2, [TOWER_ABOVE_LINES] = 255,
     [TOWER_LEFT_LINES] = 255, [TOWER_REF_WIDTH] = 256, [TOWER_REF_HEIGHT] = 256, [TOWER_WIDTH] = 1, [TOWER_HEIGHT] = 1},
    {[LATCH_X] = 300, [LATCH_Y] = 300, [LATCH_B] = 64, [LATCH_D] = 8, [LATCH_BASE] = 9, [TOWER_PLANE] = 1},
    {[LATCH_X] = 300, [LATCH_Y] = 300, [LATCH_B] = 64, [LATCH_D] = 8, [LATCH_MODE] = LATCH_MODE_DIRECTIONAL, [LATCH_DIRECTION] = LATCH_D135,
     [LATCH_DELTA] = 3, [LATCH_FLAGS] = LATCH_HAVE_ABOVE | LATCH_HAVE_LEFT, [LATCH_AVAILABLE_ABOVE] = 64, [LATCH_AVAILABLE_LEFT] = 64},
};

static void *in_thread(void *number) {
    *(uint32_t *)number = tower_run(planes[0], SIDE * SIDE, planes[1], SIDE * SIDE, planes[2], SIDE * SIDE, SIDE, SIDE, plan[0],
                                    JOBS * TOWER_ROW_WORDS, order, JOBS, differences, COUNT(differences), answers, JOBS);
    for (int j = 0; j < JOBS; j++)
        *(uint32_t *)number |= tower_run_job(planes[0], SIDE * SIDE, planes[1], SIDE * SIDE, planes[2], SIDE * SIDE, SIDE, SIDE, plan[j],
                                             TOWER_ROW_WORDS, differences, COUNT(differences));
    return NULL;
}

void test_tower_stack(void) {
    for (size_t i = 0; i < (size_t)SIDE * SIDE; i++)
        for (size_t p = 0; p < TOWER_PLANES; p++) planes[p][i] = (float)(i * (2 * p + 3) % 64);
    for (int j = 0; j < JOBS; j++) answers[j] = 99;
    pthread_attr_t attributes;
    pthread_t thread;
    uint32_t number = 99;
    bool started = pthread_attr_init(&attributes) == 0 && pthread_attr_setstacksize(&attributes, STACK) == 0 &&
                   pthread_create(&thread, &attributes, in_thread, &number) == 0;
    check(started, "no thread with a stack of %d bytes", STACK);
    if (started) pthread_join(thread, NULL);
    check(number == LATCH_DONE, "over three planes in a small stack: %u", number);
    for (int j = 0; j < JOBS; j++) check(answers[j] == LATCH_DONE, "over three planes in a small stack, job %d: %u", j, answers[j]);
}

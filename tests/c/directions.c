/* directions.c: document 01's numbers on paper, cases 9 to 11, through latch_directional; every direction; copies; max words. */
#include "check.h"
#include "latchorchard.h"

enum { MOST = 64, DELTA_0 = 3, BOTH = LATCH_HAVE_ABOVE + LATCH_HAVE_LEFT };
static const uint16_t sizes[] = {4, 8, 16, 32, 64};
static const int32_t corner = 77;

/* Edges in which every entry is another one, and the block of the last call. */
static int32_t above[2 * MOST], left[2 * MOST];
static float out[MOST * MOST];

static uint32_t predict(uint16_t b, uint16_t direction, uint16_t delta, uint16_t flags, uint16_t max) {
    for (int i = 0; i < 2 * MOST; i++) {
        above[i] = i * 37 % 128;
        left[i] = 128 + i * 53 % 128;
    }
    return latch_directional(b, 8, direction, delta, flags, max, max, above, 2u * b, left, 2u * b, corner, out, (size_t)b * b);
}

/* Case 9: angle 45, chroma, no filter: (r, c) is above[r+c+1]. Case 10: angle 135, the same: r = c is the corner. */
static void test_diagonals(void) {
    for (size_t s = 0; s < COUNT(sizes); s++) {
        size_t b = sizes[s], wrong = 0;
        uint32_t answer = predict(sizes[s], LATCH_D45, DELTA_0, BOTH, 0);
        for (size_t k = 0; k < b * b; k++) wrong += out[k] != (float)above[k / b + k % b + 1];
        check(answer == LATCH_DONE && wrong == 0, "paper case 9, B %zu: answer %u, %zu wrong", b, answer, wrong);
        answer = predict(sizes[s], LATCH_D135, DELTA_0, BOTH, 0);
        wrong = 0;
        for (size_t k = 0; k < b; k++) wrong += out[k * b + k] != (float)corner;
        check(answer == LATCH_DONE && wrong == 0, "paper case 10, B %zu: answer %u, %zu wrong", b, answer, wrong);
    }
}

/* Case 11: angle 67, chroma, no filter, above0 10, above1 42: the first sample is 22. */
static void test_between(void) {
    for (size_t s = 0; s < COUNT(sizes); s++) {
        size_t b = sizes[s];
        for (size_t i = 0; i < 2 * b; i++) above[i] = i == 0 ? 10 : 42;
        uint32_t answer = latch_directional(sizes[s], 8, LATCH_D67, DELTA_0, BOTH, 0, 0, above, 2 * b, left, 2 * b, corner,
                                            out, b * b);
        check(answer == LATCH_DONE && out[0] == 22, "paper case 11, B %zu: answer %u, first sample %g", b, answer, out[0]);
    }
}

/* Each direction's first sample, chroma, no filter: above is 42 and then 74, left 106 and then 138, the corner 10. The last four
 * have a step of 24 64ths: twelve 32nds of the farther entry, and twenty of the nearer one. */
static void test_each_direction(void) {
    static const struct { const char *name; uint16_t direction; float first; } cases[] = {
        {"V", LATCH_VERTICAL, 42}, {"H", LATCH_HORIZONTAL, 106}, {"D45", LATCH_D45, 74}, {"D135", LATCH_D135, 10},
        {"D113", LATCH_D113, 30}, {"D157", LATCH_D157, 70}, {"D203", LATCH_D203, 118}, {"D67", LATCH_D67, 54},
    };
    for (size_t i = 0; i < COUNT(cases) * COUNT(sizes); i++) {
        size_t b = sizes[i % COUNT(sizes)], n = i / COUNT(sizes);
        for (size_t k = 0; k < 2 * b; k++) {
            above[k] = k == 0 ? 42 : 74;
            left[k] = k == 0 ? 106 : 138;
        }
        uint32_t answer = latch_directional((uint16_t)b, 8, cases[n].direction, DELTA_0, BOTH, 0, 0, above, 2 * b, left, 2 * b, 10,
                                            out, b * b);
        check(answer == LATCH_DONE && out[0] == cases[n].first, "direction %s, B %zu: answer %u, first sample %g", cases[n].name, b,
              answer, out[0]);
    }
}

/* Angle 90, or below 90 with above missing, copies above down; angle 180, or over 180 with left missing, copies left across. */
static void test_copies(void) {
    static const struct { const char *name; uint16_t direction, delta, flags; bool down; } cases[] = {
        {"angle 90", LATCH_VERTICAL, 3, ALL_FLAGS, true},
        {"angle 90, none there", LATCH_VERTICAL, 3, 0, true},
        {"angle 87, above missing", LATCH_VERTICAL, 2, ALL_FLAGS - LATCH_HAVE_ABOVE, true},
        {"angle 36, above missing", LATCH_D45, 0, ALL_FLAGS - LATCH_HAVE_ABOVE, true},
        {"angle 180", LATCH_HORIZONTAL, 3, ALL_FLAGS, false},
        {"angle 180, none there", LATCH_HORIZONTAL, 3, 0, false},
        {"angle 183, left missing", LATCH_HORIZONTAL, 4, ALL_FLAGS - LATCH_HAVE_LEFT, false},
        {"angle 212, left missing", LATCH_D203, 6, ALL_FLAGS - LATCH_HAVE_LEFT, false},
    };
    for (size_t i = 0; i < COUNT(cases) * COUNT(sizes); i++) {
        size_t b = sizes[i % COUNT(sizes)], n = i / COUNT(sizes), wrong = 0;
        uint32_t answer = predict((uint16_t)b, cases[n].direction, cases[n].delta, cases[n].flags, 1);
        for (size_t k = 0; k < b * b; k++) wrong += out[k] != (float)(cases[n].down ? above[k % b] : left[k / b]);
        check(answer == LATCH_DONE && wrong == 0, "%s, B %zu: answer %u, %zu wrong", cases[n].name, b, answer, wrong);
    }
}

/* A sum that tells the block of one max word from that of another. */
static double block_sum(uint16_t b, uint16_t direction, uint16_t max) {
    uint32_t answer = predict(b, direction, DELTA_0, BOTH + LATCH_LUMA + LATCH_EDGE_FILTER, max);
    check(answer == LATCH_DONE, "direction %d, B %d, max words %d: answer %u", direction, b, max, answer);
    double sum = 0;
    for (int k = 0; k < b * b; k++) sum += (double)out[k] * (k + 1);
    return sum;
}

/* Max word 0 stands for B, and so does every larger one than B; smaller ones filter less of an edge. */
static void test_max_words(void) {
    static const uint16_t directions[] = {LATCH_D45, LATCH_D135, LATCH_D157, LATCH_D203};
    for (size_t i = 0; i < COUNT(directions); i++)
        for (uint16_t b = 16; b <= 64; b = (uint16_t)(b * 2)) {
            double whole = block_sum(b, directions[i], b);
            check(block_sum(b, directions[i], 0) == whole, "direction %d, B %d: max words 0 are not B", directions[i], b);
            check(block_sum(b, directions[i], 65535) == whole, "direction %d, B %d: max words 65535 are not B", directions[i], b);
            check(block_sum(b, directions[i], 1) != whole, "direction %d, B %d: max words 1 are as B", directions[i], b);
        }
}

void test_directions(void) {
    test_diagonals();
    test_between();
    test_each_direction();
    test_copies();
    test_max_words();
}

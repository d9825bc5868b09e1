/* colour_numbers.c: the numbers on paper of document 01 for colour, cases 12 and 15, through the C calls, and blocks by hand. */
#include "check.h"
#include "latchorchard.h"

enum { STRIDE = LATCH_WINDOW_STRIDE, ROWS = 256 };

static int32_t luma[STRIDE * ROWS], chroma[STRIDE * ROWS];

/* Sets all of both lists. */
static void set_all(int32_t luma_value, int32_t chroma_value) {
    for (size_t i = 0; i < COUNT(luma); i++) {
        luma[i] = luma_value;
        chroma[i] = chroma_value;
    }
}

/* Case 15: D 12, all luma 32760: 128 samples are accepted, 129 are not; D 10, luma 8184: 2052 and 2053. All luma 0 as well. */
static void test_sums(void) {
    static const struct { const char *name; uint32_t d, due; int32_t luma; size_t width, height, above, left; } cases[] = {
        {"D 12, 128 samples of 32760", 12, LATCH_DONE, 32760, 130, 3, 2, 0},
        {"D 12, 129 samples of 32760", 12, LATCH_SUM_TOO_LARGE, 32760, 131, 3, 2, 0},
        {"D 10, 2052 samples of 8184", 10, LATCH_DONE, 8184, 173, 14, 256, 0},
        {"D 10, 2053 samples of 8184", 10, LATCH_SUM_TOO_LARGE, 8184, 11, 231, 222, 9},
        {"D 12, 511 samples of 0", 12, LATCH_DONE, 0, 75, 9, 9, 0},
        {"D 12, 512 samples of 0", 12, LATCH_SUM_TOO_LARGE, 0, 66, 10, 10, 0},
        {"D 8, 64516 samples of 0", 8, LATCH_DONE, 0, 256, 256, 256, 256},
    };
    for (size_t i = 0; i < COUNT(cases); i++)
        for (uint32_t direction = 0; direction < 3; direction++) {
            int32_t params[3] = {-7, -7, -7};
            set_all(cases[i].luma, 0);
            uint32_t answer = latch_derive_params(luma, COUNT(luma), chroma, COUNT(chroma), cases[i].width, cases[i].height,
                                                  cases[i].above, cases[i].left, direction, cases[i].d, params, 3);
            check(answer == cases[i].due, "paper case 15, %s: answer %u", cases[i].name, answer);
            /* all chroma 0 makes all parameters 0; a refused call keeps them */
            int32_t due = answer == LATCH_DONE ? 0 : -7;
            check(params[0] == due && params[1] == due && params[2] == due, "%s: parameters %d, %d, %d", cases[i].name,
                  (int)params[0], (int)params[1], (int)params[2]);
        }
}

/* A value out of range goes before a sum too large, even at the last of the samples. */
static void test_last_value(void) {
    int32_t params[3] = {-7, -7, -7};
    for (int of_luma = 0; of_luma < 2; of_luma++) {
        set_all(32760, 0);
        (of_luma ? luma : chroma)[STRIDE + 129] = -1;
        uint32_t answer = latch_derive_params(luma, COUNT(luma), chroma, COUNT(chroma), 131, 3, 2, 0, 0, 12, params, 3);
        check(answer == LATCH_BAD_COLOUR_SAMPLE && params[0] == -7, "129 samples, the last out of range: answer %u", answer);
    }
}

/* No sample counted: 0, 0, 65536. */
static void test_none_counted(void) {
    static const size_t cases[][4] = {{0, 0, 9, 9}, {1, 9, 9, 9}, {9, 1, 9, 9}, {2, 9, 9, 9},
                                      {9, 2, 9, 9}, {9, 9, 0, 0}, {9, 9, 1, 1}};
    set_all(-1, -1);
    for (size_t i = 0; i < COUNT(cases); i++) {
        int32_t params[4] = {-7, -7, -7, -7};
        uint32_t answer = latch_derive_params(luma, cases[i][1] * STRIDE, chroma, cases[i][1] * STRIDE, cases[i][0], cases[i][1],
                                              cases[i][2], cases[i][3], (uint32_t)i % 3, 10, params, 4);
        check(answer == LATCH_DONE && params[0] == 0 && params[1] == 0 && params[2] == 65536 && params[3] == -7,
              "no sample counted, window %zu: answer %u, %d, %d, %d", i, answer, (int)params[0], (int)params[1], (int)params[2]);
    }
}

/* One sample at row 1, column 1 of a window; its own luma is 8 x 1, that above it 8 x 3 and that left of it 8 x 5. */
static int32_t sample(uint32_t direction, uint32_t d, bool top, bool left, int32_t p0, int32_t p1, int32_t p2) {
    int32_t out[2] = {-7, -7};
    set_all(-1, -1);
    luma[STRIDE + 1] = 8 + 7;
    if (direction == LATCH_COLOUR_ABOVE && top) luma[1] = 24;
    if (direction == LATCH_COLOUR_LEFT && left) luma[STRIDE] = 40;
    uint32_t answer = latch_predict_block(luma, 2 * STRIDE, 0, 2, 1, 1, 1, 1, top, left, direction, d, p0, p1, p2, out, 2);
    check(answer == LATCH_DONE && out[1] == -7, "a block of one sample: answer %u, past it %d", answer, (int)out[1]);
    return out[0];
}

static void test_one_sample(void) {
    static const struct { const char *name; uint32_t direction, d; bool top, left; int32_t p0, p1, p2, due; } cases[] = {
        {"paper case 12: -32768 by 1 is -1", LATCH_COLOUR_CENTRE, 8, false, false, -32768, 0, 51200, 99},
        {"-32767 by 1 is 0", LATCH_COLOUR_CENTRE, 8, false, false, -32767, 0, 51200, 100},
        {"32768 by 1 is 1", LATCH_COLOUR_CENTRE, 8, false, false, 32768, 0, 51200, 101},
        {"32767 by 1 is 0", LATCH_COLOUR_CENTRE, 8, false, false, 32767, 0, 51200, 100},
        {"the centre", LATCH_COLOUR_CENTRE, 10, true, true, 65536, 0, 0, 1},
        {"the one above", LATCH_COLOUR_ABOVE, 10, true, true, 65536, 0, 0, 3},
        {"the one left", LATCH_COLOUR_LEFT, 10, true, true, 65536, 0, 0, 5},
        {"above missing", LATCH_COLOUR_ABOVE, 10, false, true, 65536, 0, 0, 1},
        {"left missing", LATCH_COLOUR_LEFT, 10, true, false, 65536, 0, 0, 1},
        {"the middle, D 8", LATCH_COLOUR_CENTRE, 8, false, false, 0, 0, 65536, 128},
        {"the middle, D 12", LATCH_COLOUR_CENTRE, 12, false, false, 0, 0, 65536, 2048},
        {"clipped to 0", LATCH_COLOUR_CENTRE, 12, false, false, -65536, 0, 0, 0},
        {"clipped to M", LATCH_COLOUR_CENTRE, 12, false, false, 0, 0, 65536 * 2, 4095},
        {"all least", LATCH_COLOUR_CENTRE, 12, false, false, INT32_MIN, INT32_MIN, INT32_MIN, 0},
        {"all greatest", LATCH_COLOUR_CENTRE, 12, false, false, INT32_MAX, INT32_MAX, INT32_MAX, 4095},
    };
    for (size_t i = 0; i < COUNT(cases); i++) {
        int32_t got = sample(cases[i].direction, cases[i].d, cases[i].top, cases[i].left, cases[i].p0, cases[i].p1, cases[i].p2);
        check(got == cases[i].due, "%s: %d, not %d", cases[i].name, (int)got, (int)cases[i].due);
    }
}

void test_colour_numbers(void) {
    test_sums();
    test_last_value();
    test_none_counted();
    test_one_sample();
}

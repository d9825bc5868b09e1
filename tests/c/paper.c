/* paper.c: the numbers on paper of document 01, cases 1 to 8, through the C calls, and edges written out by hand. */
#include <stdio.h>
#include <string.h>

#include "check.h"
#include "latchorchard.h"

static void fill(int32_t *list, size_t from, size_t to, int32_t value) {
    for (size_t i = from; i < to; i++) list[i] = value;
}

/* Cases 1 to 3: constant edges give the paper's number at every place. */
static void test_paeth_numbers(void) {
    static const int32_t cases[][4] = {{10, 25, 20, 10}, {25, 10, 20, 10}, {10, 20, 15, 15}};
    static const uint16_t sizes[] = {4, 8, 16, 32, 64};
    for (size_t i = 0; i < COUNT(cases); i++)
        for (size_t s = 0; s < COUNT(sizes); s++) {
            int32_t above[128], left[128];
            static float out[64 * 64];
            size_t b = sizes[s], wrong = 0;
            fill(left, 0, 128, cases[i][0]);
            fill(above, 0, 128, cases[i][1]);
            uint32_t answer = latch_paeth(sizes[s], 8, above, 2 * b, left, 2 * b, cases[i][2], out, b * b);
            for (size_t k = 0; k < b * b; k++) wrong += out[k] != (float)cases[i][3];
            check(answer == LATCH_DONE && wrong == 0, "paper case %zu, B %zu: answer %u, %zu wrong", i + 1, b, answer, wrong);
        }
}

/* Cases 4 and 5, and the same turned on its side for smooth_h; smooth is the rounded mean of both. */
static void test_smooth_numbers(void) {
    static const struct { const char *name; int32_t near, far; float line[4]; } cases[] = {
        {"4", 100, 20, {90, 65, 42, 20}},
        {"5", 20, 100, {30, 55, 78, 100}},
    };
    for (size_t i = 0; i < COUNT(cases); i++) {
        int32_t near[8], far[8];
        float v[16], h[16], both[16];
        fill(near, 0, 4, cases[i].near);
        fill(near, 4, 5, cases[i].far);
        fill(near, 5, 8, 255);
        memcpy(far, near, sizeof far);
        uint32_t answers = latch_smooth_v(4, 8, near, 8, far, 8, 0, v, 16) | latch_smooth_h(4, 8, near, 8, far, 8, 0, h, 16) |
                           latch_smooth(4, 8, near, 8, far, 8, 0, both, 16);
        check(answers == LATCH_DONE, "paper case %s is refused", cases[i].name);
        for (int r = 0; r < 4; r++)
            for (int c = 0; c < 4; c++) {
                float down = cases[i].line[r], across = cases[i].line[c];
                float mean = (float)(((int)down + (int)across + 1) / 2);
                check(v[r * 4 + c] == down, "paper case %s, smooth_v row %d: %g", cases[i].name, r, v[r * 4 + c]);
                check(h[r * 4 + c] == across, "paper case %s, smooth_h column %d: %g", cases[i].name, c, h[r * 4 + c]);
                check(both[r * 4 + c] == mean, "paper case %s, smooth (%d, %d): %g", cases[i].name, r, c, both[r * 4 + c]);
            }
    }
}

/* Cases 6 and 7, and values beside them: one sample, read as the edge above, the left edge and the corner. */
static void test_sample_numbers(void) {
    static const struct { uint32_t bits; int32_t reads; } cases[] = {
        {0x3EFFFFFF, 1}, {0x3EFFFFFE, 0}, {0x3F000000, 1}, {0x42FF0000, 128}, {0x42FEFFFF, 127}, {0x00000000, 0},
        {0x80000000, 0}, {0x00000001, 0}, {0x3F800000, 1}, {0x3FBFFFFF, 1}, {0x3FC00000, 2}, {0x437F0000, 255}, {0x437EFFFF, 255},
        {0x437E7FFF, 254}, {0x437E8000, 255},
    };
    for (size_t i = 0; i < COUNT(cases); i++) {
        float plane[9 * 9];
        int32_t above[128], left[128], corner[1];
        for (size_t k = 0; k < COUNT(plane); k++) memcpy(&plane[k], &cases[i].bits, sizeof(float));
        uint32_t answer = latch_build_refs(plane, 81, 9, 9, 1, 1, 8, 8, true, true, 0, 0, 8, 8, 0, above, 128, left, 128,
                                           corner, 1);
        int32_t due = cases[i].reads;
        bool right = answer == LATCH_DONE && corner[0] == due;
        for (int k = 0; k < 128; k++) right = right && above[k] == (k < 16 ? due : 0) && left[k] == (k < 16 ? due : 0);
        check(right, "bits %08X read %d, not %d (answer %u)", (unsigned)cases[i].bits, (int)corner[0], (int)due, answer);
    }
}

/* Case 8: no neighbours, base 128, at each size; entries past 2B are 0. */
static void test_no_neighbours(void) {
    static float plane[64 * 64];
    for (uint16_t b = 4; b <= 64; b = (uint16_t)(b * 2)) {
        int32_t above[128], left[128], corner[1];
        uint32_t answer = latch_build_refs(plane, 64 * 64, 64, 64, 0, 0, b, 8, false, false, 9, 9, 0, 0, 128, above, 128, left, 128,
                                           corner, 1);
        bool right = answer == LATCH_DONE && corner[0] == 128;
        for (int k = 0; k < 128; k++) right = right && above[k] == (k < 2 * b ? 127 : 0) && left[k] == (k < 2 * b ? 129 : 0);
        check(right, "paper case 8, B %d: answer %u, corner %d", b, answer, (int)corner[0]);
    }
}

/* Edges of a 16 by 12 plane whose samples are their own places; the block of 4 stands at column 4, row 4. */
static void test_edges_by_hand(void) {
    static const struct {
        const char *name;
        bool have_above, have_left;
        uint16_t top_right, bottom_left, available_above, available_left;
        int32_t above[8], left[8], corner;
    } cases[] = {
        {"both", true, true, 4, 4, 4, 4, {52, 53, 54, 55, 56, 57, 58, 59}, {67, 83, 99, 115, 131, 147, 163, 179}, 51},
        {"none past", true, true, 0, 0, 4, 4, {52, 53, 54, 55, 55, 55, 55, 55}, {67, 83, 99, 115, 115, 115, 115, 115}, 51},
        {"some past", true, true, 2, 1, 9, 64, {52, 53, 54, 55, 56, 57, 57, 57}, {67, 83, 99, 115, 131, 131, 131, 131}, 51},
        {"few", true, true, 1, 3, 2, 1, {52, 53, 53, 53, 56, 56, 56, 56}, {67, 67, 67, 67, 131, 147, 163, 163}, 51},
        {"few, none past", true, true, 0, 0, 1, 3, {52, 52, 52, 52, 52, 52, 52, 52}, {67, 83, 99, 99, 99, 99, 99, 99}, 51},
        {"above alone", true, false, 9, 9, 4, 0, {52, 53, 54, 55, 56, 57, 58, 59}, {52, 52, 52, 52, 52, 52, 52, 52}, 52},
        {"left alone", false, true, 9, 9, 0, 4, {67, 67, 67, 67, 67, 67, 67, 67}, {67, 83, 99, 115, 131, 147, 163, 179}, 67},
        {"neither", false, false, 9, 9, 0, 0, {76, 76, 76, 76, 76, 76, 76, 76}, {78, 78, 78, 78, 78, 78, 78, 78}, 77},
    };
    float plane[16 * 12];
    for (size_t i = 0; i < COUNT(plane); i++) plane[i] = (float)i;
    for (size_t i = 0; i < COUNT(cases); i++) {
        int32_t above[128], left[128], corner[1];
        uint32_t answer = latch_build_refs(plane, 192, 16, 12, 4, 4, 4, 8, cases[i].have_above, cases[i].have_left,
                                           cases[i].top_right, cases[i].bottom_left, cases[i].available_above,
                                           cases[i].available_left, 77, above, 128, left, 128, corner, 1);
        check(answer == LATCH_DONE && corner[0] == cases[i].corner, "edges %s: answer %u, corner %d", cases[i].name, answer,
              (int)corner[0]);
        for (int k = 0; k < 8; k++) {
            check(above[k] == cases[i].above[k], "edges %s: above[%d] is %d", cases[i].name, k, (int)above[k]);
            check(left[k] == cases[i].left[k], "edges %s: left[%d] is %d", cases[i].name, k, (int)left[k]);
        }
    }
}

void test_paper(void) {
    test_paeth_numbers();
    test_smooth_numbers();
    test_sample_numbers();
    test_no_neighbours();
    test_edges_by_hand();
}

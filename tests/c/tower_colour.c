/* tower_colour.c: what colour jobs write: at every depth, direction and pair of neighbours, at every border, and numbers by hand. */
#include "tower.h"

static struct planes planes;

/* Samples up to M with fractions: luma goes up and down, and chroma follows it in part. */
static void fill(size_t width, size_t height, int d) {
    int most = (1 << d) - 1;
    for (size_t i = 0; i < width * height; i++) {
        int luma = (int)(i * 97 % 61) * most / 60, first = (luma / 2 + (int)(i * 31 % 17) * 3) % (most + 1), second = most - luma / 3;
        planes.lent[0][i] = (float)luma - (i % 7 == 6 && luma > 0 ? 0.75f : 0.0f);
        planes.lent[1][i] = (float)first - (i % 5 == 4 && first > 0 ? 0.5f : 0.0f);
        planes.lent[2][i] = (float)second - (i % 3 == 2 && second > 0 ? 0.25f : 0.0f);
    }
    remember_planes(&planes);
}

/* A job of the fields over such samples. */
static void written(const int64_t *f) {
    size_t width = (size_t)f[WIDTH], height = (size_t)f[HEIGHT];
    tower_row row;
    lend_planes(&planes, f, 0);
    fill(width, height, (int)f[D]);
    tower_row_of(f, 0, row);
    uint32_t answer = tower_job(&planes, width, height, row, TOWER_ROW_WORDS, NULL, 0);
    if (answer == LATCH_DONE) tower_due(&planes, width, height, row, NULL);
    bool kept = planes_kept(&planes);
    check(answer == LATCH_DONE && kept, "D %d, plane %d, direction %d, block %d by %d at %d, %d: %u, kept %d", row[LATCH_D], row[TOWER_PLANE],
          row[TOWER_COLOUR_DIRECTION], row[TOWER_WIDTH], row[TOWER_HEIGHT], row[LATCH_X], row[LATCH_Y], answer, kept);
}

/* Every depth, direction, plane, pair of neighbours, and windows of every small size at each border of the planes. */
static void every_kind(void) {
    for (int k = 0; k < 3 * 3 * 2 * 4; k++) {
        int64_t d = 8 + 2 * (k % 3), direction = k / 3 % 3, plane = 1 + k / 9 % 2, top = k / 18 % 2, side = k / 36;
        for (int64_t size = 1; size <= 9; size++)
            for (int64_t lines = 0; lines < size; lines++)
                for (int border = 0; border < 4; border++) {
                    int64_t x = border % 2 ? 17 - size : 0, y = border / 2 ? 13 - size : 0;
                    const int64_t f[FIELDS_MOST] = {
                        ANY_COLOUR(d), [WIDTH] = 17, [HEIGHT] = 13, [PLANE_NUMBER] = plane, [COLOUR_DIRECTION] = direction,
                        [HAVE_TOP] = top && lines > 0, [HAVE_SIDE] = side && lines > 0, [X] = x + lines, [Y] = y + lines,
                        [LEFT_LINES] = lines, [ABOVE_LINES] = lines, [REF_WIDTH] = size, [REF_HEIGHT] = size,
                        [COLOUR_WIDTH] = size - lines, [COLOUR_HEIGHT] = 1 + (size - lines) / 2, [LUMA_X] = 17 - size - x,
                        [LUMA_Y] = 13 - size - y};
                    written(f);
                }
    }
}

/* Lines of one side only, and blocks that are not square. */
static void uneven(void) {
    for (int64_t k = 0; k < 3 * 3 * 4; k++) {
        int64_t d = 8 + 2 * (k % 3), direction = k / 3 % 3, above = k / 9 % 2 ? 5 : 0, left = k / 18 ? 4 : 0;
        const int64_t f[FIELDS_MOST] = {
            ANY_COLOUR(d), [WIDTH] = 31, [HEIGHT] = 19, [PLANE_NUMBER] = 1, [COLOUR_DIRECTION] = direction, [HAVE_TOP] = above > 0,
            [HAVE_SIDE] = left > 0, [X] = 9, [Y] = 6, [LEFT_LINES] = left, [ABOVE_LINES] = above, [REF_WIDTH] = 20, [REF_HEIGHT] = 13,
            [COLOUR_WIDTH] = 13, [COLOUR_HEIGHT] = 2, [LUMA_X] = 2, [LUMA_Y] = 5};
        written(f);
    }
}

/* No sample counts: all of the block is 2^(D-1), whatever luma is. */
static void none_counted(void) {
    for (int64_t k = 0; k < 3 * 3; k++) {
        int64_t d = 8 + 2 * (k % 3), lines = k / 3;
        const int64_t f[FIELDS_MOST] = {ANY_COLOUR(d), [WIDTH] = 8, [HEIGHT] = 8, [PLANE_NUMBER] = 2, [X] = 4, [Y] = 3, [LUMA_X] = 1,
                                        [LEFT_LINES] = lines > 0, [ABOVE_LINES] = lines > 1,
                                        [REF_WIDTH] = 4, [REF_HEIGHT] = 3, [COLOUR_WIDTH] = 3, [COLOUR_HEIGHT] = 2};
        tower_row row;
        lend_planes(&planes, f, 0);
        tower_row_of(f, 0, row);
        uint32_t answer = tower_job(&planes, 8, 8, row, TOWER_ROW_WORDS, NULL, 0);
        float *due = zone_due(&planes.zones[2]);
        for (int i = 0; i < 6; i++) due[(3 + i / 3) * 8 + 4 + i % 3] = (float)(1 << (d - 1));
        check(answer == LATCH_DONE && planes_kept(&planes), "no sample counts, D %d, lines %d: %u", (int)d, (int)lines, answer);
    }
}

/* One sample counts, and chroma is 100 there. All luma is 200, so that the three terms are 200, (200 x 200 + 128) / 256 = 156 and 128, and
 * the matrix is their products times 64, with 2 more on the diagonal. The elimination makes its rows 1, 51111, 41938 = 32764; 1, 32528 = 74024;
 * 1 = 43688 (the leading 1 is 65536), so that the parameters are -36012, 52340 and 43688. Their products with the terms are -110, 125 and 85
 * when divided by 65536 and rounded, which is 100 again. */
static void one_counted(void) {
    const int64_t f[FIELDS_MOST] = {ANY_COLOUR(8), [WIDTH] = 8, [HEIGHT] = 8, [PLANE_NUMBER] = 1, [X] = 4, [Y] = 4, [LUMA_X] = 1,
                                    [LUMA_Y] = 2, [LEFT_LINES] = 2, [ABOVE_LINES] = 2, [REF_WIDTH] = 3, [REF_HEIGHT] = 3,
                                    [COLOUR_WIDTH] = 1, [COLOUR_HEIGHT] = 1};
    tower_row row;
    lend_planes(&planes, f, 0);
    tower_row_of(f, 0, row);
    for (size_t i = 0; i < 64; i++) planes.lent[0][i] = 200.0f;
    set_sample(&planes, 0, 0, 200.0f);
    set_sample(&planes, 1, 3 * 8 + 3, 100.0f);
    uint32_t answer = tower_job(&planes, 8, 8, row, TOWER_ROW_WORDS, NULL, 0);
    float *due = zone_due(&planes.zones[1]);
    due[4 * 8 + 4] = 100.0f;
    bool kept = planes_kept(&planes);
    check(answer == LATCH_DONE && kept, "one sample counts: %u, the block is %g, kept %d", answer, (double)planes.lent[1][4 * 8 + 4], kept);
}

void test_tower_colour(void) {
    every_kind();
    uneven();
    none_counted();
    one_counted();
}

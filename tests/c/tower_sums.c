/* tower_sums.c: refusal 14 from both sides, on windows as document 01's case 15 has them; 8 goes before it, and nothing is changed. */
#include "tower.h"

static struct planes planes;

/* A window of one luma value, all chroma 0; its block is one sample below or right of the lines. */
struct sums {
    const char *name;
    int64_t d, luma, width, height, above, left;
    uint32_t due;
};

static const struct sums cases[] = {
    {"D 12, 128 samples of 4095", 12, 4095, 130, 3, 2, 0, LATCH_DONE},
    {"D 12, 129 samples of 4095", 12, 4095, 131, 3, 2, 0, LATCH_SUM_TOO_LARGE},
    {"D 12, 128 samples of 4095 in a column", 12, 4095, 3, 130, 0, 2, LATCH_DONE},
    {"D 12, 129 samples of 4095 in a column", 12, 4095, 3, 131, 0, 2, LATCH_SUM_TOO_LARGE},
    {"D 10, 2052 samples of 1023", 10, 1023, 173, 14, 13, 0, LATCH_DONE},
    {"D 10, 2053 samples of 1023", 10, 1023, 11, 231, 222, 9, LATCH_SUM_TOO_LARGE},
    {"D 12, 511 samples of 0", 12, 0, 75, 9, 8, 0, LATCH_DONE},
    {"D 12, 512 samples of 0", 12, 0, 66, 10, 9, 0, LATCH_SUM_TOO_LARGE},
    {"D 10, 8190 samples of 0", 10, 0, 132, 65, 64, 0, LATCH_DONE},
    {"D 10, 8192 samples of 0", 10, 0, 130, 66, 65, 0, LATCH_SUM_TOO_LARGE},
    {"D 8, 32766 samples of 255", 8, 255, 131, 256, 255, 0, LATCH_DONE},
    {"D 8, 33274 samples of 255", 8, 255, 133, 256, 255, 0, LATCH_SUM_TOO_LARGE},
    {"D 8, 64516 samples of 0", 8, 0, 256, 256, 255, 255, LATCH_DONE},
};

/* Planes that just hold the windows, but for two columns of NaN at the right where there is room for them. */
static void lend(const struct sums *c, int64_t direction, tower_row row) {
    int64_t width = c->width + (c->width < 200 ? 2 : 0), height = c->height < 4 ? 4 : c->height;
    const int64_t f[FIELDS_MOST] = {
        ANY_COLOUR(c->d), [WIDTH] = width, [HEIGHT] = height, [COLOUR_DIRECTION] = direction, [PLANE_NUMBER] = 1 + direction % 2,
        [X] = c->left, [Y] = c->above, [LEFT_LINES] = c->left, [ABOVE_LINES] = c->above, [REF_WIDTH] = c->width,
        [REF_HEIGHT] = c->height, [COLOUR_WIDTH] = 1, [COLOUR_HEIGHT] = 1, [HAVE_TOP] = c->above > 0, [HAVE_SIDE] = c->left > 0};
    lend_planes(&planes, f, 0);
    tower_row_of(f, 0, row);
    for (int64_t i = 0; i < width * height; i++) {
        planes.lent[0][i] = i % width < c->width ? (float)c->luma : __builtin_nanf("");
        planes.lent[row[TOWER_PLANE]][i] = 0;
    }
    remember_planes(&planes);
}

static uint32_t job(const uint16_t *row) {
    size_t width = planes.len[0] / (row[TOWER_REF_HEIGHT] < 4 ? 4 : row[TOWER_REF_HEIGHT]);
    uint32_t answer = tower_job(&planes, width, planes.len[0] / width, row, TOWER_ROW_WORDS, NULL, 0);
    if (answer == LATCH_DONE) tower_due(&planes, width, planes.len[0] / width, row, NULL);
    return answer;
}

void test_tower_sums(void) {
    for (size_t k = 0; k < 3 * COUNT(cases); k++) {
        const struct sums *c = &cases[k / 3];
        tower_row row;
        lend(c, (int64_t)k % 3, row);
        uint32_t answer = job(row);
        check(answer == c->due && planes_kept(&planes), "%s, direction %zu: %u, not %u", c->name, k % 3, answer, c->due);
        /* a sample out of range goes before a sum too large: the last of the luma window, and the last chroma that counts */
        size_t width = planes.len[0] / (c->height < 4 ? 4 : (size_t)c->height);
        lend(c, (int64_t)k % 3, row);
        set_sample(&planes, 0, (size_t)(c->height - 1) * width + (size_t)c->width - 1, 4096.0f);
        answer = job(row);
        check(answer == LATCH_BAD_SAMPLE && planes_kept(&planes), "%s, last luma bad, direction %zu: %u", c->name, k % 3, answer);
        lend(c, (int64_t)k % 3, row);
        size_t last_row = c->left > 1 ? (size_t)c->height - 2 : (size_t)c->above - 1;
        size_t last_column = c->left > 1 && c->above < c->height - 1 ? (size_t)c->left - 1 : (size_t)c->width - 2;
        set_sample(&planes, row[TOWER_PLANE], last_row * width + last_column, -1.0f);
        answer = job(row);
        check(answer == LATCH_BAD_SAMPLE && planes_kept(&planes), "%s, last chroma bad, direction %zu: %u", c->name, k % 3, answer);
    }
}

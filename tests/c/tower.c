/* tower.c: rows of thirty-two words, three planes between guards, what a job is due to write, and guarded runs. */
#include "tower.h"

#include <string.h>

const uint32_t tower_order[] = {
    LATCH_BAD_PLANE, LATCH_BAD_PLAN, LATCH_BAD_SIZE, LATCH_BAD_DEPTH, LATCH_BAD_MODE, LATCH_OUTSIDE_PLANE, LATCH_NO_NEIGHBOUR,
    LATCH_BAD_BASE, LATCH_NO_DIFFERENCES, LATCH_BAD_COLOUR_DIRECTION, LATCH_BAD_REFERENCE, LATCH_BAD_LINES, LATCH_BAD_SAMPLE,
    LATCH_SUM_TOO_LARGE, LATCH_DONE};

void tower_row_of(const int64_t *f, int64_t most, uint16_t *row) {
    row_of(f, most, row);
    for (int w = TOWER_PLANE; w < TOWER_ROW_WORDS; w++) row[w] = (uint16_t)f[PLANE_NUMBER + w - TOWER_PLANE];
}

void remember_planes(struct planes *planes) {
    for (int p = 0; p < TOWER_PLANES; p++) zone_remember(&planes->zones[p]);
}

bool planes_kept(const struct planes *planes) {
    return zone_kept(&planes->zones[0], 0) && zone_kept(&planes->zones[1], 0) && zone_kept(&planes->zones[2], 0);
}

void set_sample(struct planes *planes, int plane, size_t at, float is) {
    planes->lent[plane][at] = is;
    zone_remember(&planes->zones[plane]);
}

void lend_planes(struct planes *planes, const int64_t *f, int64_t most) {
    static const size_t steps[] = {37, 11, 29}, starts[] = {0, 5, 77};
    const int64_t more[] = {f[PLANE_MORE], f[PLANE_1_MORE], f[PLANE_2_MORE]};
    for (int p = 0; p < TOWER_PLANES; p++) {
        int64_t g[FIELDS_MOST];
        memcpy(g, f, sizeof g);
        g[PLANE_MORE] = more[p];
        if (f[SAMPLE_PLANE] != p) g[SAMPLE_AT] = NOWHERE;
        float *plane = planes->lent[p] = block_plane(&planes->zones[p], g, most, &planes->len[p]);
        for (size_t i = 0; i < planes->len[p] && planes->len[p] < 1 << 14; i++)
            if (g[SAMPLE_AT] != EVERYWHERE && g[SAMPLE_AT] != (int64_t)i)
                plane[i] = (float)((i * steps[p] + starts[p]) % 251) + (i % 5 == 3 ? 0.5f : 0.0f);
    }
    remember_planes(planes);
}

/* "v + 0.5 rounded once to f32, then its fraction dropped" */
static int32_t reading(float v) {
    volatile float sum = v + 0.5f;
    return (int32_t)sum;
}

/* A colour job by latch_derive_params and latch_predict_block. */
static void colour_due(const float *luma, float *plane, size_t width, const uint16_t *row) {
    enum { STRIDE = LATCH_WINDOW_STRIDE };
    static int32_t lumas[STRIDE * STRIDE], chromas[STRIDE * STRIDE], out[128 * 128];
    int32_t params[LATCH_COLOUR_PARAMS] = {0};
    size_t rw = row[TOWER_REF_WIDTH], rh = row[TOWER_REF_HEIGHT], above = row[TOWER_ABOVE_LINES], left = row[TOWER_LEFT_LINES];
    size_t w = row[TOWER_WIDTH], h = row[TOWER_HEIGHT], x = row[LATCH_X], y = row[LATCH_Y];
    for (size_t j = 0; j < rh; j++)
        for (size_t i = 0; i < rw; i++) {
            bool counts = j > 0 && j + 1 < rh && i > 0 && i + 1 < rw && (j < above || i < left);
            lumas[j * STRIDE + i] = 8 * reading(luma[(row[TOWER_LUMA_Y] + j) * width + row[TOWER_LUMA_X] + i]);
            chromas[j * STRIDE + i] = counts ? reading(plane[(y - above + j) * width + x - left + i]) : -1;
        }
    uint32_t direction = row[TOWER_COLOUR_DIRECTION], d = row[LATCH_D];
    uint32_t answer = latch_derive_params(lumas, COUNT(lumas), chromas, COUNT(chromas), rw, rh, above, left, direction, d, params, 3);
    if (answer == LATCH_DONE)
        answer = latch_predict_block(lumas, COUNT(lumas), rw, rh, above, left, w, h, row[TOWER_HAVE_TOP], row[TOWER_HAVE_LEFT], direction,
                                     d, params[0], params[1], params[2], out, COUNT(out));
    check(answer == LATCH_DONE, "the colour calls refuse a job that is done: %u", answer);
    for (size_t i = 0; answer == LATCH_DONE && i < w * h; i++) plane[(y + i / w) * width + x + i % w] = (float)out[i];
}

void tower_due(struct planes *planes, size_t width, size_t height, const uint16_t *row, const int16_t *differences) {
    float *plane = zone_due(&planes->zones[row[TOWER_PLANE]]);
    if (row[LATCH_MODE] == TOWER_MODE_COLOUR) colour_due(zone_due(&planes->zones[0]), plane, width, row);
    else job_due(plane, width, height, row, differences);
}

uint32_t tower_job(struct planes *planes, size_t width, size_t height, const uint16_t *row, size_t row_len, const int16_t *differences,
                   size_t differences_len) {
    return tower_run_job(planes->lent[0], planes->len[0], planes->lent[1], planes->len[1], planes->lent[2], planes->len[2], width, height,
                         row, row_len, differences, differences_len);
}

static struct zone plan_zone, order_zone, differences_zone, answers_zone;

static const uint16_t *lend_words(struct zone *zone, const uint16_t *words, size_t len) {
    uint16_t *lent = zone_lend(zone, len * sizeof *lent);
    if (len > 0) memcpy(lent, words, len * sizeof *lent);
    zone_remember(zone);
    return lent;
}

uint32_t tower_over(struct planes *planes, const struct run *run, const int16_t *differences, size_t differences_len, uint16_t *answers,
                    bool *kept) {
    const uint16_t *plan = lend_words(&plan_zone, run->plan, run->plan_len);
    const uint16_t *order = lend_words(&order_zone, run->order, run->order_len);
    uint16_t *lent = zone_lend(&answers_zone, run->answers_len * sizeof *lent);
    zone_remember(&answers_zone);
    uint32_t answer = tower_run(planes->lent[0], planes->len[0], planes->lent[1], planes->len[1], planes->lent[2], planes->len[2],
                                run->width, run->height, plan, run->plan_len, order, run->order_len, differences, differences_len, lent,
                                run->answers_len);
    uint16_t *due = zone_due(&answers_zone);
    float *p[TOWER_PLANES];
    for (int k = 0; k < TOWER_PLANES; k++) p[k] = zone_due(&planes->zones[k]);
    for (size_t i = 0; answer == LATCH_DONE && i < run->answers_len; i++)
        due[i] = (uint16_t)tower_run_job(p[0], planes->len[0], p[1], planes->len[1], p[2], planes->len[2], run->width, run->height,
                                         plan + i * TOWER_ROW_WORDS, TOWER_ROW_WORDS, differences, differences_len);
    *kept = planes_kept(planes) && zone_kept(&plan_zone, 0) && zone_kept(&order_zone, 0) && zone_kept(&answers_zone, 0);
    if (answers != NULL && run->answers_len > 0) memcpy(answers, lent, run->answers_len * sizeof *lent);
    return answer;
}

uint32_t tower_kept(const struct run *run, uint16_t *answers, bool *kept) {
    static struct planes planes;
    int64_t area = (int64_t)(run->width * run->height), at = run->nan_at;
    const int64_t f[FIELDS_MOST] = {[WIDTH] = (int64_t)run->width, [HEIGHT] = (int64_t)run->height, [SAMPLE_IS] = BITS_NAN, [START] = 1,
                                    [SAMPLE_AT] = at == NOWHERE ? at : at % area, [SAMPLE_PLANE] = at == NOWHERE ? 0 : at / area, [B] = 8};
    size_t differences_len;
    lend_planes(&planes, f, 0);
    const int16_t *differences = differences_of(&differences_zone, f, &differences_len);
    uint32_t answer = tower_over(&planes, run, differences, differences_len, answers, kept);
    *kept = *kept && zone_kept(&differences_zone, 0);
    return answer;
}

/* run_kept.c: one latch_run between guards, held to latch_run_job row by row in the plan's order. */
#include <string.h>

#include "plan.h"

static struct zone plane_zone, plan_zone, order_zone, differences_zone, answers_zone;

static const uint16_t *lend_words(struct zone *zone, const uint16_t *words, size_t len) {
    uint16_t *lent = zone_lend(zone, len * sizeof *lent);
    if (len > 0) memcpy(lent, words, len * sizeof *lent);
    zone_remember(zone);
    return lent;
}

uint32_t run_over(struct zone *zone, float *plane, size_t plane_len, const struct run *run, const int16_t *differences,
                  size_t differences_len, uint16_t *answers, bool *kept) {
    const uint16_t *plan = lend_words(&plan_zone, run->plan, run->plan_len);
    const uint16_t *order = lend_words(&order_zone, run->order, run->order_len);
    uint16_t *lent = zone_lend(&answers_zone, run->answers_len * sizeof *lent);
    zone_remember(&answers_zone);
    uint32_t answer = latch_run(plane, plane_len, run->width, run->height, plan, run->plan_len, order, run->order_len,
                                differences, differences_len, lent, run->answers_len);
    uint16_t *due = zone_due(&answers_zone);
    for (size_t i = 0; answer == LATCH_DONE && i < run->answers_len; i++)
        due[i] = (uint16_t)latch_run_job(zone_due(zone), plane_len, run->width, run->height, plan + i * LATCH_ROW_WORDS,
                                         LATCH_ROW_WORDS, differences, differences_len);
    *kept = zone_kept(zone, 0) && zone_kept(&plan_zone, 0) && zone_kept(&order_zone, 0) && zone_kept(&answers_zone, 0);
    if (answers != NULL && run->answers_len > 0) memcpy(answers, lent, run->answers_len * sizeof *lent);
    return answer;
}

uint32_t run_kept(const struct run *run, uint16_t *answers, bool *kept) {
    const int64_t f[FIELDS_MOST] = {[WIDTH] = (int64_t)run->width, [HEIGHT] = (int64_t)run->height, [SAMPLE_AT] = run->nan_at,
                                    [SAMPLE_IS] = BITS_NAN, [START] = 1, [B] = 8};
    size_t plane_len, differences_len;
    float *plane = block_plane(&plane_zone, f, 0, &plane_len);
    const int16_t *differences = differences_of(&differences_zone, f, &differences_len);
    uint32_t answer = run_over(&plane_zone, plane, plane_len, run, differences, differences_len, answers, kept);
    *kept = *kept && zone_kept(&differences_zone, 0);
    return answer;
}

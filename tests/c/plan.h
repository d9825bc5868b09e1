/* plan.h: what the tests of jobs share: a row's fields and faults, differences, what a job is due to write, and a guarded run. */
#ifndef PLAN_H
#define PLAN_H

#include "block.h"
#include "latchorchard.h"

enum { MODE = BLOCK_FIELDS, DIRECTION, DELTA, FLAGS_MORE, MAX_WIDTH, MAX_HEIGHT, START, WORDS_MORE, DIFFERENCES_MORE,
       ROW_FIELDS };
/* FLAGS_MORE: the flags but for above and left. WORDS_MORE: words of the row or the plan more than needed.
 * DIFFERENCES_MORE: entries more than the job of the fields needs. */
#define PLAIN_ROW(d, mode) \
    PLAIN_BLOCK(d), [MODE] = (mode), [DIRECTION] = LATCH_D135, [DELTA] = 2, [FLAGS_MORE] = LATCH_LUMA, [START] = 3
/* Faults of every row, mode 5, which the first library does not have, and faults of the words 5, 6, 13 and 14 by the row's mode. */
extern const struct faults row_faults, mode_5_faults;
struct faults mode_faults(int64_t mode);

typedef uint16_t row_words[LATCH_ROW_WORDS];
/* The row of the fields. */
void row_of(const int64_t *f, int64_t most, row_words row);
/* Lends a list as long as the fields say, of differences of every size, and takes it down. */
const int16_t *differences_of(struct zone *zone, const int64_t *f, size_t *len);

/* Writes a job that nothing refuses into its plane by the direct calls: build_refs, the mode's own, and the rule
 * "prediction plus difference, clipped to 0..M". */
void job_due(float *plane, size_t width, size_t height, const uint16_t *row, const int16_t *differences);

/* A run to be made: a plane of samples below 256, one of which may be NaN, and lists of the lengths that the call is told. */
struct run {
    size_t width, height;
    int64_t nan_at;              /* or NOWHERE */
    const uint16_t *plan, *order;
    size_t plan_len, order_len, answers_len;
};
/* Makes it between guards, with 80 differences. `kept`: all is as it was, but that a run which is done has written what
 * latch_run_job writes and answers, row by row in the plan's order. `answers` (if not null) gets what the list then holds. */
uint32_t run_kept(const struct run *run, uint16_t *answers, bool *kept);
/* The same over a plane that is lent and taken down already, and over differences. */
uint32_t run_over(struct zone *zone, float *plane, size_t plane_len, const struct run *run, const int16_t *differences,
                  size_t differences_len, uint16_t *answers, bool *kept);

#endif

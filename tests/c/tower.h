/* tower.h: what the tests of jobs over three planes share: a row's fields and faults, the planes, what a job is due to write, a guarded run. */
#ifndef TOWER_H
#define TOWER_H

#include "latchtower.h"
#include "plan.h"

/* The words from 16 on, and then: which plane SAMPLE_AT is of, and how much longer planes 1 and 2 are (PLANE_MORE is of plane 0). */
enum { PLANE_NUMBER = ROW_FIELDS, COLOUR_DIRECTION, ABOVE_LINES, LEFT_LINES, REF_WIDTH, REF_HEIGHT, COLOUR_WIDTH, COLOUR_HEIGHT, LUMA_X,
       LUMA_Y, HAVE_TOP, HAVE_SIDE, SPARE_0, SPARE_1, SPARE_2, SPARE_3, SAMPLE_PLANE, PLANE_1_MORE, PLANE_2_MORE, TOWER_FIELDS };
#define ACROSS_BITS \
    (BIT(X) | BIT(WIDTH) | BIT(LEFT_LINES) | BIT(REF_WIDTH) | BIT(COLOUR_WIDTH) | BIT(LUMA_X) | BIT(HAVE_SIDE))
#define DOWN_BITS (BIT(Y) | BIT(HEIGHT) | BIT(ABOVE_LINES) | BIT(REF_HEIGHT) | BIT(COLOUR_HEIGHT) | BIT(LUMA_Y) | BIT(HAVE_TOP))

/* A job of modes 0 to 4 on a plane: the first library's plain row. */
#define PLAIN_TOWER(d, mode, plane) PLAIN_ROW(d, mode), [PLANE_NUMBER] = (plane), [SAMPLE_PLANE] = (plane)
/* What colour jobs share: words that they do not look at are as a job of mode 0 has them, so that any other mode is told by its own number.
 * A plain one is on plane 1, with both neighbours, and takes the luma above. */
#define ANY_COLOUR(d) [B] = 4, [D] = (d), [MODE] = TOWER_MODE_COLOUR, [BASE] = 128, [START] = 1, [SAMPLE_AT] = NOWHERE
#define PLAIN_COLOUR(d) ANY_COLOUR(d), [PLANE_NUMBER] = 1, [COLOUR_DIRECTION] = LATCH_COLOUR_ABOVE, [HAVE_TOP] = 1, [HAVE_SIDE] = 1
/* On planes of 16 by 12: a block of 4 by 3 at column 6, row 5; windows of 9 by 7, chroma's from column 2, row 2 on, luma's from column 2,
 * row 1 on. */
#define SMALL_COLOUR                                                                                             \
    [WIDTH] = 16, [HEIGHT] = 12, [X] = 6, [Y] = 5, [COLOUR_WIDTH] = 4, [COLOUR_HEIGHT] = 3, [LEFT_LINES] = 4, [ABOVE_LINES] = 3, \
    [REF_WIDTH] = 9, [REF_HEIGHT] = 7, [LUMA_X] = 2, [LUMA_Y] = 1
/* On planes of 400 by 8, and of 8 by 400. */
#define WIDE_COLOUR                                                                                               \
    [WIDTH] = 400, [HEIGHT] = 8, [X] = 50, [Y] = 3, [COLOUR_WIDTH] = 4, [COLOUR_HEIGHT] = 2, [LEFT_LINES] = 20, [ABOVE_LINES] = 2, \
    [REF_WIDTH] = 200, [REF_HEIGHT] = 6, [LUMA_X] = 3, [LUMA_Y] = 1
#define TALL_COLOUR                                                                                               \
    [WIDTH] = 8, [HEIGHT] = 400, [X] = 3, [Y] = 50, [COLOUR_WIDTH] = 2, [COLOUR_HEIGHT] = 4, [LEFT_LINES] = 2, [ABOVE_LINES] = 20, \
    [REF_WIDTH] = 6, [REF_HEIGHT] = 200, [LUMA_X] = 1, [LUMA_Y] = 3

/* Faults in the lengths of planes 1 and 2; in the new words of jobs of modes 0 to 4; in planes and rows of any colour job; and in the words
 * of each of the three colour jobs above. */
extern const struct faults planes_faults, words_faults, colour_row_faults, small_faults, sample_faults, wide_faults, tall_faults;
/* The refusals of tower_run_job in the order of checking. */
extern const uint32_t tower_order[];

typedef uint16_t tower_row[TOWER_ROW_WORDS];
/* The row of the fields. */
void tower_row_of(const int64_t *f, int64_t most, uint16_t *row);

struct planes {
    struct zone zones[TOWER_PLANES];
    float *lent[TOWER_PLANES];
    size_t len[TOWER_PLANES];
};
/* Lends the planes of the fields, of numbers below 256, which differ from plane to plane where these are not large, but for one sample or all
 * of a plane. */
void lend_planes(struct planes *planes, const int64_t *f, int64_t most);
/* Takes down what they hold; then planes_kept says whether they are still so. */
void remember_planes(struct planes *planes);
bool planes_kept(const struct planes *planes);
/* Sets one sample and takes the planes down. */
void set_sample(struct planes *planes, int plane, size_t at, float is);

/* Writes a job that nothing refuses into the planes that are due, by the first library's calls. */
void tower_due(struct planes *planes, size_t width, size_t height, const uint16_t *row, const int16_t *differences);
/* tower_run_job on the planes. */
uint32_t tower_job(struct planes *planes, size_t width, size_t height, const uint16_t *row, size_t row_len, const int16_t *differences,
                   size_t differences_len);

/* Makes a run between guards over planes that are lent and taken down. `kept`: all is as it was, but that a run which is done has written
 * what tower_run_job writes and answers, row by row in the plan's order. `answers` (if not null) gets what the list then holds. */
uint32_t tower_over(struct planes *planes, const struct run *run, const int16_t *differences, size_t differences_len, uint16_t *answers,
                    bool *kept);
/* The same with planes of the run's size and 80 differences; nan_at is a place in the three planes laid end to end. */
uint32_t tower_kept(const struct run *run, uint16_t *answers, bool *kept);

#endif

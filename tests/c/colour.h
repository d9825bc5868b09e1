/* colour.h: what the tests of the two colour calls share: their fields, the faults that both can have, and their lists. */
#ifndef COLOUR_H
#define COLOUR_H

#include "check.h"

enum { DIRECTION = OWN_FIELDS, REF_WIDTH, REF_HEIGHT, ABOVE_LINES, LEFT_LINES, LUMA_MORE, LUMA_AT, LUMA_IS, COLOUR_FIELDS };
#define PLACE(row, column) ((row) * 256 + (column))
/* LUMA_AT: no place. */
enum { NOWHERE = -1 };
/* Encodes 8M+7 + k, for the M of the depth in use. */
#define LUMA_PLUS(k) ((INT64_C(1) << 45) + (k))
/* The ends of what luma and chroma may be, encoded. */
enum { ENDS = 4 };
extern const int64_t luma_ends[ENDS], chroma_ends[ENDS];
/* A value that LUMA_PLUS or M_PLUS may encode. */
int32_t colour_value(int64_t value, int64_t d);

/* The faults of both calls: in the depth, the direction, the window, and the luma at row 3, column 3. */
extern const struct faults colour_faults;

/* The entries of a list with `more` than a window of f[REF_HEIGHT] rows needs; of windows that are far too high, of eight. */
size_t colour_length(const int64_t *f, int64_t more);
/* Lends a list of values below 8, but for one, and takes it down. */
int32_t *colour_list(struct zone *zone, size_t len, int64_t at, int32_t is);

#endif

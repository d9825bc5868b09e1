/* block.h: what the tests of a block in a plane share: its fields, the faults that it can have, and its plane. */
#ifndef BLOCK_H
#define BLOCK_H

#include "check.h"

enum { WIDTH = OWN_FIELDS, HEIGHT, PLANE_MORE, SAMPLE_AT, SAMPLE_IS, X, Y, HAVE_ABOVE, HAVE_LEFT, TOP_RIGHT, BOTTOM_LEFT,
       AVAILABLE_ABOVE, AVAILABLE_LEFT, BASE, BLOCK_FIELDS };
#define ABOVE_BITS (BIT(HAVE_ABOVE) | BIT(X) | BIT(Y) | BIT(WIDTH) | BIT(HEIGHT) | BIT(TOP_RIGHT) | BIT(AVAILABLE_ABOVE) | BIT(B))
#define LEFT_BITS (BIT(HAVE_LEFT) | BIT(X) | BIT(Y) | BIT(WIDTH) | BIT(HEIGHT) | BIT(BOTTOM_LEFT) | BIT(AVAILABLE_LEFT) | BIT(B))
/* SAMPLE_AT: a place of the plane, or all of them. SAMPLE_IS: the bits of an f32, or M + k of M_PLUS, as a number, or the
 * f32 next above M. */
#define M_NEXT (INT64_C(1) << 42)
enum { NOWHERE = -1, EVERYWHERE = -2 };
#define BITS_NAN 0x7FC00000
#define BITS_MINUS_ONE 0xBF800000

/* A block of 4 at column 4, row 4 of a plane of 16 by 12, both neighbours there; and what can be wrong with it. */
#define PLAIN_BLOCK(d)                                                                                                     \
    [WIDTH] = 16, [HEIGHT] = 12, [X] = 4, [Y] = 4, [B] = 4, [D] = (d), [HAVE_ABOVE] = 1, [HAVE_LEFT] = 1, [TOP_RIGHT] = 4, \
    [BOTTOM_LEFT] = 4, [AVAILABLE_ABOVE] = 4, [AVAILABLE_LEFT] = 4, [BASE] = 128, [SAMPLE_AT] = NOWHERE
extern const struct faults block_faults;

/* Lends the plane of the fields, whose samples are numbers below 256 but for the one that is set, or all, and takes it down. */
float *block_plane(struct zone *zone, const int64_t *f, int64_t most, size_t *len);

#endif

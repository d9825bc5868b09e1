/* block.c: what can be wrong with a block in a plane, and the plane. */
#include "block.h"

#include <string.h>

static const struct fault faults[] = {
    {"width 3", LATCH_BAD_PLANE, {{WIDTH, 3}}, 0},
    {"width 4097", LATCH_BAD_PLANE, {{WIDTH, 4097}}, 0},
    {"width 0", LATCH_BAD_PLANE, {{WIDTH, 0}}, 0},
    {"height 3", LATCH_BAD_PLANE, {{HEIGHT, 3}}, 0},
    {"height 4097", LATCH_BAD_PLANE, {{HEIGHT, 4097}}, 0},
    {"width 2^62, height 4", LATCH_BAD_PLANE, {{WIDTH, INT64_C(1) << 62}, {HEIGHT, 4}}, 0},
    {"plane one short", LATCH_BAD_PLANE, {{PLANE_MORE, -1}}, 0},
    {"plane one longer", LATCH_BAD_PLANE, {{PLANE_MORE, 1}}, 0},
    {"plane empty", LATCH_BAD_PLANE, {{PLANE_MORE, -192}}, 0},
    {"x 12, no top-right", LATCH_DONE, {{X, 12}, {TOP_RIGHT, 0}}, 0},
    {"y 8, no bottom-left", LATCH_DONE, {{Y, 8}, {BOTTOM_LEFT, 0}}, 0},
    {"x 13", LATCH_OUTSIDE_PLANE, {{X, 13}}, 0},
    {"x 65532", LATCH_OUTSIDE_PLANE, {{X, 65532}}, 0},
    {"y 9", LATCH_OUTSIDE_PLANE, {{Y, 9}}, 0},
    {"y 65532", LATCH_OUTSIDE_PLANE, {{Y, 65532}}, 0},
    {"y 65535", LATCH_OUTSIDE_PLANE, {{Y, 65535}}, 0},
    {"B 16", LATCH_OUTSIDE_PLANE, {{B, 16}}, 0},
    {"y 0", LATCH_NO_NEIGHBOUR, {{Y, 0}}, BIT(HAVE_ABOVE)},
    {"available_above 0", LATCH_NO_NEIGHBOUR, {{AVAILABLE_ABOVE, 0}}, BIT(HAVE_ABOVE)},
    {"top-right one too far", LATCH_NO_NEIGHBOUR, {{X, 12}, {TOP_RIGHT, 1}}, BIT(HAVE_ABOVE) | BIT(WIDTH)},
    {"top-right as far as the plane", LATCH_DONE, {{X, 8}, {TOP_RIGHT, 4}}, 0},
    {"top-right 65535 as far as the plane", LATCH_DONE, {{X, 8}, {TOP_RIGHT, 65535}}, 0},
    {"top-right 65535 one too far", LATCH_NO_NEIGHBOUR, {{X, 9}, {TOP_RIGHT, 65535}}, BIT(HAVE_ABOVE) | BIT(WIDTH)},
    {"x 0", LATCH_NO_NEIGHBOUR, {{X, 0}}, BIT(HAVE_LEFT)},
    {"available_left 0", LATCH_NO_NEIGHBOUR, {{AVAILABLE_LEFT, 0}}, BIT(HAVE_LEFT)},
    {"bottom-left one too far", LATCH_NO_NEIGHBOUR, {{Y, 8}, {BOTTOM_LEFT, 1}}, BIT(HAVE_LEFT) | BIT(HEIGHT)},
    {"bottom-left as far as the plane", LATCH_DONE, {{Y, 5}, {BOTTOM_LEFT, 3}}, 0},
    {"bottom-left 65535 one too far", LATCH_NO_NEIGHBOUR, {{Y, 5}, {BOTTOM_LEFT, 65535}}, BIT(HAVE_LEFT) | BIT(HEIGHT)},
    {"no neighbour, base 0", LATCH_BAD_BASE, {{HAVE_ABOVE, 0}, {HAVE_LEFT, 0}, {BASE, 0}}, 0},
    {"no neighbour, base M", LATCH_BAD_BASE, {{HAVE_ABOVE, 0}, {HAVE_LEFT, 0}, {BASE, M_PLUS(0)}}, 0},
    {"no neighbour, base 65535", LATCH_BAD_BASE, {{HAVE_ABOVE, 0}, {HAVE_LEFT, 0}, {BASE, 65535}}, 0},
    {"no neighbour, base 1", LATCH_DONE, {{HAVE_ABOVE, 0}, {HAVE_LEFT, 0}, {BASE, 1}}, 0},
    {"no neighbour, base M-1", LATCH_DONE, {{HAVE_ABOVE, 0}, {HAVE_LEFT, 0}, {BASE, M_PLUS(-1)}}, 0},
    {"base 0 with neighbours", LATCH_DONE, {{BASE, 0}}, BIT(HAVE_ABOVE) | BIT(HAVE_LEFT)},
    {"above missing, top-right outside", LATCH_DONE, {{HAVE_ABOVE, 0}, {X, 12}}, BIT(WIDTH) | BIT(HAVE_LEFT) | BIT(TOP_RIGHT)},
    {"above missing at row 0", LATCH_DONE, {{HAVE_ABOVE, 0}, {Y, 0}, {AVAILABLE_ABOVE, 0}}, BIT(HAVE_LEFT)},
    {"left missing, bottom-left outside", LATCH_DONE, {{HAVE_LEFT, 0}, {Y, 8}}, BIT(HEIGHT) | BIT(HAVE_ABOVE) | BIT(BOTTOM_LEFT)},
    {"left missing at column 0", LATCH_DONE, {{HAVE_LEFT, 0}, {X, 0}, {AVAILABLE_LEFT, 0}}, BIT(HAVE_ABOVE)},
    {"top-right 65535", LATCH_DONE, {{TOP_RIGHT, 65535}}, ABOVE_BITS},
    {"bottom-left 65535", LATCH_DONE, {{BOTTOM_LEFT, 65535}}, LEFT_BITS},
    {"available_above 65535", LATCH_DONE, {{AVAILABLE_ABOVE, 65535}}, ABOVE_BITS},
    {"available_left 65535", LATCH_DONE, {{AVAILABLE_LEFT, 65535}}, LEFT_BITS},
    {"every sample NaN", LATCH_BAD_SAMPLE, {{SAMPLE_AT, EVERYWHERE}, {SAMPLE_IS, BITS_NAN}}, BIT(HAVE_ABOVE) | BIT(HAVE_LEFT)},
    {"every sample M+1", LATCH_BAD_SAMPLE, {{SAMPLE_AT, EVERYWHERE}, {SAMPLE_IS, M_PLUS(1)}}, BIT(HAVE_ABOVE) | BIT(HAVE_LEFT)},
    {"every sample next above M", LATCH_BAD_SAMPLE,
     {{SAMPLE_AT, EVERYWHERE}, {SAMPLE_IS, M_NEXT}}, BIT(HAVE_ABOVE) | BIT(HAVE_LEFT)},
    {"first above NaN", LATCH_BAD_SAMPLE, {{SAMPLE_AT, 3 * 16 + 4}, {SAMPLE_IS, BITS_NAN}}, ABOVE_BITS},
    {"last above -1", LATCH_BAD_SAMPLE, {{SAMPLE_AT, 3 * 16 + 7}, {SAMPLE_IS, BITS_MINUS_ONE}}, ABOVE_BITS},
    {"last top-right infinite", LATCH_BAD_SAMPLE, {{SAMPLE_AT, 3 * 16 + 11}, {SAMPLE_IS, 0x7F800000}}, ABOVE_BITS},
    {"first left M+1", LATCH_BAD_SAMPLE, {{SAMPLE_AT, 4 * 16 + 3}, {SAMPLE_IS, M_PLUS(1)}}, LEFT_BITS},
    {"last left least negative", LATCH_BAD_SAMPLE, {{SAMPLE_AT, 7 * 16 + 3}, {SAMPLE_IS, 0x80000001}}, LEFT_BITS},
    {"last bottom-left -infinite", LATCH_BAD_SAMPLE, {{SAMPLE_AT, 11 * 16 + 3}, {SAMPLE_IS, 0xFF800000}}, LEFT_BITS},
    {"corner NaN", LATCH_BAD_SAMPLE, {{SAMPLE_AT, 3 * 16 + 3}, {SAMPLE_IS, BITS_NAN}}, ABOVE_BITS | LEFT_BITS},
    {"first above M", LATCH_DONE, {{SAMPLE_AT, 3 * 16 + 4}, {SAMPLE_IS, M_PLUS(0)}}, ABOVE_BITS},
    {"first left -0.0", LATCH_DONE, {{SAMPLE_AT, 4 * 16 + 3}, {SAMPLE_IS, 0x80000000}}, LEFT_BITS},
    {"past top-right NaN", LATCH_DONE, {{SAMPLE_AT, 3 * 16 + 12}, {SAMPLE_IS, BITS_NAN}}, ABOVE_BITS},
    {"inside the block NaN", LATCH_DONE, {{SAMPLE_AT, 4 * 16 + 4}, {SAMPLE_IS, BITS_NAN}}, ABOVE_BITS | LEFT_BITS},
    {"unavailable above NaN", LATCH_DONE, {{SAMPLE_AT, 3 * 16 + 6}, {SAMPLE_IS, BITS_NAN}, {AVAILABLE_ABOVE, 2}}, ABOVE_BITS},
    {"unavailable left NaN", LATCH_DONE, {{SAMPLE_AT, 6 * 16 + 3}, {SAMPLE_IS, BITS_NAN}, {AVAILABLE_LEFT, 2}}, LEFT_BITS},
    {"available above NaN", LATCH_BAD_SAMPLE, {{SAMPLE_AT, 3 * 16 + 5}, {SAMPLE_IS, BITS_NAN}, {AVAILABLE_ABOVE, 2}}, ABOVE_BITS},
    {"above missing, top-right NaN", LATCH_DONE, {{SAMPLE_AT, 3 * 16 + 8}, {SAMPLE_IS, BITS_NAN}, {HAVE_ABOVE, 0}}, LEFT_BITS},
    {"left missing, bottom-left NaN", LATCH_DONE, {{SAMPLE_AT, 8 * 16 + 3}, {SAMPLE_IS, BITS_NAN}, {HAVE_LEFT, 0}}, ABOVE_BITS},
    {"no neighbour, every sample NaN", LATCH_DONE,
     {{SAMPLE_AT, EVERYWHERE}, {SAMPLE_IS, BITS_NAN}, {HAVE_ABOVE, 0}, {HAVE_LEFT, 0}}, BIT(BASE)},
    {"one neighbour, corner NaN", LATCH_DONE, {{SAMPLE_AT, 3 * 16 + 3}, {SAMPLE_IS, BITS_NAN}, {HAVE_LEFT, 0}}, ABOVE_BITS},
};

const struct faults block_faults = FAULTS(faults);

/* The samples are their own places, but for the one that is set, or all. */
static void fill_plane(float *plane, size_t len, int64_t at, int64_t is, int64_t most) {
    float set = (float)(is == M_NEXT ? most : with_max(is, most));
    uint32_t bits = (uint32_t)is;
    if (is == M_NEXT) {
        memcpy(&bits, &set, sizeof bits);
        bits++;
    }
    if (is == M_NEXT || with_max(is, most) == is) memcpy(&set, &bits, sizeof set);
    for (size_t i = 0; i < len; i++) plane[i] = at == EVERYWHERE || (int64_t)i == at ? set : (float)(i % 256);
}

float *block_plane(struct zone *zone, const int64_t *f, int64_t most, size_t *len) {
    size_t whole = (size_t)f[WIDTH] * (size_t)f[HEIGHT];
    *len = f[PLANE_MORE] < 0 && whole < (size_t)-f[PLANE_MORE] ? 0 : whole + (size_t)f[PLANE_MORE];
    if (*len > ZONE_MOST / sizeof(float)) *len = ZONE_MOST / sizeof(float);
    float *plane = zone_lend(zone, *len * sizeof *plane);
    fill_plane(plane, *len, f[SAMPLE_AT], f[SAMPLE_IS], most);
    zone_remember(zone);
    return plane;
}

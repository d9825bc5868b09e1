/* colour.c: what the tests of the two colour calls share: the faults that both can have, and their lists. */
#include "colour.h"

const int64_t luma_ends[ENDS] = {-1, 0, LUMA_PLUS(0), LUMA_PLUS(1)};
const int64_t chroma_ends[ENDS] = {-1, 0, M_PLUS(0), M_PLUS(1)};

static const struct fault faults[] = {
    {"D 0", LATCH_BAD_DEPTH, {{D, 0}}, 0},
    {"D 7", LATCH_BAD_DEPTH, {{D, 7}}, 0},
    {"D 9", LATCH_BAD_DEPTH, {{D, 9}}, 0},
    {"D 11", LATCH_BAD_DEPTH, {{D, 11}}, 0},
    {"D 13", LATCH_BAD_DEPTH, {{D, 13}}, 0},
    {"D 264", LATCH_BAD_DEPTH, {{D, 264}}, 0},
    {"D 65544", LATCH_BAD_DEPTH, {{D, 65544}}, 0},
    {"D greatest", LATCH_BAD_DEPTH, {{D, UINT32_MAX}}, 0},
    {"direction 3", LATCH_BAD_COLOUR_DIRECTION, {{DIRECTION, 3}}, 0},
    {"direction 256", LATCH_BAD_COLOUR_DIRECTION, {{DIRECTION, 256}}, 0},
    {"direction 65536", LATCH_BAD_COLOUR_DIRECTION, {{DIRECTION, 65536}}, 0},
    {"direction greatest", LATCH_BAD_COLOUR_DIRECTION, {{DIRECTION, UINT32_MAX}}, 0},
    {"ref_width 257", LATCH_BAD_REFERENCE, {{REF_WIDTH, 257}}, 0},
    {"ref_width greatest", LATCH_BAD_REFERENCE, {{REF_WIDTH, -1}}, 0},
    {"ref_height 257", LATCH_BAD_REFERENCE, {{REF_HEIGHT, 257}}, 0},
    {"ref_height 2^56", LATCH_BAD_REFERENCE, {{REF_HEIGHT, INT64_C(1) << 56}}, 0},
    {"ref_height greatest", LATCH_BAD_REFERENCE, {{REF_HEIGHT, -1}}, 0},
    {"luma one short", LATCH_BAD_REFERENCE, {{LUMA_MORE, -1}}, 0},
    {"luma empty", LATCH_BAD_REFERENCE, {{LUMA_MORE, NONE}}, 0},
    {"luma longer", LATCH_DONE, {{LUMA_MORE, 3}}, 0},
    {"above_lines 257", LATCH_BAD_LINES, {{ABOVE_LINES, 257}}, 0},
    {"above_lines greatest", LATCH_BAD_LINES, {{ABOVE_LINES, -1}}, 0},
    {"left_lines 257", LATCH_BAD_LINES, {{LEFT_LINES, 257}}, 0},
    {"left_lines greatest", LATCH_BAD_LINES, {{LEFT_LINES, -1}}, 0},
    {"luma -1", LATCH_BAD_COLOUR_SAMPLE, {{LUMA_AT, PLACE(3, 3)}, {LUMA_IS, -1}}, 0},
    {"luma 8M+8", LATCH_BAD_COLOUR_SAMPLE, {{LUMA_AT, PLACE(3, 3)}, {LUMA_IS, LUMA_PLUS(1)}}, 0},
    {"luma least", LATCH_BAD_COLOUR_SAMPLE, {{LUMA_AT, PLACE(3, 3)}, {LUMA_IS, INT32_MIN}}, 0},
    {"luma greatest", LATCH_BAD_COLOUR_SAMPLE, {{LUMA_AT, PLACE(3, 3)}, {LUMA_IS, INT32_MAX}}, 0},
    {"luma 8M+7", LATCH_DONE, {{LUMA_AT, PLACE(3, 3)}, {LUMA_IS, LUMA_PLUS(0)}}, 0},
    {"luma 0", LATCH_DONE, {{LUMA_AT, PLACE(3, 3)}, {LUMA_IS, 0}}, 0},
};

const struct faults colour_faults = FAULTS(faults);

int32_t colour_value(int64_t value, int64_t d) {
    int64_t most = (INT64_C(1) << d) - 1;
    if (value > INT64_C(1) << 44) return (int32_t)(value - LUMA_PLUS(0) + 8 * most + 7);
    return (int32_t)with_max(value, most);
}

size_t colour_length(const int64_t *f, int64_t more) {
    int64_t rows = f[REF_HEIGHT] < 0 || f[REF_HEIGHT] > 257 ? 8 : f[REF_HEIGHT];
    return length(rows * 256, more);
}

int32_t *colour_list(struct zone *zone, size_t len, int64_t at, int32_t is) {
    int32_t *list = zone_lend(zone, len * sizeof *list);
    for (size_t i = 0; i < len; i++) list[i] = (int32_t)(i * 5 % 8);
    if (at >= 0 && (size_t)at < len) list[at] = is;
    zone_remember(zone);
    return list;
}

/* predict_block.c: latch_predict_block at every depth and direction: each refusal, each pair, tails, and which values it needs. */
#include <stdio.h>

#include "colour.h"
#include "latchorchard.h"

enum { WIDTH = COLOUR_FIELDS, HEIGHT, HAVE_TOP, HAVE_LEFT, P0, P1, P2, OUT_MORE };

static const uint32_t order[] = {
    LATCH_BAD_DEPTH, LATCH_BAD_COLOUR_DIRECTION, LATCH_BAD_REFERENCE, LATCH_BAD_LINES, LATCH_SHORT_LIST,
    LATCH_BAD_COLOUR_SAMPLE, LATCH_DONE};

/* The plain block of 4 by 5 stands below 2 lines and right of 3, in a window of 8 rows. */
static const struct fault faults[] = {
    {"direction 0", LATCH_DONE, {{DIRECTION, LATCH_COLOUR_CENTRE}}, 0},
    {"direction 1", LATCH_DONE, {{DIRECTION, LATCH_COLOUR_ABOVE}}, 0},
    {"direction 2", LATCH_DONE, {{DIRECTION, LATCH_COLOUR_LEFT}}, 0},
    {"ref_width 0", LATCH_DONE, {{REF_WIDTH, 0}}, 0},
    {"ref_width 256", LATCH_DONE, {{REF_WIDTH, 256}}, 0},
    {"ref_height 256", LATCH_DONE, {{REF_HEIGHT, 256}}, BIT(HEIGHT) | BIT(ABOVE_LINES)},
    {"ref_height one more than needed", LATCH_DONE, {{REF_HEIGHT, 8}}, BIT(HEIGHT) | BIT(ABOVE_LINES)},
    {"ref_height as needed", LATCH_DONE, {{REF_HEIGHT, 7}}, BIT(HEIGHT) | BIT(ABOVE_LINES)},
    {"ref_height one less", LATCH_BAD_LINES, {{REF_HEIGHT, 6}}, BIT(HEIGHT) | BIT(ABOVE_LINES)},
    {"ref_height 0", LATCH_BAD_LINES, {{REF_HEIGHT, 0}}, BIT(LUMA_MORE)},
    {"above_lines 3", LATCH_DONE, {{ABOVE_LINES, 3}}, BIT(HEIGHT) | BIT(REF_HEIGHT)},
    {"above_lines 4", LATCH_BAD_LINES, {{ABOVE_LINES, 4}}, BIT(HEIGHT) | BIT(REF_HEIGHT)},
    {"left_lines 252", LATCH_DONE, {{LEFT_LINES, 252}}, BIT(WIDTH) | BIT(LUMA_AT)},
    {"left_lines 253", LATCH_BAD_LINES, {{LEFT_LINES, 253}}, BIT(WIDTH)},
    {"left_lines 256", LATCH_BAD_LINES, {{LEFT_LINES, 256}}, 0},
    {"width 0", LATCH_BAD_LINES, {{WIDTH, 0}}, 0},
    {"width 1", LATCH_DONE, {{WIDTH, 1}}, 0},
    {"width 128", LATCH_DONE, {{WIDTH, 128}}, BIT(LEFT_LINES)},
    {"width 129", LATCH_BAD_LINES, {{WIDTH, 129}}, 0},
    {"width greatest", LATCH_BAD_LINES, {{WIDTH, -1}}, 0},
    {"height 0", LATCH_BAD_LINES, {{HEIGHT, 0}}, 0},
    {"height 1", LATCH_DONE, {{HEIGHT, 1}}, BIT(LUMA_AT)},
    {"height 6", LATCH_DONE, {{HEIGHT, 6}}, BIT(REF_HEIGHT) | BIT(ABOVE_LINES)},
    {"height 7", LATCH_BAD_LINES, {{HEIGHT, 7}}, BIT(REF_HEIGHT) | BIT(ABOVE_LINES)},
    {"height 128", LATCH_DONE, {{HEIGHT, 128}, {REF_HEIGHT, 130}}, BIT(ABOVE_LINES)},
    {"height 129", LATCH_BAD_LINES, {{HEIGHT, 129}, {REF_HEIGHT, 131}}, 0},
    {"height greatest", LATCH_BAD_LINES, {{HEIGHT, -1}}, 0},
    {"have_top, above_lines 0", LATCH_BAD_LINES, {{ABOVE_LINES, 0}, {HAVE_TOP, 1}}, 0},
    {"have_left, left_lines 0", LATCH_BAD_LINES, {{LEFT_LINES, 0}, {HAVE_LEFT, 1}}, 0},
    {"no top, above_lines 0", LATCH_DONE, {{ABOVE_LINES, 0}, {HAVE_TOP, 0}}, BIT(REF_HEIGHT) | BIT(HEIGHT)},
    {"no left, left_lines 0", LATCH_DONE, {{LEFT_LINES, 0}, {HAVE_LEFT, 0}}, BIT(WIDTH)},
    {"no top", LATCH_DONE, {{HAVE_TOP, 0}}, 0},
    {"no left", LATCH_DONE, {{HAVE_LEFT, 0}}, 0},
    {"parameters least", LATCH_DONE, {{P0, INT32_MIN}, {P1, INT32_MIN}, {P2, INT32_MIN}}, 0},
    {"parameters greatest", LATCH_DONE, {{P0, INT32_MAX}, {P1, INT32_MAX}, {P2, INT32_MAX}}, 0},
    {"parameters -1", LATCH_DONE, {{P0, -1}, {P1, -1}, {P2, -1}}, 0},
    {"out one short", LATCH_SHORT_LIST, {{OUT_MORE, -1}}, 0},
    {"out empty", LATCH_SHORT_LIST, {{OUT_MORE, NONE}}, 0},
    {"out longer", LATCH_DONE, {{OUT_MORE, 3}}, 0},
};

static struct zone luma_zone, out_zone;

static uint32_t make(const struct call *call, const int64_t *f, bool *kept) {
    size_t luma_len = colour_length(f, f[LUMA_MORE]);
    const int32_t *luma = colour_list(&luma_zone, luma_len, f[LUMA_AT], colour_value(f[LUMA_IS], call->plain[D]));
    int64_t samples = f[WIDTH] < 0 || f[HEIGHT] < 0 ? 20 : f[WIDTH] * f[HEIGHT];
    size_t out_len = length(samples, f[OUT_MORE]);
    int32_t *out = zone_lend(&out_zone, out_len * sizeof *out);
    zone_remember(&out_zone);
    uint32_t answer = latch_predict_block(luma, luma_len, (size_t)f[REF_WIDTH], (size_t)f[REF_HEIGHT], (size_t)f[ABOVE_LINES],
                                          (size_t)f[LEFT_LINES], (size_t)f[WIDTH], (size_t)f[HEIGHT], f[HAVE_TOP],
                                          f[HAVE_LEFT], (uint32_t)f[DIRECTION], (uint32_t)f[D], (int32_t)f[P0],
                                          (int32_t)f[P1], (int32_t)f[P2], out, out_len);
    *kept = zone_kept(&luma_zone, 0) && zone_kept(&out_zone, answer == LATCH_DONE ? (size_t)samples * sizeof *out : 0);
    return answer;
}

static struct call plain_call(int64_t d, int64_t direction, int64_t have_top, int64_t have_left) {
    struct call call = {.order = order, .tables = {colour_faults, FAULTS(faults)}, .make = make,
                        .plain = {[D] = d, [DIRECTION] = direction, [REF_WIDTH] = 7, [REF_HEIGHT] = 8, [ABOVE_LINES] = 2,
                                  [LEFT_LINES] = 3, [LUMA_AT] = NOWHERE, [WIDTH] = 4, [HEIGHT] = 5, [HAVE_TOP] = have_top,
                                  [HAVE_LEFT] = have_left, [P0] = 70000, [P1] = -3000, [P2] = 20000}};
    snprintf(call.name, sizeof call.name, "latch_predict_block D %d direction %d top %d left %d", (int)d, (int)direction,
             (int)have_top, (int)have_left);
    return call;
}

/* Whether the plain block has a sample at a row and a column of the window. */
static bool predicted(int row, int column) {
    return row >= 2 && row < 7 && column >= 3 && column < 7;
}

/* Each luma value in turn at each place of the plain window and next to it: refused where it is needed and out of range. */
static void try_places(const struct call *call) {
    for (int k = 0; k < 8 * 9 * ENDS; k++) {
        int end = k % ENDS, row = k / ENDS / 9, column = k / ENDS % 9;
        bool kept = false, needed = predicted(row, column);
        if (call->plain[DIRECTION] == LATCH_COLOUR_ABOVE) needed = needed || (predicted(row + 1, column) && call->plain[HAVE_TOP]);
        if (call->plain[DIRECTION] == LATCH_COLOUR_LEFT) needed = needed || (predicted(row, column + 1) && call->plain[HAVE_LEFT]);
        int64_t fields[FIELDS_MOST];
        for (int i = 0; i < FIELDS_MOST; i++) fields[i] = call->plain[i];
        fields[LUMA_AT] = PLACE(row, column);
        fields[LUMA_IS] = luma_ends[end];
        uint32_t due = needed && (end == 0 || end == 3) ? LATCH_BAD_COLOUR_SAMPLE : LATCH_DONE;
        uint32_t got = make(call, fields, &kept);
        check(got == due && kept, "%s, luma at row %d, column %d, end %d: %u, not %u, kept %d", call->name, row, column, end, got,
              due, kept);
    }
}

void test_predict_block(void) {
    for (int64_t d = 8; d <= 12; d += 2)
        for (int64_t k = 0; k < 3 * 4; k++) {
            struct call call = plain_call(d, k % 3, k / 3 % 2, k / 6);
            try_places(&call);
            if (k / 3 == 3) try_faults(&call);
        }
}

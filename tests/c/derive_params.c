/* derive_params.c: latch_derive_params at every depth and direction: each refusal, each pair, tails, and which values it needs. */
#include <stdio.h>

#include "colour.h"
#include "latchorchard.h"

enum { CHROMA_MORE = COLOUR_FIELDS, CHROMA_AT, CHROMA_IS, PARAMS_LEN, LUMA_ALL };

static const uint32_t order[] = {
    LATCH_BAD_DEPTH, LATCH_BAD_COLOUR_DIRECTION, LATCH_BAD_REFERENCE, LATCH_BAD_LINES, LATCH_SHORT_LIST,
    LATCH_BAD_COLOUR_SAMPLE, LATCH_SUM_TOO_LARGE, LATCH_DONE};

/* Sizes and lines that change which samples count are not tried with values at a place. */
#define COUNTS (BIT(LUMA_AT) | BIT(CHROMA_AT))

static const struct fault faults[] = {
    {"direction 0", LATCH_DONE, {{DIRECTION, LATCH_COLOUR_CENTRE}}, 0},
    {"direction 1", LATCH_DONE, {{DIRECTION, LATCH_COLOUR_ABOVE}}, 0},
    {"direction 2", LATCH_DONE, {{DIRECTION, LATCH_COLOUR_LEFT}}, 0},
    {"ref_width 0", LATCH_DONE, {{REF_WIDTH, 0}}, COUNTS},
    {"ref_width 2", LATCH_DONE, {{REF_WIDTH, 2}}, COUNTS},
    {"ref_width 3", LATCH_DONE, {{REF_WIDTH, 3}}, COUNTS},
    {"ref_width 256", LATCH_DONE, {{REF_WIDTH, 256}, {ABOVE_LINES, 2}, {LEFT_LINES, 2}}, COUNTS},
    {"ref_height 0", LATCH_DONE, {{REF_HEIGHT, 0}}, COUNTS | BIT(LUMA_MORE) | BIT(CHROMA_MORE)},
    {"ref_height 1", LATCH_DONE, {{REF_HEIGHT, 1}}, COUNTS},
    {"ref_height 3", LATCH_DONE, {{REF_HEIGHT, 3}}, COUNTS},
    {"ref_height 256", LATCH_DONE, {{REF_HEIGHT, 256}, {ABOVE_LINES, 2}, {LEFT_LINES, 2}}, COUNTS},
    {"chroma one short", LATCH_BAD_REFERENCE, {{CHROMA_MORE, -1}}, 0},
    {"chroma empty", LATCH_BAD_REFERENCE, {{CHROMA_MORE, NONE}}, 0},
    {"chroma longer", LATCH_DONE, {{CHROMA_MORE, 3}}, 0},
    {"above_lines 0", LATCH_DONE, {{ABOVE_LINES, 0}}, COUNTS},
    {"above_lines 256", LATCH_DONE, {{ABOVE_LINES, 256}}, 0},
    {"left_lines 0", LATCH_DONE, {{LEFT_LINES, 0}}, COUNTS},
    {"left_lines 256", LATCH_DONE, {{LEFT_LINES, 256}}, 0},
    {"params empty", LATCH_SHORT_LIST, {{PARAMS_LEN, 0}}, 0},
    {"params one short", LATCH_SHORT_LIST, {{PARAMS_LEN, 2}}, 0},
    {"params longer", LATCH_DONE, {{PARAMS_LEN, 5}}, 0},
    {"chroma -1", LATCH_BAD_COLOUR_SAMPLE, {{CHROMA_AT, PLACE(3, 3)}, {CHROMA_IS, -1}}, 0},
    {"chroma M+1", LATCH_BAD_COLOUR_SAMPLE, {{CHROMA_AT, PLACE(3, 3)}, {CHROMA_IS, M_PLUS(1)}}, 0},
    {"chroma M", LATCH_DONE, {{CHROMA_AT, PLACE(3, 3)}, {CHROMA_IS, M_PLUS(0)}}, 0},
    {"a sum too large", LATCH_SUM_TOO_LARGE, {{REF_WIDTH, 256}, {REF_HEIGHT, 256}, {ABOVE_LINES, 256}, {LUMA_ALL, 1}}, 0},
};

static struct zone luma_zone, chroma_zone, params_zone;

static uint32_t make(const struct call *call, const int64_t *f, bool *kept) {
    int64_t d = call->plain[D];
    size_t luma_len = colour_length(f, f[LUMA_MORE]), chroma_len = colour_length(f, f[CHROMA_MORE]);
    int32_t *luma = colour_list(&luma_zone, luma_len, f[LUMA_AT], colour_value(f[LUMA_IS], d));
    if (f[LUMA_ALL]) {
        for (size_t i = 0; i < luma_len; i++)
            if ((int64_t)i != f[LUMA_AT]) luma[i] = colour_value(LUMA_PLUS(0), d);
        zone_remember(&luma_zone);
    }
    const int32_t *chroma = colour_list(&chroma_zone, chroma_len, f[CHROMA_AT], colour_value(f[CHROMA_IS], d));
    size_t params_len = (size_t)f[PARAMS_LEN];
    int32_t *params = zone_lend(&params_zone, params_len * sizeof *params);
    zone_remember(&params_zone);
    uint32_t answer = latch_derive_params(luma, luma_len, chroma, chroma_len, (size_t)f[REF_WIDTH], (size_t)f[REF_HEIGHT],
                                          (size_t)f[ABOVE_LINES], (size_t)f[LEFT_LINES], (uint32_t)f[DIRECTION],
                                          (uint32_t)f[D], params, params_len);
    size_t written = answer == LATCH_DONE ? LATCH_COLOUR_PARAMS * sizeof *params : 0;
    *kept = zone_kept(&luma_zone, 0) && zone_kept(&chroma_zone, 0) && zone_kept(&params_zone, written);
    return answer;
}

/* An accepted call: a window of 7 by 8. Rows 1 to 3 count, and below them columns 1 to 3. */
static struct call plain_call(int64_t d, int64_t direction) {
    struct call call = {.order = order, .tables = {colour_faults, FAULTS(faults)}, .make = make,
                        .plain = {[D] = d, [DIRECTION] = direction, [REF_WIDTH] = 7, [REF_HEIGHT] = 8, [ABOVE_LINES] = 4,
                                  [LEFT_LINES] = 4, [LUMA_AT] = NOWHERE, [CHROMA_AT] = NOWHERE, [PARAMS_LEN] = 3}};
    snprintf(call.name, sizeof call.name, "latch_derive_params D %d direction %d", (int)d, (int)direction);
    return call;
}

/* Whether the sample at a row and a column of the plain window counts, with 3 lines above and 2 at the left. */
static bool counts(int row, int column) {
    return row >= 1 && row <= 6 && column >= 1 && column <= 5 && (row < 3 || column < 2);
}

/* Each value in turn at each place of the plain window and next to it: refused where it is needed and out of range. */
static void try_places(struct call *call, int64_t direction) {
    call->plain[ABOVE_LINES] = 3;
    call->plain[LEFT_LINES] = 2;
    for (int k = 0; k < 8 * 9 * 2 * ENDS; k++) {
        int end = k % ENDS, row = k / (2 * ENDS) / 9, column = k / (2 * ENDS) % 9;
        bool of_luma = k / ENDS % 2 == 0, kept = false;
        bool needed = counts(row, column);
        if (of_luma && direction == LATCH_COLOUR_ABOVE) needed = needed || counts(row + 1, column);
        if (of_luma && direction == LATCH_COLOUR_LEFT) needed = needed || counts(row, column + 1);
        int64_t fields[FIELDS_MOST];
        for (int i = 0; i < FIELDS_MOST; i++) fields[i] = call->plain[i];
        fields[of_luma ? LUMA_AT : CHROMA_AT] = PLACE(row, column);
        fields[of_luma ? LUMA_IS : CHROMA_IS] = of_luma ? luma_ends[end] : chroma_ends[end];
        uint32_t due = needed && (end == 0 || end == 3) ? LATCH_BAD_COLOUR_SAMPLE : LATCH_DONE;
        uint32_t got = make(call, fields, &kept);
        check(got == due && kept, "%s, %s at row %d, column %d, end %d: %u, not %u, kept %d", call->name,
              of_luma ? "luma" : "chroma", row, column, end, got, due, kept);
    }
}

void test_derive_params(void) {
    for (int64_t d = 8; d <= 12; d += 2)
        for (int64_t direction = 0; direction < 3; direction++) {
            struct call call = plain_call(d, direction);
            try_faults(&call);
            try_places(&call, direction);
        }
}

/* direct.c: the five direct predictor calls at every size and depth: each refusal, each pair, lengths and tails. */
#include "check.h"

#include <stdio.h>

#include "latchorchard.h"

typedef uint32_t predictor(uint16_t, uint16_t, const int32_t *, size_t, const int32_t *, size_t, int32_t, float *, size_t);

/* latch_directional has words of its own, and so no function here. */
static const struct { const char *name; predictor *function; } predictors[] = {
    {"latch_paeth", latch_paeth},
    {"latch_smooth", latch_smooth},
    {"latch_smooth_v", latch_smooth_v},
    {"latch_smooth_h", latch_smooth_h},
    {"latch_directional", NULL},
};

enum { OUT_MORE = OWN_FIELDS, ABOVE_AT, ABOVE_IS, LEFT_AT, LEFT_IS, CORNER, DIRECTION, DELTA, FLAGS, MAX_WIDTH, MAX_HEIGHT };
/* Places in an edge: one of these entries is set to ABOVE_IS or LEFT_IS. */
enum { NOWHERE, FIRST, LAST_OF_BLOCK, PAST_BLOCK, LAST, BEYOND };

static const uint32_t order[] = {
    LATCH_BAD_SIZE, LATCH_BAD_DEPTH, LATCH_BAD_MODE, LATCH_SHORT_LIST, LATCH_BAD_SAMPLE, LATCH_DONE};

static const struct fault faults[] = {
    {"out one short", LATCH_SHORT_LIST, {{OUT_MORE, -1}}, 0},
    {"out empty", LATCH_SHORT_LIST, {{OUT_MORE, NONE}}, 0},
    {"out longer", LATCH_DONE, {{OUT_MORE, 3}}, 0},
    {"above[0] -1", LATCH_BAD_SAMPLE, {{ABOVE_AT, FIRST}, {ABOVE_IS, -1}}, 0},
    {"above[0] M+1", LATCH_BAD_SAMPLE, {{ABOVE_AT, FIRST}, {ABOVE_IS, M_PLUS(1)}}, 0},
    {"above[0] M", LATCH_DONE, {{ABOVE_AT, FIRST}, {ABOVE_IS, M_PLUS(0)}}, 0},
    {"above[0] 0", LATCH_DONE, {{ABOVE_AT, FIRST}, {ABOVE_IS, 0}}, 0},
    {"above[B-1] M+1", LATCH_BAD_SAMPLE, {{ABOVE_AT, LAST_OF_BLOCK}, {ABOVE_IS, M_PLUS(1)}}, 0},
    {"above[B] least", LATCH_BAD_SAMPLE, {{ABOVE_AT, PAST_BLOCK}, {ABOVE_IS, INT32_MIN}}, 0},
    {"above[2B-1] -1", LATCH_BAD_SAMPLE, {{ABOVE_AT, LAST}, {ABOVE_IS, -1}}, 0},
    {"above[2B-1] M+1", LATCH_BAD_SAMPLE, {{ABOVE_AT, LAST}, {ABOVE_IS, M_PLUS(1)}}, 0},
    {"above[2B-1] M", LATCH_DONE, {{ABOVE_AT, LAST}, {ABOVE_IS, M_PLUS(0)}}, 0},
    {"above[2B-1] 0", LATCH_DONE, {{ABOVE_AT, LAST}, {ABOVE_IS, 0}}, 0},
    {"above[2B] -1", LATCH_DONE, {{ABOVE_AT, BEYOND}, {ABOVE_IS, -1}, {ABOVE_MORE, 1}}, 0},
    {"above[2B] M+1", LATCH_DONE, {{ABOVE_AT, BEYOND}, {ABOVE_IS, M_PLUS(1)}, {ABOVE_MORE, 1}}, 0},
    {"left[0] -1", LATCH_BAD_SAMPLE, {{LEFT_AT, FIRST}, {LEFT_IS, -1}}, 0},
    {"left[0] M+1", LATCH_BAD_SAMPLE, {{LEFT_AT, FIRST}, {LEFT_IS, M_PLUS(1)}}, 0},
    {"left[0] M", LATCH_DONE, {{LEFT_AT, FIRST}, {LEFT_IS, M_PLUS(0)}}, 0},
    {"left[0] 0", LATCH_DONE, {{LEFT_AT, FIRST}, {LEFT_IS, 0}}, 0},
    {"left[B-1] -1", LATCH_BAD_SAMPLE, {{LEFT_AT, LAST_OF_BLOCK}, {LEFT_IS, -1}}, 0},
    {"left[B] M", LATCH_DONE, {{LEFT_AT, PAST_BLOCK}, {LEFT_IS, M_PLUS(0)}}, 0},
    {"left[B] greatest", LATCH_BAD_SAMPLE, {{LEFT_AT, PAST_BLOCK}, {LEFT_IS, INT32_MAX}}, 0},
    {"left[2B-1] -1", LATCH_BAD_SAMPLE, {{LEFT_AT, LAST}, {LEFT_IS, -1}}, 0},
    {"left[2B-1] M+1", LATCH_BAD_SAMPLE, {{LEFT_AT, LAST}, {LEFT_IS, M_PLUS(1)}}, 0},
    {"left[2B-1] M", LATCH_DONE, {{LEFT_AT, LAST}, {LEFT_IS, M_PLUS(0)}}, 0},
    {"left[2B] M+1", LATCH_DONE, {{LEFT_AT, BEYOND}, {LEFT_IS, M_PLUS(1)}, {LEFT_MORE, 1}}, 0},
    {"left[2B] -1", LATCH_DONE, {{LEFT_AT, BEYOND}, {LEFT_IS, -1}, {LEFT_MORE, 1}}, 0},
    {"corner 0", LATCH_DONE, {{CORNER, 0}}, 0},
    {"corner M", LATCH_DONE, {{CORNER, M_PLUS(0)}}, 0},
    {"corner -1", LATCH_BAD_SAMPLE, {{CORNER, -1}}, 0},
    {"corner M+1", LATCH_BAD_SAMPLE, {{CORNER, M_PLUS(1)}}, 0},
    {"corner least", LATCH_BAD_SAMPLE, {{CORNER, INT32_MIN}}, 0},
    {"corner greatest", LATCH_BAD_SAMPLE, {{CORNER, INT32_MAX}}, 0},
};

/* The words that latch_directional alone takes. */
static const struct fault directional_faults[] = {
    {"the last direction", LATCH_DONE, {{DIRECTION, LATCH_D67}}, 0},
    {"direction 8", LATCH_BAD_MODE, {{DIRECTION, LATCH_D67 + 1}}, 0},
    {"direction 65535", LATCH_BAD_MODE, {{DIRECTION, 65535}}, 0},
    {"delta word 0", LATCH_DONE, {{DELTA, 0}}, 0},
    {"delta word 6", LATCH_DONE, {{DELTA, 6}}, 0},
    {"delta word 7", LATCH_BAD_MODE, {{DELTA, 7}}, 0},
    {"delta word 65535", LATCH_BAD_MODE, {{DELTA, 65535}}, 0},
    {"flags 0", LATCH_DONE, {{FLAGS, 0}}, 0},
    {"every flag", LATCH_DONE, {{FLAGS, ALL_FLAGS}}, 0},
    {"flags 32", LATCH_BAD_MODE, {{FLAGS, ALL_FLAGS + 1}}, 0},
    {"flags 63", LATCH_BAD_MODE, {{FLAGS, 63}}, 0},
    {"flags 256", LATCH_BAD_MODE, {{FLAGS, 256}}, 0},
    {"flags 32768", LATCH_BAD_MODE, {{FLAGS, 32768}}, 0},
    {"max-width 0", LATCH_DONE, {{MAX_WIDTH, 0}}, 0},
    {"max-width 1", LATCH_DONE, {{MAX_WIDTH, 1}}, 0},
    {"max-width 65535", LATCH_DONE, {{MAX_WIDTH, 65535}}, 0},
    {"max-height 0", LATCH_DONE, {{MAX_HEIGHT, 0}}, 0},
    {"max-height 1", LATCH_DONE, {{MAX_HEIGHT, 1}}, 0},
    {"max-height 65535", LATCH_DONE, {{MAX_HEIGHT, 65535}}, 0},
};

static struct zone above_zone, left_zone, out_zone;

/* An edge of small whole numbers, with one entry set; its tail keeps the zone's pattern. */
static const int32_t *edge(struct zone *zone, size_t len, int64_t b, int64_t at, int64_t value) {
    int32_t *entries = zone_lend(zone, len * sizeof *entries);
    for (size_t i = 0; i < len && i < (size_t)(2 * b); i++) entries[i] = (int32_t)(i * 7 % 200);
    const int64_t places[] = {-1, 0, b - 1, b, 2 * b - 1, 2 * b};
    if (at != NOWHERE && places[at] >= 0 && (size_t)places[at] < len) entries[places[at]] = (int32_t)value;
    zone_remember(zone);
    return entries;
}

static uint32_t make(const struct call *call, const int64_t *f, bool *kept) {
    predictor *const *function = call->target;
    int64_t b = f[B] > 128 ? 128 : f[B], most = (INT64_C(1) << call->plain[D]) - 1;
    size_t above_len = length(2 * b, f[ABOVE_MORE]), left_len = length(2 * b, f[LEFT_MORE]);
    size_t out_len = length(b * b, f[OUT_MORE]);
    const int32_t *above = edge(&above_zone, above_len, b, f[ABOVE_AT], with_max(f[ABOVE_IS], most));
    const int32_t *left = edge(&left_zone, left_len, b, f[LEFT_AT], with_max(f[LEFT_IS], most));
    int32_t corner = (int32_t)with_max(f[CORNER], most);
    float *out = zone_lend(&out_zone, out_len * sizeof *out);
    zone_remember(&out_zone);
    uint16_t size = (uint16_t)f[B], depth = (uint16_t)f[D];
    uint32_t answer =
        *function != NULL
            ? (*function)(size, depth, above, above_len, left, left_len, corner, out, out_len)
            : latch_directional(size, depth, (uint16_t)f[DIRECTION], (uint16_t)f[DELTA], (uint16_t)f[FLAGS],
                                (uint16_t)f[MAX_WIDTH], (uint16_t)f[MAX_HEIGHT], above, above_len, left, left_len, corner, out,
                                out_len);
    size_t written = answer == LATCH_DONE ? (size_t)(b * b) * sizeof *out : 0;
    *kept = zone_kept(&above_zone, 0) && zone_kept(&left_zone, 0) && zone_kept(&out_zone, written);
    return answer;
}

void test_direct(void) {
    static const int64_t sizes[] = {4, 8, 16, 32, 64}, depths[] = {8, 10, 12};
    for (size_t p = 0; p < COUNT(predictors); p++)
        for (size_t i = 0; i < COUNT(sizes) * COUNT(depths); i++) {
            int64_t b = sizes[i % COUNT(sizes)], d = depths[i / COUNT(sizes)];
            struct call call = {.order = order, .tables = {size_faults, edge_faults, FAULTS(faults)}, .make = make,
                                .plain = {[B] = b, [D] = d, [CORNER] = 100, [DIRECTION] = (int64_t)i % 8, [DELTA] = 2,
                                          [FLAGS] = ALL_FLAGS},
                                .target = &predictors[p].function};
            if (predictors[p].function == NULL) call.tables[3] = (struct faults)FAULTS(directional_faults);
            snprintf(call.name, sizeof call.name, "%s B %d D %d", predictors[p].name, (int)b, (int)d);
            try_faults(&call);
        }
}

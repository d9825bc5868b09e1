/* build_refs.c: latch_build_refs at every depth: each refusal, each pair, lengths and tails, and which samples are read. */
#include <stdio.h>

#include "block.h"
#include "latchorchard.h"

enum { CORNER_LEN = BLOCK_FIELDS };

static const uint32_t order[] = {
    LATCH_BAD_PLANE, LATCH_BAD_SIZE, LATCH_BAD_DEPTH, LATCH_OUTSIDE_PLANE, LATCH_NO_NEIGHBOUR, LATCH_BAD_BASE,
    LATCH_SHORT_LIST, LATCH_BAD_SAMPLE, LATCH_DONE};

static const struct fault faults[] = {
    {"corner empty", LATCH_SHORT_LIST, {{CORNER_LEN, 0}}, 0},
    {"corner longer", LATCH_DONE, {{CORNER_LEN, 4}}, 0},
};

static struct zone plane_zone, above_zone, left_zone, corner_zone;

static uint32_t make(const struct call *call, const int64_t *f, bool *kept) {
    int64_t most = (INT64_C(1) << call->plain[D]) - 1;
    size_t plane_len;
    const float *plane = block_plane(&plane_zone, f, most, &plane_len);
    size_t above_len = length(LATCH_EDGE_ENTRIES, f[ABOVE_MORE]), left_len = length(LATCH_EDGE_ENTRIES, f[LEFT_MORE]);
    int32_t *above = zone_lend(&above_zone, above_len * sizeof *above);
    int32_t *left = zone_lend(&left_zone, left_len * sizeof *left);
    int32_t *corner = zone_lend(&corner_zone, (size_t)f[CORNER_LEN] * sizeof *corner);
    zone_remember(&above_zone);
    zone_remember(&left_zone);
    zone_remember(&corner_zone);
    uint32_t answer = latch_build_refs(
        plane, plane_len, (size_t)f[WIDTH], (size_t)f[HEIGHT], (uint16_t)f[X], (uint16_t)f[Y], (uint16_t)f[B], (uint16_t)f[D],
        f[HAVE_ABOVE], f[HAVE_LEFT], (uint16_t)f[TOP_RIGHT], (uint16_t)f[BOTTOM_LEFT], (uint16_t)f[AVAILABLE_ABOVE],
        (uint16_t)f[AVAILABLE_LEFT], (uint16_t)with_max(f[BASE], most), above, above_len, left, left_len,
        corner, (size_t)f[CORNER_LEN]);
    size_t edge = answer == LATCH_DONE ? LATCH_EDGE_ENTRIES * sizeof *above : 0;
    *kept = zone_kept(&plane_zone, 0) && zone_kept(&above_zone, edge) && zone_kept(&left_zone, edge) &&
            zone_kept(&corner_zone, answer == LATCH_DONE ? sizeof *corner : 0);
    return answer;
}

void test_build_refs(void) {
    for (int64_t d = 8; d <= 12; d += 2) {
        struct call call = {.order = order, .tables = {size_faults, edge_faults, block_faults, FAULTS(faults)}, .make = make,
                            .plain = {PLAIN_BLOCK(d), [CORNER_LEN] = 1}};
        snprintf(call.name, sizeof call.name, "latch_build_refs D %d", (int)d);
        try_faults(&call);
    }
}

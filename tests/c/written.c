/* written.c: "Written sample: prediction plus difference, clipped to 0..M", at every size, depth and mode. */
#include <stdlib.h>

#include "plan.h"

static struct zone plane_zone, differences_zone;

/* Document 01's Paeth of left l, above t and corner k. */
static int paeth(int l, int t, int k) {
    int b = l + t - k;
    if (abs(b - l) <= abs(b - t) && abs(b - l) <= abs(b - k)) return l;
    return abs(b - t) <= abs(b - k) ? t : k;
}

/* A block without neighbours: above is base - 1, left base + 1, the corner base, so that Paeth predicts one value. */
static void flat(int b, int d, int base) {
    int most = (1 << d) - 1, predicted = paeth(base + 1, base - 1, base);
    const int64_t f[FIELDS_MOST] = {[WIDTH] = b + 5, [HEIGHT] = b + 3, [X] = 4, [Y] = 2, [B] = b, [D] = d, [BASE] = base,
                                    [START] = 2, [SAMPLE_AT] = EVERYWHERE, [SAMPLE_IS] = BITS_NAN};
    size_t plane_len, differences_len, width = (size_t)b + 5;
    float *plane = block_plane(&plane_zone, f, most, &plane_len), *due = zone_due(&plane_zone);
    const int16_t *differences = differences_of(&differences_zone, f, &differences_len);
    row_words row;
    row_of(f, most, row);
    uint32_t answer = latch_run_job(plane, plane_len, width, (size_t)b + 3, row, LATCH_ROW_WORDS, differences, differences_len);
    for (int i = 0; i < b * b; i++) {
        int sum = predicted + differences[2 * LATCH_DIFFERENCES_UNIT + i];
        due[(size_t)(2 + i / b) * width + 4 + (size_t)(i % b)] = (float)(sum < 0 ? 0 : sum > most ? most : sum);
    }
    bool kept = zone_kept(&plane_zone, 0) && zone_kept(&differences_zone, 0);
    check(answer == LATCH_DONE && kept, "no neighbours, B %d, D %d, base %d: %u, kept %d", b, d, base, answer, kept);
}

/* A block with all its neighbours, whose samples go up to M with fractions, against the direct calls. */
static void edged(int b, int d, int mode, int direction, int delta, int flags) {
    const int64_t f[FIELDS_MOST] = {
        [WIDTH] = 3 * b + 2, [HEIGHT] = 3 * b + 1, [X] = b + 1, [Y] = b, [B] = b, [D] = d, [MODE] = mode, [DIRECTION] = direction,
        [DELTA] = delta, [FLAGS_MORE] = flags & 28, [HAVE_ABOVE] = flags & 1, [HAVE_LEFT] = flags >> 1 & 1, [TOP_RIGHT] = b - 1,
        [BOTTOM_LEFT] = b, [AVAILABLE_ABOVE] = b, [AVAILABLE_LEFT] = b - 1, [BASE] = 7, [MAX_WIDTH] = b / 2, [START] = 1,
        [SAMPLE_AT] = NOWHERE};
    size_t plane_len, differences_len, width = (size_t)f[WIDTH], height = (size_t)f[HEIGHT];
    float *plane = block_plane(&plane_zone, f, 0, &plane_len);
    for (size_t i = 0; i < plane_len; i++) plane[i] = (float)(i * i * 7919 % (((size_t)1 << d) - 1)) + (float)(i % 4) / 4;
    zone_remember(&plane_zone);
    const int16_t *differences = differences_of(&differences_zone, f, &differences_len);
    row_words row;
    row_of(f, 0, row);
    uint32_t answer = latch_run_job(plane, plane_len, width, height, row, LATCH_ROW_WORDS, differences, differences_len);
    if (answer == LATCH_DONE) job_due(zone_due(&plane_zone), width, height, row, differences);
    bool kept = zone_kept(&plane_zone, 0) && zone_kept(&differences_zone, 0);
    check(answer == LATCH_DONE && kept, "B %d, D %d, mode %d, direction %d, delta %d, flags %d: %u, kept %d", b, d, mode,
          direction, delta, flags, answer, kept);
}

void test_written(void) {
    for (int k = 0; k < 5 * 3; k++) {
        int b = 4 << k % 5, d = 8 + 2 * (k / 5), most = (1 << d) - 1;
        const int bases[] = {1, 128, most - 1};
        for (size_t i = 0; i < COUNT(bases); i++) flat(b, d, bases[i]);
        for (int mode = 0; mode < 4; mode++)
            for (int flags = 0; flags < 4; flags++) edged(b, d, mode, 9, 9, flags);
        for (int turn = 0; turn < 8 * 7; turn++)
            for (int flags = turn % 3; flags < 32; flags += 3) edged(b, d, LATCH_MODE_DIRECTIONAL, turn % 8, turn / 8, flags);
    }
}

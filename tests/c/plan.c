/* plan.c: rows, their faults and differences, and what a job is due to write. */
#include "plan.h"

static const struct fault of_row[] = {
    {"words one short", LATCH_BAD_PLAN, {{WORDS_MORE, -1}}, 0},
    {"words one more", LATCH_BAD_PLAN, {{WORDS_MORE, 1}}, 0},
    {"words a row more", LATCH_BAD_PLAN, {{WORDS_MORE, LATCH_ROW_WORDS}}, 0},
    {"no words", LATCH_BAD_PLAN, {{WORDS_MORE, NONE}}, 0},
    {"mode 260", LATCH_BAD_MODE, {{MODE, 260}}, 0},
    {"mode 65535", LATCH_BAD_MODE, {{MODE, 65535}}, 0},
    {"flag bit 5", LATCH_BAD_MODE, {{FLAGS_MORE, 1 << 5}}, 0},
    {"flag bit 8", LATCH_BAD_MODE, {{FLAGS_MORE, 1 << 8}}, 0},
    {"flag bit 15", LATCH_BAD_MODE, {{FLAGS_MORE, 1 << 15}}, 0},
    {"flag bits 2 to 15", LATCH_BAD_MODE, {{FLAGS_MORE, 0xFFFC}}, 0},
    {"flag bits 2 to 4", LATCH_DONE, {{FLAGS_MORE, 0x1C}}, 0},
    {"differences one short", LATCH_NO_DIFFERENCES, {{DIFFERENCES_MORE, -1}}, 0},
    {"differences end where the job's start", LATCH_NO_DIFFERENCES, {{DIFFERENCES_MORE, -16}}, 0},
    {"differences 65536 short of their start", LATCH_NO_DIFFERENCES, {{START, 4096}, {DIFFERENCES_MORE, -65536}}, 0},
    {"differences longer", LATCH_DONE, {{DIFFERENCES_MORE, 3}}, 0},
    {"differences from 8000 units on", LATCH_DONE, {{START, 8000}}, 0},
};

static const struct fault of_mode_5[] = {{"mode 5", LATCH_BAD_MODE, {{MODE, 5}}, 0}};

/* In modes 0 to 3 the words 5, 6, 13 and 14 are not looked at. */
static const struct fault of_plain_mode[] = {
    {"direction 8", LATCH_DONE, {{DIRECTION, 8}}, 0},
    {"direction 65535", LATCH_DONE, {{DIRECTION, 65535}}, 0},
    {"delta word 7", LATCH_DONE, {{DELTA, 7}}, 0},
    {"delta word 65535", LATCH_DONE, {{DELTA, 65535}}, 0},
    {"max-width and max-height 65535", LATCH_DONE, {{MAX_WIDTH, 65535}, {MAX_HEIGHT, 65535}}, 0},
};

static const struct fault of_direction[] = {
    {"direction 0", LATCH_DONE, {{DIRECTION, 0}}, 0},
    {"direction 7", LATCH_DONE, {{DIRECTION, 7}}, 0},
    {"direction 8", LATCH_BAD_MODE, {{DIRECTION, 8}}, 0},
    {"direction 65535", LATCH_BAD_MODE, {{DIRECTION, 65535}}, 0},
    {"delta word 0", LATCH_DONE, {{DELTA, 0}}, 0},
    {"delta word 6", LATCH_DONE, {{DELTA, 6}}, 0},
    {"delta word 7", LATCH_BAD_MODE, {{DELTA, 7}}, 0},
    {"delta word 65535", LATCH_BAD_MODE, {{DELTA, 65535}}, 0},
    {"max-width 1", LATCH_DONE, {{MAX_WIDTH, 1}}, 0},
    {"max-height 1", LATCH_DONE, {{MAX_HEIGHT, 1}}, 0},
    {"max-width and max-height 65535", LATCH_DONE, {{MAX_WIDTH, 65535}, {MAX_HEIGHT, 65535}}, 0},
};

const struct faults row_faults = FAULTS(of_row), mode_5_faults = FAULTS(of_mode_5);

struct faults mode_faults(int64_t mode) {
    struct faults plain = FAULTS(of_plain_mode), direction = FAULTS(of_direction);
    return mode == LATCH_MODE_DIRECTIONAL ? direction : plain;
}

void row_of(const int64_t *f, int64_t most, row_words row) {
    static const int fields[LATCH_ROW_WORDS] = {
        [LATCH_X] = X, [LATCH_Y] = Y, [LATCH_B] = B, [LATCH_D] = D, [LATCH_MODE] = MODE, [LATCH_DIRECTION] = DIRECTION,
        [LATCH_DELTA] = DELTA, [LATCH_FLAGS] = FLAGS_MORE, [LATCH_TOP_RIGHT] = TOP_RIGHT, [LATCH_BOTTOM_LEFT] = BOTTOM_LEFT,
        [LATCH_AVAILABLE_ABOVE] = AVAILABLE_ABOVE, [LATCH_AVAILABLE_LEFT] = AVAILABLE_LEFT, [LATCH_BASE] = BASE,
        [LATCH_MAX_WIDTH] = MAX_WIDTH, [LATCH_MAX_HEIGHT] = MAX_HEIGHT, [LATCH_DIFFERENCES] = START};
    for (int w = 0; w < LATCH_ROW_WORDS; w++) row[w] = (uint16_t)with_max(f[fields[w]], most);
    if (f[HAVE_ABOVE]) row[LATCH_FLAGS] |= LATCH_HAVE_ABOVE;
    if (f[HAVE_LEFT]) row[LATCH_FLAGS] |= LATCH_HAVE_LEFT;
}

const int16_t *differences_of(struct zone *zone, const int64_t *f, size_t *len) {
    int64_t b = f[B] > 64 ? 64 : f[B];
    *len = length(f[START] * LATCH_DIFFERENCES_UNIT + b * b, f[DIFFERENCES_MORE]);
    int16_t *differences = zone_lend(zone, *len * sizeof *differences);
    for (size_t i = 0; i < *len; i++)
        differences[i] = (int16_t)(i % 11 == 10 ? INT16_MIN : i % 7 == 6 ? INT16_MAX : (int)(i * 5 % 41) - 20);
    zone_remember(zone);
    return differences;
}

/* The block that the mode's own call predicts. */
static uint32_t predict(const uint16_t *row, const int32_t *above, const int32_t *left, int32_t corner, float *out) {
    typedef uint32_t predictor(uint16_t, uint16_t, const int32_t *, size_t, const int32_t *, size_t, int32_t, float *, size_t);
    static predictor *const plain[] = {[LATCH_MODE_PAETH] = latch_paeth, [LATCH_MODE_SMOOTH] = latch_smooth,
                                       [LATCH_MODE_SMOOTH_V] = latch_smooth_v, [LATCH_MODE_SMOOTH_H] = latch_smooth_h};
    uint16_t b = row[LATCH_B], d = row[LATCH_D];
    if (row[LATCH_MODE] != LATCH_MODE_DIRECTIONAL)
        return plain[row[LATCH_MODE]](b, d, above, LATCH_EDGE_ENTRIES, left, LATCH_EDGE_ENTRIES, corner, out, 64 * 64);
    return latch_directional(b, d, row[LATCH_DIRECTION], row[LATCH_DELTA], row[LATCH_FLAGS], row[LATCH_MAX_WIDTH],
                             row[LATCH_MAX_HEIGHT], above, LATCH_EDGE_ENTRIES, left, LATCH_EDGE_ENTRIES, corner, out, 64 * 64);
}

void job_due(float *plane, size_t width, size_t height, const uint16_t *row, const int16_t *differences) {
    int32_t above[LATCH_EDGE_ENTRIES], left[LATCH_EDGE_ENTRIES], corner, most = (1 << row[LATCH_D]) - 1;
    float out[64 * 64];
    uint32_t answer = latch_build_refs(
        plane, width * height, width, height, row[LATCH_X], row[LATCH_Y], row[LATCH_B], row[LATCH_D],
        row[LATCH_FLAGS] & LATCH_HAVE_ABOVE, row[LATCH_FLAGS] & LATCH_HAVE_LEFT, row[LATCH_TOP_RIGHT], row[LATCH_BOTTOM_LEFT],
        row[LATCH_AVAILABLE_ABOVE], row[LATCH_AVAILABLE_LEFT], row[LATCH_BASE], above, LATCH_EDGE_ENTRIES, left,
        LATCH_EDGE_ENTRIES, &corner, 1);
    if (answer == LATCH_DONE) answer = predict(row, above, left, corner, out);
    check(answer == LATCH_DONE, "the direct calls refuse a job that is done: %u", answer);
    for (size_t i = 0; answer == LATCH_DONE && i < (size_t)row[LATCH_B] * row[LATCH_B]; i++) {
        int32_t sum = (int32_t)out[i] + differences[(size_t)row[LATCH_DIFFERENCES] * LATCH_DIFFERENCES_UNIT + i];
        size_t at = (row[LATCH_Y] + i / row[LATCH_B]) * width + row[LATCH_X] + i % row[LATCH_B];
        plane[at] = (float)(sum < 0 ? 0 : sum > most ? most : sum);
    }
}

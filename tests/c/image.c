/* image.c: a plan's file made by the test itself, byte by byte, and a format's two calls between guards. */
#include "image.h"

#include <string.h>

/* Fifteen rows of sixteen words after twenty zero bytes; seven of thirty-two after fifty-two. */
const struct format formats[2] = {
    {"latch", 15, 16, 28, 32, 69, 1020, latch_write_plan, latch_read_plan},
    {"tower", 7, 32, 60, 64, 147, 1022, tower_write_plan, tower_read_plan},
};

static struct zone plan_zone, bytes_zone, count_zone;

const uint16_t *some_rows(void) {
    static uint16_t words[(LATCH_JOBS_MOST + 1) * TOWER_ROW_WORDS];
    if (words[0] == 0)
        for (size_t i = 0; i < COUNT(words); i++) words[i] = (uint16_t)(i * 40503 + 12345);
    return words;
}

void put_word(uint8_t *at, uint32_t word) {
    for (int i = 0; i < 4; i++) at[i] = (uint8_t)(word >> 8 * i);
}

void mend(uint8_t *block) {
    uint32_t sum = 0;
    for (int i = 0; i < CHECK_AT; i++) sum += (uint32_t)block[i] << 8 * (i % 4);
    put_word(block + CHECK_AT, sum);
}

size_t image_size(const struct format *format, size_t rows) {
    return (rows + (size_t)format->rows - 1) / (size_t)format->rows * LATCH_BLOCK_BYTES;
}

void image_of(const struct format *format, const uint16_t *plan, size_t rows, uint8_t *image) {
    size_t block_rows = (size_t)format->rows, block_words = block_rows * (size_t)format->words;
    memset(image, 0, image_size(format, rows));
    for (size_t i = 0; i < rows * (size_t)format->words; i++) {
        uint8_t *at = image + i / block_words * LATCH_BLOCK_BYTES + format->rows_at + i % block_words * 2;
        at[0] = (uint8_t)(plan[i] % 256);
        at[1] = (uint8_t)(plan[i] / 256);
    }
    for (size_t k = 0, left = rows; left > 0; k++) {
        size_t used = left < block_rows ? left : block_rows;
        uint8_t *block = image + k * LATCH_BLOCK_BYTES;
        put_word(block, (uint32_t)k);
        put_word(block + USED_AT, (uint32_t)used);
        mend(block);
        left -= used;
    }
}

struct faults keep_faults(const struct fault *rows, size_t count) {
    static struct fault kept[1024];
    static size_t used;
    struct faults table = {kept + used, count};
    if (count > COUNT(kept) - used) {
        check(false, "the test keeps more than %zu faults", COUNT(kept));
        return (struct faults){kept, 0};
    }
    memcpy(kept + used, rows, count * sizeof *rows);
    used += count;
    return table;
}

/* Lends a list with its content, and takes it down. */
static const void *lend_copy(struct zone *zone, const void *content, size_t bytes) {
    void *lent = zone_lend(zone, bytes);
    if (bytes > 0) memcpy(lent, content, bytes);
    zone_remember(zone);
    return lent;
}

/* Lends a list of pattern, and takes it down. */
static void *lend_blank(struct zone *zone, size_t bytes) {
    void *lent = zone_lend(zone, bytes);
    zone_remember(zone);
    return lent;
}

static bool all_kept(void) {
    return zone_kept(&plan_zone, 0) && zone_kept(&bytes_zone, 0) && zone_kept(&count_zone, 0);
}

uint32_t write_kept(const struct format *format, const uint16_t *plan, size_t plan_len, size_t out_len, size_t length_len,
                    bool *kept) {
    const uint16_t *lent = lend_copy(&plan_zone, plan, plan_len * sizeof *plan);
    uint8_t *out = lend_blank(&bytes_zone, out_len);
    size_t *length = lend_blank(&count_zone, length_len * sizeof *length);
    uint32_t answer = format->write(lent, plan_len, out, out_len, length, length_len);
    size_t rows = plan_len / (size_t)format->words, size = image_size(format, rows);
    bool room = out_len >= size && length_len > 0;
    if (answer == LATCH_DONE && room) {
        image_of(format, plan, rows, zone_due(&bytes_zone));
        memcpy(zone_due(&count_zone), &size, sizeof size);
    }
    *kept = all_kept() && (answer != LATCH_DONE || room);
    return answer;
}

uint32_t read_kept(const struct format *format, const uint8_t *bytes, size_t bytes_len, size_t plan_len, size_t rows_len,
                   const uint16_t *due, size_t rows, bool *kept) {
    const uint8_t *lent = lend_copy(&bytes_zone, bytes, bytes_len);
    uint16_t *plan = lend_blank(&plan_zone, plan_len * sizeof *plan);
    size_t *count = lend_blank(&count_zone, rows_len * sizeof *count);
    uint32_t answer = format->read(lent, bytes_len, plan, plan_len, count, rows_len);
    bool room = plan_len >= rows * (size_t)format->words && rows_len > 0;
    if (answer == LATCH_DONE && room) {
        memcpy(zone_due(&plan_zone), due, rows * (size_t)format->words * sizeof *due);
        memcpy(zone_due(&count_zone), &rows, sizeof rows);
    }
    *kept = all_kept() && (answer != LATCH_DONE || room);
    return answer;
}

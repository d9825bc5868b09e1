/* block_bytes.c: a plan's file byte by byte, with numbers and checks worked out by hand; files read back as their plans; empty files;
 * any one byte changed. Each by both formats. */
#include <string.h>

#include "image.h"

enum { BY_HAND = 6, ROW_BYTES_MOST = 64 };

/* Worked out by hand, for each format:
 *  - a row more than a block has, each row of bytes that count from 1 on. Sixteen words: the eight of four bytes add up to 0x90888078,
 *    and 15 * 0x90888078 + 15 = 0x77FF8717 modulo 2^32, and 0x90888078 + 1 + 1. Thirty-two: the sixteen add up to 0x221201F0, and
 *    7 * 0x221201F0 + 7 = 0xEE7E0D97, and 0x221201F0 + 1 + 1;
 *  - one block, of one row or full, whose words are all the same: 8 or 16 times the four bytes a row, and the count of rows. */
static const struct by_hand {
    uint8_t sums[2][4];
    struct { uint16_t word; uint8_t rows, check[4]; } cases[BY_HAND];
} by_hand[COUNT(formats)] = {
    {{{0x17, 0x87, 0xFF, 0x77}, {0x7A, 0x80, 0x88, 0x90}},
     {{0x0000, 1, {0x01, 0x00, 0x00, 0x00}}, {0x0001, 1, {0x09, 0x00, 0x08, 0x00}}, {0x1234, 1, {0xA1, 0x91, 0xA0, 0x91}},
      {0xFFFF, 1, {0xF9, 0xFF, 0xFF, 0xFF}}, {0xFFFF, 15, {0x97, 0xFF, 0xFF, 0xFF}}, {0x8000, 15, {0x0F, 0x00, 0x3C, 0x00}}}},
    {{{0x97, 0x0D, 0x7E, 0xEE}, {0xF2, 0x01, 0x12, 0x22}},
     {{0x0000, 1, {0x01, 0x00, 0x00, 0x00}}, {0x0001, 1, {0x11, 0x00, 0x10, 0x00}}, {0x1234, 1, {0x41, 0x23, 0x41, 0x23}},
      {0xFFFF, 1, {0xF1, 0xFF, 0xFF, 0xFF}}, {0xFFFF, 7, {0x97, 0xFF, 0xFF, 0xFF}}, {0x8000, 7, {0x07, 0x00, 0x38, 0x00}}}},
};

/* The numbers that the headers name for plans' files. */
static void names(void) {
    static const int named[][2] = {
        {LATCH_NOT_BLOCKS, 40}, {LATCH_BAD_CHECK, 41}, {LATCH_OUT_OF_TURN, 42}, {LATCH_BAD_USED, 43}, {LATCH_NOT_ZERO, 44},
        {LATCH_NO_ROOM, 45}, {LATCH_BLOCK_BYTES, 512}, {LATCH_BLOCK_ROWS, 15}, {LATCH_BLOCKS_MOST, 69}, {LATCH_ROW_WORDS, 16},
        {TOWER_BLOCK_ROWS, 7}, {TOWER_BLOCKS_MOST, 147}, {TOWER_ROW_WORDS, 32}};
    for (size_t i = 0; i < COUNT(named); i++)
        check(named[i][0] == named[i][1], "the headers have %d for %d", named[i][0], named[i][1]);
}

static void two_blocks(const struct format *f, const struct by_hand *hand) {
    static uint16_t plan[LATCH_BLOCK_BYTES];
    uint8_t row[ROW_BYTES_MOST], due[2 * LATCH_BLOCK_BYTES] = {0}, out[2 * LATCH_BLOCK_BYTES];
    size_t words = (size_t)((f->rows + 1) * f->words), length[1] = {0};
    for (size_t i = 0; i < words; i++) plan[i] = (uint16_t)(0x0201 + 0x0202 * (i % (size_t)f->words));
    for (int i = 0; i < f->row_bytes; i++) row[i] = (uint8_t)(i + 1);
    for (int k = 0; k < 2; k++) {
        uint8_t *block = due + k * LATCH_BLOCK_BYTES;
        int rows = k == 0 ? f->rows : 1;
        block[0] = (uint8_t)k;
        block[USED_AT] = (uint8_t)rows;
        for (int r = 0; r < rows; r++) memcpy(block + f->rows_at + r * f->row_bytes, row, (size_t)f->row_bytes);
        memcpy(block + CHECK_AT, hand->sums[k], 4);
    }
    uint32_t answer = f->write(plan, words, out, sizeof out, length, 1);
    check(answer == LATCH_DONE && length[0] == 1024, "%s: two blocks by hand: %u, length %zu", f->name, answer, length[0]);
    for (size_t i = 0; i < sizeof due; i++)
        check(out[i] == due[i], "%s: two blocks by hand: byte %zu is %u, not %u", f->name, i, out[i], due[i]);
}

static void one_block(const struct format *f, uint16_t word, uint8_t rows, const uint8_t *sum) {
    static uint16_t plan[LATCH_BLOCK_BYTES];
    uint8_t out[LATCH_BLOCK_BYTES];
    size_t words = (size_t)(rows * f->words), length[1] = {0}, wrong = 0, from = (size_t)f->rows_at;
    for (size_t k = 0; k < words; k++) plan[k] = word;
    uint32_t answer = f->write(plan, words, out, sizeof out, length, 1);
    for (size_t k = 0; k < CHECK_AT; k++) {
        bool row = k >= from && k < from + 2 * words;
        unsigned due = k == USED_AT ? rows : !row ? 0 : k % 2 == 0 ? word & 255u : word >> 8;
        wrong += out[k] != due;
    }
    check(answer == LATCH_DONE && length[0] == sizeof out && wrong == 0, "%s: %u rows of %04X: %u, length %zu, %zu wrong", f->name,
          rows, word, answer, length[0], wrong);
    for (int k = 0; k < 4; k++)
        check(out[CHECK_AT + k] == sum[k], "%s: %u rows of %04X: check byte %d is %02X", f->name, rows, word, k, out[CHECK_AT + k]);
}

/* What is written is read back, with lists exact and longer: the words, and how many rows and bytes there are. */
static void read_back(const struct format *f) {
    const int r = f->rows, left = LATCH_JOBS_MOST - f->last;
    const struct { int rows, blocks, used; } cases[] = {{0, 0, 0}, {1, 1, 1}, {r - 1, 1, r - 1}, {r, 1, r}, {r + 1, 2, 1},
        {r + 2, 2, 2}, {2 * r, 2, r}, {2 * r + 1, 3, 1}, {f->last, f->most - 1, r}, {f->last + 1, f->most, 1},
        {LATCH_JOBS_MOST, f->most, left}};
    static image_bytes bytes;
    for (size_t i = 0; i < 2 * COUNT(cases); i++) {
        size_t more = i % 2, rows = (size_t)cases[i / 2].rows, blocks = (size_t)cases[i / 2].blocks;
        size_t words = rows * (size_t)f->words, length[1] = {99};
        bool kept[2] = {false};
        uint32_t wrote = f->write(some_rows(), words, bytes, blocks * LATCH_BLOCK_BYTES, length, 1);
        uint32_t again = write_kept(f, some_rows(), words, blocks * LATCH_BLOCK_BYTES + more, 1 + more, &kept[0]);
        uint32_t read = read_kept(f, bytes, length[0], words + more, 1 + more, some_rows(), rows, &kept[1]);
        int used = blocks == 0 ? 0 : bytes[(blocks - 1) * LATCH_BLOCK_BYTES + USED_AT];
        check(wrote == LATCH_DONE && again == LATCH_DONE && read == LATCH_DONE && kept[0] && kept[1],
              "%s: %zu rows, lists longer by %zu: %u, %u, %u, kept %d %d", f->name, rows, more, wrote, again, read, kept[0], kept[1]);
        check(length[0] == blocks * LATCH_BLOCK_BYTES && used == cases[i / 2].used,
              "%s: %zu rows: %zu bytes, %d rows in the last block", f->name, rows, length[0], used);
    }
}

/* An empty file is an empty plan, whatever the pointers of its empty lists are; 45 still refuses it. */
static void empty(const struct format *f) {
    static uint16_t word;
    void *const nowhere[] = {NULL, (void *)1, (void *)16, &word};
    for (size_t k = 0; k < 4 * 4 * 4; k++) {
        size_t rows[] = {99, 77};
        void *bytes = nowhere[k % 4], *plan = nowhere[k / 4 % 4], *none = nowhere[k / 16];
        uint32_t done = f->read(bytes, 0, plan, 0, rows, 1);
        uint32_t refused = f->read(bytes, 0, plan, 0, none, 0);
        check(done == LATCH_DONE && refused == LATCH_NO_ROOM && rows[0] == 0 && rows[1] == 77 && word == 0,
              "%s: an empty file, pointers %zu: %u, %u, rows %zu", f->name, k, done, refused, rows[0]);
    }
}

/* Any one byte of a file of two blocks changed, in any block: the check finds it. */
static void one_byte(const struct format *f) {
    static const uint8_t by[] = {0x01, 0x80, 0xFF, 0x5A};
    static image_bytes bytes;
    const size_t rows = (size_t)f->rows + 2;
    image_of(f, some_rows(), rows, bytes);
    for (size_t i = 0; i < image_size(f, rows) * COUNT(by); i++) {
        size_t at = i / COUNT(by);
        bool kept = false;
        bytes[at] ^= by[i % COUNT(by)];
        uint32_t got = read_kept(f, bytes, image_size(f, rows), rows * (size_t)f->words, 1, some_rows(), rows, &kept);
        bytes[at] ^= by[i % COUNT(by)];
        check(got == LATCH_BAD_CHECK && kept, "%s: byte %zu changed by %02X: %u, kept %d", f->name, at, by[i % COUNT(by)], got, kept);
    }
}

/* The first library's file, read by the tower's: 44 for a first row that is not zero, done where it is; 43 for a full block. */
static void other(void) {
    static const struct { uint16_t first; size_t rows; uint32_t due; } cases[] = {
        {0, 1, LATCH_DONE}, {0, 7, LATCH_DONE}, {1, 1, LATCH_NOT_ZERO}, {1, 7, LATCH_NOT_ZERO}, {0, 8, LATCH_BAD_USED},
        {0, 16, LATCH_BAD_USED}};
    for (size_t i = 0; i < COUNT(cases); i++) {
        uint16_t plan[16 * LATCH_ROW_WORDS] = {cases[i].first}, got[16 * TOWER_ROW_WORDS];
        uint8_t bytes[2 * LATCH_BLOCK_BYTES];
        size_t length[1] = {0}, rows[1] = {99};
        for (size_t k = LATCH_ROW_WORDS; k < COUNT(plan); k++) plan[k] = (uint16_t)(k + 1);
        uint32_t wrote = latch_write_plan(plan, cases[i].rows * LATCH_ROW_WORDS, bytes, sizeof bytes, length, 1);
        uint32_t read = tower_read_plan(bytes, length[0], got, COUNT(got), rows, 1);
        check(wrote == LATCH_DONE && read == cases[i].due && rows[0] == (read == LATCH_DONE ? cases[i].rows : 99),
              "a file of latch_write_plan, case %zu: %u, %u, rows %zu", i, wrote, read, rows[0]);
    }
}

void test_block_bytes(void) {
    names();
    other();
    for (size_t i = 0; i < COUNT(formats); i++) {
        two_blocks(&formats[i], &by_hand[i]);
        for (size_t k = 0; k < BY_HAND; k++)
            one_block(&formats[i], by_hand[i].cases[k].word, by_hand[i].cases[k].rows, by_hand[i].cases[k].check);
        read_back(&formats[i]);
        empty(&formats[i]);
        one_byte(&formats[i]);
    }
}

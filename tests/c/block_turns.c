/* block_turns.c: each format's read_plan goes block by block: of faults in two blocks the earlier block's is told, whatever it is, and
 * of two in one block the smaller number. */
#include "image.h"

enum { BLOCKS = 3, KINDS = 2 };

/* Puts into a block the fault that `number`, 41 to 44, refuses; for 42 to 44 the check is then made right. */
static void spoil(const struct format *format, uint8_t *block, uint32_t number, int kind) {
    switch (number) {
    case LATCH_BAD_CHECK: block[kind ? CHECK_AT + 3 : format->rows_at] ^= 0x80; return;
    case LATCH_OUT_OF_TURN: block[kind ? 3 : 0] ^= 0x40; break;
    case LATCH_BAD_USED: put_word(block + USED_AT, kind ? (uint32_t)format->rows + 1 : 0); break;
    default: block[kind ? ZEROS_AT : format->rows_at - 1] = 1;
    }
    mend(block);
}

/* The number that is due for a fault in a block and another one in another or in the same. */
static uint32_t due(size_t block, uint32_t number, size_t other, uint32_t other_number) {
    if (block != other) return block < other ? number : other_number;
    return number < other_number ? number : other_number;
}

/* With two faults in a file: with enough room, with too little, and cut. */
static void try_pair(const struct format *format, size_t block, uint32_t number, size_t other, uint32_t other_number, int kind) {
    static image_bytes bytes;
    const size_t rows = (size_t)(2 * format->rows + 3), size = image_size(format, rows), words = rows * (size_t)format->words;
    image_of(format, some_rows(), rows, bytes);
    /* the check is left wrong last */
    if (number > other_number) spoil(format, bytes + block * LATCH_BLOCK_BYTES, number, kind);
    spoil(format, bytes + other * LATCH_BLOCK_BYTES, other_number, 1 - kind);
    if (number <= other_number) spoil(format, bytes + block * LATCH_BLOCK_BYTES, number, kind);
    bool kept[3] = {false};
    uint32_t first = due(block, number, other, other_number), got[] = {
        read_kept(format, bytes, size, words, 1, some_rows(), rows, &kept[0]),
        read_kept(format, bytes, size, words - 1, 0, some_rows(), rows, &kept[1]),
        read_kept(format, bytes, size - 1, words, 1, some_rows(), rows, &kept[2]),
    };
    check(got[0] == first && got[1] == first && got[2] == LATCH_NOT_BLOCKS && kept[0] && kept[1] && kept[2],
          "%s: %u in block %zu and %u in block %zu, kind %d: %u, %u, %u, not %u, kept %d %d %d", format->name, number, block,
          other_number, other, kind, got[0], got[1], got[2], first, kept[0], kept[1], kept[2]);
}

static void try_format(const struct format *format) {
    for (size_t block = 0; block < BLOCKS; block++)
        for (size_t other = 0; other < BLOCKS; other++)
            for (uint32_t number = LATCH_BAD_CHECK; number <= LATCH_NOT_ZERO; number++)
                for (uint32_t second = LATCH_BAD_CHECK; second <= LATCH_NOT_ZERO; second++)
                    for (int kind = 0; kind < KINDS; kind++)
                        if (block != other || number != second) try_pair(format, block, number, other, second, kind);
}

void test_block_turns(void) {
    for (size_t i = 0; i < COUNT(formats); i++) try_format(&formats[i]);
}

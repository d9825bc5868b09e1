/* image.h: what the tests of a plan's file share: a format and its calls, the parts of a block, a file made by the test itself, and
 * guarded calls. */
#ifndef IMAGE_H
#define IMAGE_H

#include "check.h"

/* Where the parts of a block start: the index is at 0. */
enum { USED_AT = 4, ZEROS_AT = 8, CHECK_AT = 508 };

/* A format: the first word of its calls' names, the rows of a block, the words of a row, where a block's rows start, how many bytes
 * a row has, how many blocks a file has at most, how many rows the full blocks of the largest file have; and its two calls. */
struct format {
    const char *name;
    int rows, words, rows_at, row_bytes, most, last;
    uint32_t (*write)(const uint16_t *plan, size_t plan_len, uint8_t *out, size_t out_len, size_t *length, size_t length_len);
    uint32_t (*read)(const uint8_t *bytes, size_t bytes_len, uint16_t *plan, size_t plan_len, size_t *rows, size_t rows_len);
};
/* Those of the first library and of the tower's. */
extern const struct format formats[2];

/* Room for the largest file and a block more. */
typedef uint8_t image_bytes[(TOWER_BLOCKS_MOST + 1) * LATCH_BLOCK_BYTES];

/* The words of 1025 rows, in which every row has its own. */
const uint16_t *some_rows(void);
/* Writes a word of four bytes, the least significant first. */
void put_word(uint8_t *at, uint32_t word);
/* Makes a block's check right. */
void mend(uint8_t *block);
/* How many bytes the file of so many rows has, and the file itself. */
size_t image_size(const struct format *format, size_t rows);
void image_of(const struct format *format, const uint16_t *plan, size_t rows, uint8_t *image);

/* Keeps faults that were made for a format: a table of them that stays. */
struct faults keep_faults(const struct fault *rows, size_t count);
#define KEPT(rows) keep_faults(rows, COUNT(rows))

/* A format's write_plan between guards. `kept`: all is as it was, but that a call which is done has written the test's own file. */
uint32_t write_kept(const struct format *format, const uint16_t *plan, size_t plan_len, size_t out_len, size_t length_len,
                    bool *kept);
/* A format's read_plan between guards. `kept`: all is as it was, but that a call which is done has written `rows` rows of `due`. */
uint32_t read_kept(const struct format *format, const uint8_t *bytes, size_t bytes_len, size_t plan_len, size_t rows_len,
                   const uint16_t *due, size_t rows, bool *kept);

#endif

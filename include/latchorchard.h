/* latchorchard.h: the C interface of Latchorchard's intra prediction, for C and C++.
 *
 * Every function takes any input and returns LATCH_DONE (0) or the number of a refusal.
 *  - A slice is a pointer and then its length in entries. An empty slice may have any pointer.
 *  - A refused call changes nothing that it was lent.
 *  - A list that is longer than needed keeps its tail, unless the call says exactly how long it is; entries past the needed
 *    ones are not looked at.
 *  - The slices of one call must not overlap.
 *  - Calls share no memory of their own: several threads may call at once on slices that do not overlap.
 *
 * B is the block size: 4, 8, 16, 32 or 64. D is the bit depth: 8, 10 or 12. M = 2^D - 1.
 * In latch_write_plan and latch_read_plan a block is 512 bytes of a plan's file.
 *
 * latchtower.h declares a second library, for a tower with colour: plans over one luma and two chroma planes.
 */
#ifndef LATCHORCHARD_H
#define LATCHORCHARD_H

#include <stdbool.h>
#include <stddef.h>
#include <stdint.h>

#ifdef __cplusplus
extern "C" {
#endif

/* The answers of the calls below. */
enum latch_answer {
    LATCH_DONE = 0,                  /* the work is done */
    LATCH_BAD_SIZE = 1,              /* B is none of 4, 8, 16, 32, 64 */
    LATCH_BAD_DEPTH = 2,             /* D is none of 8, 10, 12 */
    LATCH_BAD_MODE = 3,              /* a mode above 4, a direction above 7, a delta word above 6, or a stray flag bit */
    LATCH_OUTSIDE_PLANE = 4,         /* x + B > width or y + B > height */
    LATCH_NO_NEIGHBOUR = 5,          /* a neighbour that is said to be there is not in the plane */
    LATCH_BAD_BASE = 6,              /* neither neighbour is there, and base is not in 1..M-1 */
    LATCH_NO_DIFFERENCES = 7,        /* the B x B differences pass their list's end */
    LATCH_BAD_SAMPLE = 8,            /* a sample or edge entry that is read is not a number in 0..M */
    LATCH_SHORT_LIST = 9,            /* a list is shorter than the call needs */
    LATCH_BAD_COLOUR_DIRECTION = 10, /* a colour direction above 2 */
    LATCH_BAD_REFERENCE = 11,        /* ref_width or ref_height is above 256, or luma or chroma is under ref_height x 256 */
    LATCH_BAD_LINES = 12,            /* a count of lines is above 256, or a block or its neighbour is not in the window */
    LATCH_BAD_COLOUR_SAMPLE = 13,    /* a luma value that is needed is not in 0..8M+7, or a chroma value not in 0..M */
    LATCH_SUM_TOO_LARGE = 14,        /* one of the nine colour sums exceeds 2147483647 */
    LATCH_BAD_PLANE = 20,            /* width or height is not in 4..4096, or the plane's length is not width x height */
    LATCH_BAD_PLAN = 21,             /* a plan not of whole rows or of too many, or a list not of its length */
    LATCH_NOT_EACH_ONCE = 22,        /* the order does not hold each job's index once */
    LATCH_PAIR_TURNED = 23,          /* the order turns a clashing pair of jobs round */
    LATCH_NOT_BLOCKS = 40,           /* bytes that are not whole blocks of 512, or more than 69 blocks */
    LATCH_BAD_CHECK = 41,            /* a block's check is not the sum, modulo 2^32, of the 127 words before it */
    LATCH_OUT_OF_TURN = 42,          /* a block's index is not its place in the file */
    LATCH_BAD_USED = 43,             /* a block's count of rows is wrong, or passes 1024 jobs */
    LATCH_NOT_ZERO = 44,             /* a byte of a block that must be zero is not */
    LATCH_NO_ROOM = 45               /* a list is too short for what is written or read, or for the count */
};

/* A job is a row of sixteen 16-bit words. Words 5, 6, 13 and 14 are looked at only in mode 4. */
enum latch_word {
    LATCH_X = 0,                     /* the column of the block's first sample */
    LATCH_Y = 1,                     /* its row */
    LATCH_B = 2,                     /* the block size B */
    LATCH_D = 3,                     /* the bit depth D */
    LATCH_MODE = 4,                  /* a latch_mode */
    LATCH_DIRECTION = 5,             /* a latch_direction */
    LATCH_DELTA = 6,                 /* delta + 3, 0 to 6; the angle is the direction's degrees plus 3 times delta */
    LATCH_FLAGS = 7,                 /* the sum of latch_flag bits */
    LATCH_TOP_RIGHT = 8,             /* how many samples right of those over the block are there; above B it does what B does */
    LATCH_BOTTOM_LEFT = 9,           /* the same below those left of the block */
    LATCH_AVAILABLE_ABOVE = 10,      /* how many of the samples over the block are there; above B it does what B does */
    LATCH_AVAILABLE_LEFT = 11,       /* the same left of the block */
    LATCH_BASE = 12,                 /* the neutral value, with neither neighbour there */
    LATCH_MAX_WIDTH = 13,            /* how far the edge filter goes above; 0 stands for B */
    LATCH_MAX_HEIGHT = 14,           /* the same at the left */
    LATCH_DIFFERENCES = 15           /* where the job's differences start, in units of LATCH_DIFFERENCES_UNIT */
};

enum latch_mode {
    LATCH_MODE_PAETH = 0,
    LATCH_MODE_SMOOTH = 1,
    LATCH_MODE_SMOOTH_V = 2,
    LATCH_MODE_SMOOTH_H = 3,
    LATCH_MODE_DIRECTIONAL = 4       /* a direction with its delta */
};

enum latch_direction {
    LATCH_VERTICAL = 0,              /* 90 degrees */
    LATCH_HORIZONTAL = 1,            /* 180 degrees */
    LATCH_D45 = 2,
    LATCH_D135 = 3,
    LATCH_D113 = 4,
    LATCH_D157 = 5,
    LATCH_D203 = 6,
    LATCH_D67 = 7
};

/* Whose luma is the direction's, in the colour calls. */
enum latch_colour_direction {
    LATCH_COLOUR_CENTRE = 0,         /* the sample's own */
    LATCH_COLOUR_ABOVE = 1,          /* that of the sample above it */
    LATCH_COLOUR_LEFT = 2            /* that of the sample left of it */
};

/* The bits of a flag word; every other bit is zero. */
enum latch_flag {
    LATCH_HAVE_ABOVE = 1,            /* bit 0: above is there */
    LATCH_HAVE_LEFT = 2,             /* bit 1: left is there */
    LATCH_LUMA = 4,                  /* bit 2: luma */
    LATCH_EDGE_FILTER = 8,           /* bit 3: the edge filter is set */
    LATCH_SMOOTH_NEIGHBOUR = 16      /* bit 4: a neighbour is smooth */
};

/* How many words a row has, how many jobs a plan has at most, and in what unit word 15 tells a start. */
#define LATCH_ROW_WORDS 16
#define LATCH_JOBS_MOST 1024
#define LATCH_DIFFERENCES_UNIT 16

/* A plan's file: how many bytes a block has, how many rows a block holds, and how many blocks a file has at most. */
#define LATCH_BLOCK_BYTES 512
#define LATCH_BLOCK_ROWS 15
#define LATCH_BLOCKS_MOST 69

/* How many entries latch_build_refs writes to each edge: 2B at the largest B. */
#define LATCH_EDGE_ENTRIES 128

/* How far apart the rows of a colour window lie, and how many parameters latch_derive_params writes. */
#define LATCH_WINDOW_STRIDE 256
#define LATCH_COLOUR_PARAMS 3

/* Builds the edges of the B x B block whose first sample is at column x, row y of a plane of f32 samples, row by row.
 * A sample v is read as v + 0.5, rounded once to f32, without its fraction; -0.0 is in range.
 *
 * Writes above[0..127] and left[0..127] (entries 2B..127 are 0) and corner[0]. With above there, entries 0..B-1 are the
 * samples over the block, of which the first available_above are read and the last of those repeats; then come
 * min(top_right, B) samples from column x + B on, and the last entry repeats up to 2B. Left is the same down column x - 1,
 * with available_left and bottom_left. A missing neighbour is filled from the other one, or, with neither there, above
 * with base - 1, left with base + 1 and the corner with base.
 *
 * Lent: plane, exactly width x height entries; above and left, at least 128 entries each; corner, at least one entry.
 *
 * Refusals, in the order of checking:
 *   20  width or height is not in 4..4096, or plane_len is not width x height
 *    1  b is none of 4, 8, 16, 32, 64
 *    2  d is none of 8, 10, 12
 *    4  x + B > width or y + B > height
 *    5  have_above, and y = 0 or available_above = 0 or x + B + min(top_right, B) > width;
 *       have_left, and x = 0 or available_left = 0 or y + B + min(bottom_left, B) > height
 *    6  neither have_above nor have_left, and base is not in 1..M-1
 *    9  above_len or left_len is under 128, or corner_len is 0
 *    8  a sample that is read is not a number in 0..M
 * A refused call changes nothing; a longer above, left or corner keeps its tail; the slices must not overlap. */
uint32_t latch_build_refs(const float *plane, size_t plane_len, size_t width, size_t height,
                          uint16_t x, uint16_t y, uint16_t b, uint16_t d, bool have_above, bool have_left,
                          uint16_t top_right, uint16_t bottom_left,
                          uint16_t available_above, uint16_t available_left, uint16_t base,
                          int32_t *above, size_t above_len, int32_t *left, size_t left_len,
                          int32_t *corner, size_t corner_len);

/* Paeth: each sample of the block is the nearest of the entry left of it, the entry above it and the corner to
 * left + above - corner; on a tie left goes before above, and above before the corner.
 *
 * Writes out[0..B*B-1], row by row. Lent: above and left, at least 2B entries each; out, at least B x B entries.
 *
 * Refusals, in the order of checking:
 *    1  b is none of 4, 8, 16, 32, 64
 *    2  d is none of 8, 10, 12
 *    9  above_len or left_len is under 2B, or out_len is under B x B
 *    8  one of the first 2B entries of above or left, or the corner, is not in 0..M
 * A refused call changes nothing; a longer out keeps its tail; the slices must not overlap. */
uint32_t latch_paeth(uint16_t b, uint16_t d, const int32_t *above, size_t above_len,
                     const int32_t *left, size_t left_len, int32_t corner, float *out, size_t out_len);

/* smooth: each sample of the block is the rounded mean of what latch_smooth_v and latch_smooth_h give there.
 *
 * Writes out[0..B*B-1], row by row. Lent: above and left, at least 2B entries each; out, at least B x B entries.
 *
 * Refusals, in the order of checking:
 *    1  b is none of 4, 8, 16, 32, 64
 *    2  d is none of 8, 10, 12
 *    9  above_len or left_len is under 2B, or out_len is under B x B
 *    8  one of the first 2B entries of above or left, or the corner, is not in 0..M
 * A refused call changes nothing; a longer out keeps its tail; the slices must not overlap. */
uint32_t latch_smooth(uint16_t b, uint16_t d, const int32_t *above, size_t above_len,
                      const int32_t *left, size_t left_len, int32_t corner, float *out, size_t out_len);

/* smooth_v: each column of the block runs from its entry above down to left[B], the entry past the block's left side.
 *
 * Writes out[0..B*B-1], row by row. Lent: above and left, at least 2B entries each; out, at least B x B entries.
 *
 * Refusals, in the order of checking:
 *    1  b is none of 4, 8, 16, 32, 64
 *    2  d is none of 8, 10, 12
 *    9  above_len or left_len is under 2B, or out_len is under B x B
 *    8  one of the first 2B entries of above or left, or the corner, is not in 0..M
 * A refused call changes nothing; a longer out keeps its tail; the slices must not overlap. */
uint32_t latch_smooth_v(uint16_t b, uint16_t d, const int32_t *above, size_t above_len,
                        const int32_t *left, size_t left_len, int32_t corner, float *out, size_t out_len);

/* smooth_h: each row of the block runs from its entry at the left across to above[B], the entry past the block's top side.
 *
 * Writes out[0..B*B-1], row by row. Lent: above and left, at least 2B entries each; out, at least B x B entries.
 *
 * Refusals, in the order of checking:
 *    1  b is none of 4, 8, 16, 32, 64
 *    2  d is none of 8, 10, 12
 *    9  above_len or left_len is under 2B, or out_len is under B x B
 *    8  one of the first 2B entries of above or left, or the corner, is not in 0..M
 * A refused call changes nothing; a longer out keeps its tail; the slices must not overlap. */
uint32_t latch_smooth_h(uint16_t b, uint16_t d, const int32_t *above, size_t above_len,
                        const int32_t *left, size_t left_len, int32_t corner, float *out, size_t out_len);

/* directional: each sample of the block lies on a line through the edges, and is worked out between the entries at its end.
 *
 * The line's angle is the direction's degrees plus 3 times delta; delta is told as delta + 3, 0 to 6. Directions 0 to 7 have
 * 90, 180, 45, 135, 113, 157, 203 and 67 degrees. Flag bits: 0 above is there, 1 left is there, 2 luma, 3 edge filter,
 * 4 smooth neighbour. Angle 90, or below 90 with above missing, copies above down; angle 180, or over 180 with left missing,
 * copies left across. Else angles below 90 go by above, those over 180 by left and those between by both, each with the
 * corner. Luma takes four entries for a sample, else two. The edge filter smooths an edge that is there, by a strength that
 * hangs on B, the angle and the smooth neighbour, as far as max_width (above) and max_height (left) allow; 0 stands for B.
 * Any 16-bit max_width and max_height is taken, and one above B does what B does.
 *
 * Writes out[0..B*B-1], row by row. Lent: above and left, at least 2B entries each; out, at least B x B entries.
 *
 * Refusals, in the order of checking:
 *    1  b is none of 4, 8, 16, 32, 64
 *    2  d is none of 8, 10, 12
 *    3  direction is above 7, delta is above 6, or a bit of flags from 5 on is set
 *    9  above_len or left_len is under 2B, or out_len is under B x B
 *    8  one of the first 2B entries of above or left, or the corner, is not in 0..M
 * A refused call changes nothing; a longer out keeps its tail; the slices must not overlap. */
uint32_t latch_directional(uint16_t b, uint16_t d, uint16_t direction, uint16_t delta, uint16_t flags,
                           uint16_t max_width, uint16_t max_height, const int32_t *above, size_t above_len,
                           const int32_t *left, size_t left_len, int32_t corner, float *out, size_t out_len);

/* derive_params: the three parameters by which chroma is best told from luma in a reference window.
 *
 * The sample at row j, column i of the window stands at 256 j + i of luma and of chroma; luma has three bits more than D,
 * chroma has D. A sample counts if j is in 1..ref_height-2 and i in 1..ref_width-2, and j < above_lines or i < left_lines.
 * Its terms are the direction's luma >> 3, (c x c + 2^(D-1)) >> D for its own luma >> 3, c, and 2^(D-1). The direction's luma
 * is its own for direction 0, the one above it for 1 and the one left of it for 2. The six sums of the terms' products and
 * the three of their products with chroma make the equations that the parameters solve, in fixed point with 16 bits after the
 * point. With no sample counted they are 0, 0, 65536. Any counts of lines up to 256 are taken, above the window's sizes too.
 *
 * Writes params[0..2]. Lent: luma and chroma, at least ref_height x 256 entries each; params, at least three entries.
 *
 * Refusals, in the order of checking:
 *    2  d is none of 8, 10, 12
 *   10  direction is above 2
 *   11  ref_width or ref_height is above 256, or luma_len or chroma_len is under ref_height x 256
 *   12  above_lines or left_lines is above 256
 *    9  params_len is under 3
 *   13  for a sample that counts its own luma or the direction's luma is not in 0..8M+7, or its chroma is not in 0..M
 *   14  one of the nine sums exceeds 2147483647
 * A refused call changes nothing; a longer params keeps its tail; the slices must not overlap. */
uint32_t latch_derive_params(const int32_t *luma, size_t luma_len, const int32_t *chroma, size_t chroma_len,
                             size_t ref_width, size_t ref_height, size_t above_lines, size_t left_lines,
                             uint32_t direction, uint32_t d, int32_t *params, size_t params_len);

/* predict_block: a block of chroma samples, told from luma by three parameters.
 *
 * The block's sample at row j, column i has its own luma at row above_lines + j, column left_lines + i of the window, and the
 * direction's luma there, above it or left of it, as in latch_derive_params. In the first row without have_top, and in the
 * first column without have_left, a neighbour is missing, and the sample's own luma stands for it. The sample is the sum of
 * each term times its parameter, with 16 bits after the point, rounded product by product, and clipped to 0..M. Any 32-bit
 * parameters are taken; of the window's width nothing is used.
 *
 * Writes out[0..width*height-1], row by row. Lent: luma, at least ref_height x 256 entries; out, at least width x height.
 *
 * Refusals, in the order of checking:
 *    2  d is none of 8, 10, 12
 *   10  direction is above 2
 *   11  ref_width or ref_height is above 256, or luma_len is under ref_height x 256
 *   12  above_lines or left_lines is above 256; width or height is not in 1..128; left_lines + width > 256;
 *       above_lines + height > ref_height; have_top with above_lines 0; have_left with left_lines 0
 *    9  out_len is under width x height
 *   13  for a sample of the block its own luma or the direction's luma is not in 0..8M+7
 * A refused call changes nothing; a longer out keeps its tail; the slices must not overlap. */
uint32_t latch_predict_block(const int32_t *luma, size_t luma_len, size_t ref_width, size_t ref_height,
                             size_t above_lines, size_t left_lines, size_t width, size_t height,
                             bool have_top, bool have_left, uint32_t direction, uint32_t d,
                             int32_t p0, int32_t p1, int32_t p2, int32_t *out, size_t out_len);

/* run_job: a single job: its block is predicted from the plane around it, and written there with its differences.
 *
 * The edges are those of latch_build_refs for the row's words, and the prediction is what the mode's own call above gives of
 * them. A written sample is its prediction plus its difference, clipped to 0..M. The block's differences stand in their list from
 * entry 16 times word 15 on, row by row.
 *
 * Reads the plane where latch_build_refs does, in every mode; writes the B x B block of the plane, and nothing else.
 * Lent: plane, exactly width x height entries; row, exactly 16 words (latch_word).
 *
 * Refusals, in the order of checking:
 *   20  width or height is not in 4..4096, or plane_len is not width x height
 *   21  row_len is not 16
 *    1  B is none of 4, 8, 16, 32, 64
 *    2  D is none of 8, 10, 12
 *    3  the mode is above 4; in mode 4, the direction is above 7 or the delta word above 6; a bit of flags from 5 on is set
 *    4  x + B > width or y + B > height
 *    5  above is there, and y = 0 or available-above = 0 or x + B + min(top-right, B) > width;
 *       left is there, and x = 0 or available-left = 0 or y + B + min(bottom-left, B) > height
 *    6  neither is there, and base is not in 1..M-1
 *    7  16 times word 15, plus B x B, exceeds differences_len
 *    8  a sample that is read is not a number in 0..M
 * A refused call changes nothing; the slices must not overlap. */
uint32_t latch_run_job(float *plane, size_t plane_len, size_t width, size_t height, const uint16_t *row, size_t row_len,
                       const int16_t *differences, size_t differences_len);

/* run: a plan's jobs, in an order that ends as the plan's own would.
 *
 * The plan is its jobs' rows, one after the other, at most 1024; order holds each row's index once and says which job is done
 * first, second and so on. Jobs of different D may stand in one plan. Two jobs clash if one writes a sample that the other
 * reads or writes. A job that would be refused by 1 to 7 clashes with none; one that 8 would refuse clashes as if it were
 * done, so that clashes depend on rows and sizes alone. An order that leaves every clashing pair as the plan has it is taken, and
 * the plane and the answers are then those of the plan's own order.
 *
 * Writes answers[i] for every row i of the plan: 0 where the job is done, or its refusal, 1 to 8, as latch_run_job has it, with
 * the run going on; writes the blocks of the jobs that are done. differences is one list for the whole plan, in which a job's
 * own stand from entry 16 times its word 15 on. An empty plan, with an empty order and empty answers, is done and writes nothing;
 * each may have any pointer.
 * Lent: plane, exactly width x height entries; plan, exactly 16 words a job; order and answers, exactly one entry a job.
 *
 * Refusals, in the order of checking:
 *   20  width or height is not in 4..4096, or plane_len is not width x height
 *   21  plan_len is not a multiple of 16 or is above 16 x 1024, or order_len or answers_len is not plan_len / 16
 *   22  the order does not hold each of 0..order_len-1 once
 *   23  the order has the later one of two clashing jobs before the earlier one
 * A refused call changes nothing, neither the plane nor answers; the slices must not overlap. */
uint32_t latch_run(float *plane, size_t plane_len, size_t width, size_t height, const uint16_t *plan, size_t plan_len,
                   const uint16_t *order, size_t order_len, const int16_t *differences, size_t differences_len,
                   uint16_t *answers, size_t answers_len);

/* write_plan: a plan as a file of 512-byte blocks, as the radio link carries it.
 *
 * A block is, in this order: its index, from 0 on (4 bytes); how many of its rows are used, 1 to 15 (4 bytes); twenty zero bytes;
 * fifteen rows of sixteen 16-bit words, of which those that are not used are zero; and the check (4 bytes): the sum modulo 2^32
 * of the 127 words of four bytes before it. All words are little-endian. All blocks but the last hold fifteen rows, and a plan
 * without a job has no blocks. The rows' words may be anything: no job is tested here.
 *
 * Writes 512 bytes a block to out, from its start on, and how many bytes these are to length[0].
 * Lent: plan, exactly 16 words a job; out, at least 512 bytes for every fifteen jobs or part of fifteen; length, at least one
 * entry.
 *
 * Refusals, in the order of checking:
 *   21  plan_len is not a multiple of 16 or is above 16 x 1024
 *   45  out_len is too short for the blocks, or length_len is 0
 * A refused call changes nothing; a longer out or length keeps its tail; the slices must not overlap. */
uint32_t latch_write_plan(const uint16_t *plan, size_t plan_len, uint8_t *out, size_t out_len,
                          size_t *length, size_t length_len);

/* read_plan: the plan of such a file. A file is accepted only if it is exactly what latch_write_plan writes for the plan that it
 * holds. If one of its four-byte words is changed, and no other, it is refused by 41. What the format cannot tell: a file that has
 * lost blocks at its end is a shorter plan's file, and is accepted; and two changed words of a block whose sum stays the same pass
 * 41, so that such a file may be accepted as another plan's.
 *
 * Writes 16 words a job to plan, from its start on, and how many jobs these are to rows[0].
 * Lent: bytes, exactly the file; plan, at least 16 words for each of its jobs; rows, at least one entry.
 *
 * Refusals, in the order of checking:
 *   40  bytes_len is not a multiple of 512 or is above 512 x 69
 *  then block by block
 *   41  the check is not the sum of the 127 words before it
 *   42  the index is not the block's place, from 0 on
 *   43  the count of rows is 0 or above 15, or under 15 in a block that is not the last, or with it the jobs pass 1024
 *   44  one of the twenty bytes, or a byte of a row that is not used, is not zero
 *  and after all blocks
 *   45  plan_len is under 16 words a job, or rows_len is 0
 * A refused call changes nothing; a longer plan or rows keeps its tail; the slices must not overlap. */
uint32_t latch_read_plan(const uint8_t *bytes, size_t bytes_len, uint16_t *plan, size_t plan_len,
                         size_t *rows, size_t rows_len);

#ifdef __cplusplus
}
#endif

#endif

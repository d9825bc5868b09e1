/* latchtower.h: the C interface of Latchorchard's second library, for a tower with colour: plans over one luma and two chroma planes.
 *
 * The library stands above the first one: its answers, the words 0 to 15 of a row, the modes 0 to 4, the directions and the flags are those
 * of latchorchard.h. Both libraries can be linked into one program.
 *
 * Every function takes any input and returns LATCH_DONE (0) or the number of a refusal.
 *  - A slice is a pointer and then its length in entries. An empty slice may have any pointer.
 *  - A refused call changes nothing that it was lent. A list longer than needed keeps its tail.
 *  - The slices of one call must not overlap.
 *  - Calls share no memory of their own: several threads may call at once on slices that do not overlap.
 *
 * Plane 0 is luma, planes 1 and 2 are chroma; all three are width by height samples of f32, row by row.
 * B is the block size: 4, 8, 16, 32 or 64. D is the bit depth: 8, 10 or 12. M = 2^D - 1.
 * In tower_write_plan and tower_read_plan a block is 512 bytes (LATCH_BLOCK_BYTES) of a plan's file.
 */
#ifndef LATCHTOWER_H
#define LATCHTOWER_H

#include "latchorchard.h"

#ifdef __cplusplus
extern "C" {
#endif

/* A job is a row of thirty-two 16-bit words: sixteen as in latch_word, and then these. In modes 0 to 4 the words 17 to 25 are not
 * looked at. In mode 5 of the words 0 to 15 only x, y, D and the mode are. */
enum tower_word {
    TOWER_PLANE = 16,                /* the plane that the job is done on, 0 to 2; in mode 5 it is 1 or 2 */
    TOWER_COLOUR_DIRECTION = 17,     /* a latch_colour_direction */
    TOWER_ABOVE_LINES = 18,          /* how many of the windows' rows lie above the block */
    TOWER_LEFT_LINES = 19,           /* how many of their columns lie left of it */
    TOWER_REF_WIDTH = 20,            /* the windows' width, up to 256 */
    TOWER_REF_HEIGHT = 21,           /* the windows' height, up to 256 */
    TOWER_WIDTH = 22,                /* the block's width, 1 to 128 */
    TOWER_HEIGHT = 23,               /* the block's height, 1 to 128 */
    TOWER_LUMA_X = 24,               /* the column of plane 0 at which the luma window starts */
    TOWER_LUMA_Y = 25,               /* its row */
    TOWER_HAVE_TOP = 26,             /* 1: the luma above the block is there; else 0 */
    TOWER_HAVE_LEFT = 27,            /* 1: the luma left of the block is there; else 0 */
    TOWER_SPARE = 28                 /* this word and the three after it are zero */
};

/* The mode of a colour job: chroma is told from luma. */
enum tower_mode { TOWER_MODE_COLOUR = 5 };

/* How many words a row has, and how many planes there are. */
#define TOWER_ROW_WORDS 32
#define TOWER_PLANES 3

/* A plan's file: how many rows a block holds, and how many blocks a file has at most. */
#define TOWER_BLOCK_ROWS 7
#define TOWER_BLOCKS_MOST 147

/* run_job: a single job, done on its plane.
 *
 * In modes 0 to 4 it does on the plane that its row names what latch_run_job does, and reads and writes no other plane.
 *
 * In mode 5 two windows of ref_width by ref_height are read: luma of plane 0 from column luma x, row luma y on, each sample's reading times
 * 8, and chroma of the job's plane from column x - left_lines, row y - above_lines on. A sample v is read as v + 0.5, rounded once to f32,
 * without its fraction; -0.0 is in range. latch_derive_params says which parameters the windows give, and latch_predict_block which
 * width by height block these give with the luma window, in which the block stands at row above_lines, column left_lines. The block is
 * written at column x, row y of the job's plane. Differences are not looked at.
 *
 * Reads, in mode 5, the whole luma window, and of the chroma window the samples that count: those at row j, column i with j in
 * 1..ref_height-2, i in 1..ref_width-2, and j < above_lines or i < left_lines. Writes the block, and nothing else.
 * Lent: plane0, plane1 and plane2, exactly width x height entries each; row, exactly 32 words (latch_word, then tower_word).
 *
 * Refusals, in the order of checking:
 *   20  width or height is not in 4..4096, or the length of one of the planes is not width x height
 *   21  row_len is not 32
 *    1  not in mode 5: B is none of 4, 8, 16, 32, 64
 *    2  D is none of 8, 10, 12
 *    3  the mode is above 5; the plane is above 2, or 0 in mode 5; have_top or have_left is above 1; one of the words 28 to 31 is not zero;
 *       in modes 0 to 4, a bit of flags from 5 on is set; in mode 4, the direction is above 7 or the delta word above 6
 *  then in modes 0 to 4
 *    4, 5, 6, 7, 8  as latch_run_job has them, of the job's plane
 *  and in mode 5
 *    4  x + width > W; y + height > H; luma x + ref_width > W; luma y + ref_height > H; x < left_lines; y < above_lines;
 *       x - left_lines + ref_width > W; y - above_lines + ref_height > H, where W and H are the planes' sides
 *   10  the colour direction is above 2
 *   11  ref_width or ref_height is above 256
 *   12  above_lines or left_lines is above 256; width or height is not in 1..128; left_lines + width > 256;
 *       above_lines + height > ref_height; left_lines + width > ref_width; have_top with above_lines 0; have_left with left_lines 0
 *    8  a sample that is read is not a number in 0..M
 *   14  one of the nine colour sums exceeds 2147483647
 * A refused call changes nothing; the slices must not overlap. */
uint32_t tower_run_job(float *plane0, size_t plane0_len, float *plane1, size_t plane1_len, float *plane2, size_t plane2_len,
                       size_t width, size_t height, const uint16_t *row, size_t row_len,
                       const int16_t *differences, size_t differences_len);

/* run: a plan's jobs, in an order that ends as the plan's own would.
 *
 * The plan is its jobs' rows, one after the other, at most 1024; order holds each row's index once and says which job is done first,
 * second and so on. Jobs of different D, modes and planes may stand in one plan. A sample is a plane number with a place. Two jobs clash if
 * one writes a sample that the other reads or writes: in mode 5 a job reads its whole luma window and the chroma samples that count, and
 * writes its block. A job that 8 or 14 would refuse clashes as if it were done, and one that would be refused by another number clashes
 * with none, so that clashes depend on rows and sizes alone. An order that leaves every clashing pair as the plan has it is taken, and the
 * planes and the answers are then those of the plan's own order.
 *
 * Writes answers[i] for every row i of the plan: 0 where the job is done, or its refusal, 1 to 8, 10 to 12 or 14, as tower_run_job has it,
 * with the run going on; writes the blocks of the jobs that are done. differences is one list for the whole plan, in which the own ones of a
 * job of modes 0 to 4 stand from entry 16 times its word 15 on. An empty plan, with an empty order and empty answers, is done and writes
 * nothing; each may have any pointer.
 * Lent: plane0, plane1 and plane2, exactly width x height entries each; plan, exactly 32 words a job; order and answers, exactly one
 * entry a job.
 *
 * Refusals, in the order of checking:
 *   20  width or height is not in 4..4096, or the length of one of the planes is not width x height
 *   21  plan_len is not a multiple of 32 or is above 32 x 1024, or order_len or answers_len is not plan_len / 32
 *   22  the order does not hold each of 0..order_len-1 once
 *   23  the order has the later one of two clashing jobs before the earlier one
 * A refused call changes nothing, neither a plane nor answers; the slices must not overlap. */
uint32_t tower_run(float *plane0, size_t plane0_len, float *plane1, size_t plane1_len, float *plane2, size_t plane2_len,
                   size_t width, size_t height, const uint16_t *plan, size_t plan_len, const uint16_t *order, size_t order_len,
                   const int16_t *differences, size_t differences_len, uint16_t *answers, size_t answers_len);

/* write_plan: a plan as a file of 512-byte blocks, as the radio link carries it.
 *
 * A block is, in this order: its index, from 0 on (4 bytes); how many of its rows are used, 1 to 7 (4 bytes); fifty-two zero bytes;
 * seven rows of thirty-two 16-bit words, of which those that are not used are zero; and the check (4 bytes): the sum modulo 2^32
 * of the 127 words of four bytes before it. All words are little-endian. All blocks but the last hold seven rows, and a plan
 * without a job has no blocks. The rows' words may be anything: no job is tested here. The bytes of a file do not tell whether it
 * is this function's or latch_write_plan's: whoever sends it says which.
 *
 * Writes 512 bytes a block to out, from its start on, and how many bytes these are to length[0].
 * Lent: plan, exactly 32 words a job; out, at least 512 bytes for every seven jobs or part of seven; length, at least one
 * entry.
 *
 * Refusals, in the order of checking:
 *   21  plan_len is not a multiple of 32 or is above 32 x 1024
 *   45  out_len is too short for the blocks, or length_len is 0
 * A refused call changes nothing; a longer out or length keeps its tail; the slices must not overlap. */
uint32_t tower_write_plan(const uint16_t *plan, size_t plan_len, uint8_t *out, size_t out_len,
                          size_t *length, size_t length_len);

/* read_plan: the plan of such a file. A file is accepted only if it is exactly what tower_write_plan writes for the plan that it
 * holds. If one of its four-byte words is changed, and no other, it is refused by 41. What the format cannot tell: a file that has
 * lost blocks at its end is a shorter plan's file, and is accepted; two changed words of a block whose sum stays the same pass 41, so
 * that such a file may be accepted as another plan's; and a file of latch_write_plan's that is one block of at most seven rows, the
 * first of them zero, is also one of tower_write_plan's.
 *
 * Writes 32 words a job to plan, from its start on, and how many jobs these are to rows[0].
 * Lent: bytes, exactly the file; plan, at least 32 words for each of its jobs; rows, at least one entry.
 *
 * Refusals, in the order of checking:
 *   40  bytes_len is not a multiple of 512 or is above 512 x 147
 *  then block by block
 *   41  the check is not the sum of the 127 words before it
 *   42  the index is not the block's place, from 0 on
 *   43  the count of rows is 0 or above 7, or under 7 in a block that is not the last, or with it the jobs pass 1024
 *   44  one of the fifty-two bytes, or a byte of a row that is not used, is not zero
 *  and after all blocks
 *   45  plan_len is under 32 words a job, or rows_len is 0
 * A refused call changes nothing; a longer plan or rows keeps its tail; the slices must not overlap. */
uint32_t tower_read_plan(const uint8_t *bytes, size_t bytes_len, uint16_t *plan, size_t plan_len,
                         size_t *rows, size_t rows_len);

#ifdef __cplusplus
}
#endif

#endif

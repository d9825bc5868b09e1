/* tower_samples.c: samples that the small colour job reads or does not read, just inside and just outside, at the ends of what is taken. */
#include "tower.h"

/* Samples of the small job: a place by its plane, row and column, and its bits. */
#define AT(plane, row, column) {SAMPLE_PLANE, plane}, {SAMPLE_AT, (row) * 16 + (column)}
#define ALL(plane) {SAMPLE_PLANE, plane}, {SAMPLE_AT, EVERYWHERE}
#define BITS (ACROSS_BITS | DOWN_BITS | BIT(PLANE_NUMBER))
static const struct fault of_samples[] = {
    {"all luma M", LATCH_DONE, {ALL(0), {SAMPLE_IS, M_PLUS(0)}}, BITS},
    {"all luma next above M", LATCH_BAD_SAMPLE, {ALL(0), {SAMPLE_IS, M_NEXT}}, BITS},
    {"all chroma NaN", LATCH_BAD_SAMPLE, {ALL(1), {SAMPLE_IS, BITS_NAN}}, BITS},
    {"all chroma M", LATCH_DONE, {ALL(1), {SAMPLE_IS, M_PLUS(0)}}, BITS},
    {"all chroma next above M", LATCH_BAD_SAMPLE, {ALL(1), {SAMPLE_IS, M_NEXT}}, BITS},
    {"all of the other chroma NaN", LATCH_DONE, {ALL(2), {SAMPLE_IS, BITS_NAN}}, BITS},
    {"first luma NaN", LATCH_BAD_SAMPLE, {AT(0, 1, 2), {SAMPLE_IS, BITS_NAN}}, BITS},
    {"luma at the first row's end M+1", LATCH_BAD_SAMPLE, {AT(0, 1, 10), {SAMPLE_IS, M_PLUS(1)}}, BITS},
    {"luma at the last row's start -1", LATCH_BAD_SAMPLE, {AT(0, 7, 2), {SAMPLE_IS, BITS_MINUS_ONE}}, BITS},
    {"last luma infinite", LATCH_BAD_SAMPLE, {AT(0, 7, 10), {SAMPLE_IS, 0x7F800000}}, BITS},
    {"luma in the middle NaN", LATCH_BAD_SAMPLE, {AT(0, 4, 6), {SAMPLE_IS, BITS_NAN}}, BITS},
    {"luma -0.0", LATCH_DONE, {AT(0, 4, 6), {SAMPLE_IS, 0x80000000}}, BITS},
    {"luma 3EFFFFFF", LATCH_DONE, {AT(0, 4, 6), {SAMPLE_IS, 0x3EFFFFFF}}, BITS},
    {"luma before the window's row NaN", LATCH_DONE, {AT(0, 1, 1), {SAMPLE_IS, BITS_NAN}}, BITS},
    {"luma above the window NaN", LATCH_DONE, {AT(0, 0, 10), {SAMPLE_IS, BITS_NAN}}, BITS},
    {"luma past the window's row NaN", LATCH_DONE, {AT(0, 7, 11), {SAMPLE_IS, BITS_NAN}}, BITS},
    {"luma below the window NaN", LATCH_DONE, {AT(0, 8, 2), {SAMPLE_IS, BITS_NAN}}, BITS},
    {"first chroma that counts NaN", LATCH_BAD_SAMPLE, {AT(1, 3, 3), {SAMPLE_IS, BITS_NAN}}, BITS},
    {"chroma at a row's end M+1", LATCH_BAD_SAMPLE, {AT(1, 3, 9), {SAMPLE_IS, M_PLUS(1)}}, BITS},
    {"chroma over the block least negative", LATCH_BAD_SAMPLE, {AT(1, 4, 9), {SAMPLE_IS, 0x80000001}}, BITS},
    {"chroma left of the block -infinite", LATCH_BAD_SAMPLE, {AT(1, 5, 5), {SAMPLE_IS, 0xFF800000}}, BITS},
    {"last chroma that counts NaN", LATCH_BAD_SAMPLE, {AT(1, 7, 5), {SAMPLE_IS, BITS_NAN}}, BITS},
    {"chroma at the last row's start NaN", LATCH_BAD_SAMPLE, {AT(1, 7, 3), {SAMPLE_IS, BITS_NAN}}, BITS},
    {"chroma -0.0", LATCH_DONE, {AT(1, 3, 3), {SAMPLE_IS, 0x80000000}}, BITS},
    {"chroma 3EFFFFFF", LATCH_DONE, {AT(1, 3, 3), {SAMPLE_IS, 0x3EFFFFFF}}, BITS},
    {"chroma M", LATCH_DONE, {AT(1, 7, 5), {SAMPLE_IS, M_PLUS(0)}}, BITS},
    {"chroma at the window's corner NaN", LATCH_DONE, {AT(1, 2, 2), {SAMPLE_IS, BITS_NAN}}, BITS},
    {"chroma in the window's first row NaN", LATCH_DONE, {AT(1, 2, 3), {SAMPLE_IS, BITS_NAN}}, BITS},
    {"chroma in the window's first column NaN", LATCH_DONE, {AT(1, 3, 2), {SAMPLE_IS, BITS_NAN}}, BITS},
    {"chroma in the window's last column NaN", LATCH_DONE, {AT(1, 3, 10), {SAMPLE_IS, BITS_NAN}}, BITS},
    {"chroma in the window's last row NaN", LATCH_DONE, {AT(1, 8, 5), {SAMPLE_IS, BITS_NAN}}, BITS},
    {"chroma in the block NaN", LATCH_DONE, {AT(1, 5, 6), {SAMPLE_IS, BITS_NAN}}, BITS},
    {"chroma right of the block NaN", LATCH_DONE, {AT(1, 5, 10), {SAMPLE_IS, BITS_NAN}}, BITS},
    {"chroma where the luma window starts NaN", LATCH_DONE, {AT(1, 1, 2), {SAMPLE_IS, BITS_NAN}}, BITS},
    {"other chroma that would count NaN", LATCH_DONE, {AT(2, 3, 3), {SAMPLE_IS, BITS_NAN}}, BITS},
};

const struct faults sample_faults = FAULTS(of_samples);

/* faults.c: the faults that several calls can have: in the size and the depth, and in the lengths of the edges. */
#include "check.h"

static const struct fault of_size[] = {
    {"B 0", LATCH_BAD_SIZE, {{B, 0}}, 0},
    {"B 2", LATCH_BAD_SIZE, {{B, 2}}, 0},
    {"B 3", LATCH_BAD_SIZE, {{B, 3}}, 0},
    {"B 5", LATCH_BAD_SIZE, {{B, 5}}, 0},
    {"B 6", LATCH_BAD_SIZE, {{B, 6}}, 0},
    {"B 7", LATCH_BAD_SIZE, {{B, 7}}, 0},
    {"B 9", LATCH_BAD_SIZE, {{B, 9}}, 0},
    {"B 12", LATCH_BAD_SIZE, {{B, 12}}, 0},
    {"B 15", LATCH_BAD_SIZE, {{B, 15}}, 0},
    {"B 17", LATCH_BAD_SIZE, {{B, 17}}, 0},
    {"B 31", LATCH_BAD_SIZE, {{B, 31}}, 0},
    {"B 33", LATCH_BAD_SIZE, {{B, 33}}, 0},
    {"B 63", LATCH_BAD_SIZE, {{B, 63}}, 0},
    {"B 65", LATCH_BAD_SIZE, {{B, 65}}, 0},
    {"B 128", LATCH_BAD_SIZE, {{B, 128}}, 0},
    {"B 65535", LATCH_BAD_SIZE, {{B, 65535}}, 0},
    {"D 0", LATCH_BAD_DEPTH, {{D, 0}}, 0},
    {"D 7", LATCH_BAD_DEPTH, {{D, 7}}, 0},
    {"D 9", LATCH_BAD_DEPTH, {{D, 9}}, 0},
    {"D 11", LATCH_BAD_DEPTH, {{D, 11}}, 0},
    {"D 13", LATCH_BAD_DEPTH, {{D, 13}}, 0},
    {"D 16", LATCH_BAD_DEPTH, {{D, 16}}, 0},
    {"D 65535", LATCH_BAD_DEPTH, {{D, 65535}}, 0},
};

static const struct fault of_edges[] = {
    {"above one short", LATCH_SHORT_LIST, {{ABOVE_MORE, -1}}, 0},
    {"above empty", LATCH_SHORT_LIST, {{ABOVE_MORE, NONE}}, 0},
    {"above longer", LATCH_DONE, {{ABOVE_MORE, 3}}, 0},
    {"left one short", LATCH_SHORT_LIST, {{LEFT_MORE, -1}}, 0},
    {"left empty", LATCH_SHORT_LIST, {{LEFT_MORE, NONE}}, 0},
    {"left longer", LATCH_DONE, {{LEFT_MORE, 3}}, 0},
};

const struct faults size_faults = FAULTS(of_size), edge_faults = FAULTS(of_edges);

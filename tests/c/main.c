/* main.c: the C test of the C interface: the numbers on paper, every refusal of every call, and what a call must keep. */
#include "check.h"

int main(void) {
    test_paper();
    test_directions();
    test_direct();
    test_build_refs();
    test_colour_numbers();
    test_derive_params();
    test_predict_block();
    test_run_job();
    test_written();
    test_run();
    test_plans();
    test_clashes();
    test_turned();
    test_block_bytes();
    test_write_plan();
    test_read_plan();
    test_block_turns();
    test_stack();
    test_tower_job();
    test_tower_colour();
    test_tower_sums();
    test_tower_run();
    test_tower_plans();
    test_tower_clashes();
    test_tower_turned();
    test_tower_stack();
    return checks_done();
}

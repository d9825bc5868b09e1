/* check.h: what the C tests share: counting checks, lending memory between guards, and trying faults alone and in pairs. */
#ifndef CHECK_H
#define CHECK_H

#include <stdbool.h>
#include <stddef.h>
#include <stdint.h>

#include "latchorchard.h"
#include "latchtower.h"

/* Counts one check; a failed one is printed. */
void check(bool holds, const char *format, ...) __attribute__((format(printf, 2, 3)));
/* Prints the count and says how the program ends. */
int checks_done(void);

/* A zone lends bytes between two guards. Everything in it starts as a fixed pattern. */
enum { ZONE_GUARD = 256, ZONE_MOST = (1 << 18) + (1 << 12) };
struct zone {
    _Alignas(16) unsigned char now[ZONE_GUARD + ZONE_MOST + ZONE_GUARD];
    unsigned char before[ZONE_GUARD + ZONE_MOST + ZONE_GUARD];
    size_t lent;
};
/* Where the lent bytes start. None lent: any address, null among them, in turn. */
void *zone_lend(struct zone *zone, size_t bytes);
/* Takes down what the zone holds; then zone_kept says whether all but the first `written` lent bytes is still so. */
void zone_remember(struct zone *zone);
bool zone_kept(const struct zone *zone, size_t written);
/* The lent bytes as they were taken down: a test may write there what a call is due to write, before it asks zone_kept. */
void *zone_due(struct zone *zone);

/* A call's parameters are numbered fields from 1 on. The first ones are of several calls; from OWN_FIELDS on they are its own. */
enum { B = 1, D, ABOVE_MORE, LEFT_MORE, OWN_FIELDS };
enum { FIELDS_MOST = 64, SETS_MOST = 4, TABLES_MOST = 8 };
#define BIT(field) (UINT64_C(1) << (field))
/* Lengths are told as entries more than needed; NONE is an empty slice. */
#define NONE INT64_MIN
size_t length(int64_t needed, int64_t more);
/* Every flag: one more is a stray bit. */
enum { ALL_FLAGS = LATCH_HAVE_ABOVE + LATCH_HAVE_LEFT + LATCH_LUMA + LATCH_EDGE_FILTER + LATCH_SMOOTH_NEIGHBOUR };
/* Encodes M + k, for the M of the depth in use. */
#define M_PLUS(k) ((INT64_C(1) << 40) + (k))
/* M + k where M_PLUS(k) stands, else the value. */
int64_t with_max(int64_t value, int64_t most);

/* A fault sets fields of an accepted call; alone it gets `number` (LATCH_DONE: it is no fault, the call stays accepted).
 * `uses` has a bit for each field that it leans on without setting it. */
struct fault {
    const char *name;
    uint32_t number;
    struct { int field; int64_t value; } sets[SETS_MOST];
    uint64_t uses;
};
/* A table of faults: calls can share one. */
struct faults {
    const struct fault *rows;
    size_t count;
};
#define FAULTS(rows) {rows, COUNT(rows)}
/* Faults that several calls have: in the size and the depth, and in the lengths of the edges. */
extern const struct faults size_faults, edge_faults;

struct call {
    char name[64];
    const uint32_t *order;       /* its refusals in the order of checking, then LATCH_DONE */
    struct faults tables[TABLES_MOST];
    int64_t plain[FIELDS_MOST];  /* the fields of an accepted call */
    /* Makes the call. `kept`: the guards, the inputs and the tails are untouched, and with a refusal all that was lent. */
    uint32_t (*make)(const struct call *call, const int64_t *fields, bool *kept);
    const void *target;          /* what `make` calls, if it serves several functions */
};
/* Tries each fault alone and each pair that can stand together: the earlier number in the call's order is due. */
void try_faults(const struct call *call);

#define COUNT(array) (sizeof(array) / sizeof((array)[0]))

void test_paper(void);
void test_direct(void);
void test_directions(void);
void test_build_refs(void);
void test_colour_numbers(void);
void test_derive_params(void);
void test_predict_block(void);
void test_run_job(void);
void test_written(void);
void test_run(void);
void test_plans(void);
void test_clashes(void);
void test_turned(void);
void test_block_bytes(void);
void test_write_plan(void);
void test_read_plan(void);
void test_block_turns(void);
void test_stack(void);
void test_tower_job(void);
void test_tower_colour(void);
void test_tower_sums(void);
void test_tower_run(void);
void test_tower_plans(void);
void test_tower_clashes(void);
void test_tower_turned(void);
void test_tower_stack(void);

#endif

/* check.c: counting checks, lending memory between guards, and trying faults alone and in pairs. */
#include "check.h"

#include <stdarg.h>
#include <stdio.h>
#include <string.h>

static unsigned long checks, failed;

void check(bool holds, const char *format, ...) {
    checks++;
    if (holds) return;
    failed++;
    va_list rest;
    va_start(rest, format);
    printf("failed: ");
    vprintf(format, rest);
    printf("\n");
    va_end(rest);
}

int checks_done(void) {
    printf("c: %lu checks, %lu failed\n", checks, failed);
    return failed != 0;
}

void *zone_lend(struct zone *zone, size_t bytes) {
    if (bytes > ZONE_MOST) {
        check(false, "the test lends %zu bytes of a smaller zone", bytes);
        bytes = ZONE_MOST;
    }
    zone->lent = bytes;
    static unsigned char pattern[sizeof zone->now];
    for (size_t i = 0; pattern[sizeof pattern - 1] == 0 && i < sizeof pattern; i++) pattern[i] = (unsigned char)(0x80 + i * 37 % 127);
    memcpy(zone->now, pattern, ZONE_GUARD + bytes + ZONE_GUARD);
    static unsigned turn;
    void *const nowhere[] = {NULL, (void *)1, (void *)16, zone->now + ZONE_GUARD};
    return bytes > 0 ? zone->now + ZONE_GUARD : nowhere[turn++ % COUNT(nowhere)];
}

void zone_remember(struct zone *zone) {
    memcpy(zone->before, zone->now, ZONE_GUARD + zone->lent + ZONE_GUARD);
}

bool zone_kept(const struct zone *zone, size_t written) {
    size_t rest = ZONE_GUARD + written;
    return memcmp(zone->now, zone->before, ZONE_GUARD) == 0 &&
           memcmp(zone->now + rest, zone->before + rest, zone->lent - written + ZONE_GUARD) == 0;
}

void *zone_due(struct zone *zone) {
    return zone->before + ZONE_GUARD;
}

int64_t with_max(int64_t value, int64_t most) {
    return value > INT64_C(1) << 39 && value < INT64_C(1) << 41 ? value - M_PLUS(0) + most : value;
}

size_t length(int64_t needed, int64_t more) {
    return more == NONE ? 0 : (size_t)(needed + more < 0 ? 0 : needed + more);
}

/* The fields that a fault sets, a bit for each. */
static uint64_t fields_set(const struct fault *fault) {
    uint64_t fields = 0;
    for (int i = 0; i < SETS_MOST; i++)
        if (fault->sets[i].field != 0) fields |= BIT(fault->sets[i].field);
    return fields;
}

/* Whether two faults can stand in one call: neither sets what the other sets or leans on. */
static bool together(const struct fault *one, const struct fault *two) {
    uint64_t first = fields_set(one), second = fields_set(two);
    return (first & (second | two->uses)) == 0 && (second & one->uses) == 0;
}

static void apply(const struct fault *fault, int64_t *fields) {
    for (int i = 0; i < SETS_MOST; i++)
        if (fault->sets[i].field != 0) fields[fault->sets[i].field] = fault->sets[i].value;
}

/* The earlier of two numbers in an order that ends with LATCH_DONE. */
static uint32_t earlier(const uint32_t *order, uint32_t a, uint32_t b) {
    while (*order != LATCH_DONE && *order != a && *order != b) order++;
    return *order;
}

static void try_both(const struct call *call, const struct fault *one, const struct fault *two) {
    int64_t fields[FIELDS_MOST];
    memcpy(fields, call->plain, sizeof fields);
    apply(one, fields);
    apply(two, fields);
    bool kept = false;
    uint32_t due = earlier(call->order, one->number, two->number);
    uint32_t got = call->make(call, fields, &kept);
    const char *second = one == two ? "nothing else" : two->name;
    check(got == due, "%s with %s and %s answers %u, not %u", call->name, one->name, second, got, due);
    check(kept, "%s with %s and %s changes memory that it must keep", call->name, one->name, second);
}

/* The fault at a place in all the call's tables, or none past the last. */
static const struct fault *fault_at(const struct call *call, size_t place) {
    for (size_t t = 0; t < TABLES_MOST; t++) {
        if (place < call->tables[t].count) return &call->tables[t].rows[place];
        place -= call->tables[t].count;
    }
    return NULL;
}

void try_faults(const struct call *call) {
    const struct fault *one, *two;
    for (size_t i = 0; (one = fault_at(call, i)) != NULL; i++) {
        try_both(call, one, one);
        for (size_t j = i + 1; (two = fault_at(call, j)) != NULL; j++)
            if (together(one, two)) try_both(call, one, two);
    }
}

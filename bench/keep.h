/* How a panel keeps its overlay over a cut of the power: two slots in a mapped file, and the newer valid one counts.
   A slot is an overlay, zeros up to the end of its page, and a page that begins with a record: the generation, and
   the same number with every bit turned over. docs/CALLS.md has the rule in words. */
#ifndef KEEP_H
#define KEEP_H
#include <stdbool.h>
#include <stdint.h>
#include <stddef.h>

enum { KEEP_PAGE = 4096 };

struct keep {
    uint8_t *base;
    size_t length; /* of an overlay */
    /* Returns when the bytes from `from` on are on the medium: msync with MS_SYNC. */
    void (*sync)(const struct keep *, size_t from, size_t bytes);
    /* Question 2: whether a buffer is an overlay. Any call that asks it says so, as a report that is no 2. */
    bool (*is_overlay)(const uint8_t *overlay, size_t length);
};

static size_t keep_record_at(const struct keep *keep) {
    return (keep->length + KEEP_PAGE - 1) / KEEP_PAGE * KEEP_PAGE;
}

static size_t keep_slot(const struct keep *keep) {
    return keep_record_at(keep) + KEEP_PAGE;
}

static uint8_t *keep_overlay(const struct keep *keep, int slot) {
    return keep->base + (size_t)slot * keep_slot(keep);
}

static volatile uint64_t *keep_record(const struct keep *keep, int slot) {
    return (volatile uint64_t *)(keep_overlay(keep, slot) + keep_record_at(keep));
}

/* The generation of a slot; 0 where its record is not whole. */
static uint64_t keep_generation(const struct keep *keep, int slot) {
    volatile uint64_t *record = keep_record(keep, slot);
    return record[0] == ~record[1] ? record[0] : 0;
}

static bool keep_valid(const struct keep *keep, int slot) {
    return keep_generation(keep, slot) > 0 && keep->is_overlay(keep_overlay(keep, slot), keep->length);
}

/* The slot that counts; -1 where none does, and the panel begins with a fresh overlay. */
static int keep_newest(const struct keep *keep) {
    int newer = keep_generation(keep, 1) > keep_generation(keep, 0);
    if (keep_valid(keep, newer)) return newer;
    if (keep_valid(keep, 1 - newer)) return 1 - newer;
    return -1;
}

/* After a call that wrote the slot has returned 0: the overlay first, the record when that is on the medium. When this
   returns, the slot counts. After another number nothing is done: the other slot still counts. */
static void keep_commit(const struct keep *keep, int slot, uint64_t generation) {
    size_t start = (size_t)slot * keep_slot(keep);
    keep->sync(keep, start, keep_record_at(keep));
    keep_record(keep, slot)[0] = generation;
    keep_record(keep, slot)[1] = ~generation;
    keep->sync(keep, start + keep_record_at(keep), KEEP_PAGE);
}
#endif

/* What the proved library tells the C beside it of a store's file (c/store.c). No program sees these calls: build-c keeps them inside. */
#ifndef ROSKVIDH_PLAN_H
#define ROSKVIDH_PLAN_H

#include "cedar.h"

enum { CEDAR_PLAN_CUT = 0, CEDAR_PLAN_WRITE = 1, CEDAR_PLAN_MOST = 4 };

/* One step: the file is cut to its first `at` bytes; or `length` of the plan's bytes, from `from` on, are written at `at`. It is done once
 * the disk has it. */
typedef struct cedar_step {
    uint32_t kind;
    size_t at;
    size_t from;
    size_t length;
} cedar_step;

/* The steps are carried out one after another, and none behind one that failed: then what the file stands for isn't known, and a
 * compaction puts another file in its place. */
typedef struct cedar_plan {
    size_t count;
    cedar_step steps[CEDAR_PLAN_MOST];
} cedar_plan;

/* How many bytes the plan of an opening has; how many more than its key that of a change has at most; and how many more than its key an
 * update has among those of a group. */
enum { CEDAR_PLAN_OPENING = 14, CEDAR_PLAN_CHANGE = 15, CEDAR_PLAN_PART = 10 };

/* How many bytes the header of a file has. */
enum { CEDAR_PLAN_HEADER = 13 };

/* How many bytes stand in front of the records of a group: in a file whose records have sums, and in one of version 1. */
enum { CEDAR_PLAN_SUMMED_GROUP = 10, CEDAR_PLAN_GROUP = 6 };

/* The bytes are those of the file, which was synced before it was read. Once the plan is carried out there are *records records, which end
 * at *end, and *is_summed says whether they have sums. With CEDAR_STORE_DAMAGED *damaged_at is where in the file the first such record
 * begins. */
uint32_t cedar_plan_open(cedar_dictionary *d, bool is_reduced, const uint8_t *bytes, size_t length, bool *is_summed, size_t *end,
                         size_t *records, size_t *damaged_at, uint8_t *buffer, size_t room, cedar_plan *plan);

/* Whether the plan of an opening of a file of these bytes may cut off more than the record under way: whole records, which no test has found
 * a crash to leave there. False of a file that is refused, and of a new one. It takes a time of 16 times the bytes at most. */
bool cedar_plan_may_cut_records(const uint8_t *bytes, size_t length);

/* The change is made in the dictionary, and its plan is told: it is acknowledged once the plan is carried out, and the file has one record
 * more. *end is where the records end before the plan, and then where they end behind it. Nothing is to be carried out of an erasure that
 * answers CEDAR_OK and *held false. `is_summed` is what the opening told, or false for a record that waits for those of a group. */
uint32_t cedar_plan_put(cedar_dictionary *d, const uint8_t *key, size_t length, int32_t value, bool is_summed, size_t *end,
                        uint8_t *buffer, size_t room, cedar_plan *plan, bool *held, int32_t *before, size_t *position);
uint32_t cedar_plan_erase(cedar_dictionary *d, const uint8_t *key, size_t length, bool is_summed, size_t *end, uint8_t *buffer, size_t room,
                          cedar_plan *plan, bool *held);

/* Makes one record of those of several changes, which stand behind the first CEDAR_PLAN_SUMMED_GROUP or CEDAR_PLAN_GROUP bytes of the
 * buffer, one behind another, each without a sum and without its last byte, and have so many bytes together; behind them there is room for
 * a byte. The plan's bytes begin with that record. */
uint32_t cedar_plan_group(size_t length, bool is_summed, size_t *end, uint8_t *buffer, size_t room, cedar_plan *plan);

#endif

/* What the parts of a store share: c/store.c has its opening and single changes, c/batch.c changes that are made as one, c/compact.c the
 * file that is made short. No program sees this: build-c keeps it inside. */
#ifndef ROSKVIDH_STORE_H
#define ROSKVIDH_STORE_H

#include "cedar.h"
#include "disk.h"
#include "plan.h"

/* No record is longer. */
#define LONGEST_RECORD ((size_t)UINT32_MAX)

struct cedar_store_file {
    disk_file disk;
    bool is_to_read;
    bool has_failed;
    bool is_unsure;             /* it has failed when another file got its name */
    bool is_summed;             /* whether its records have sums */
    size_t end;                 /* where its records end */
    size_t records;             /* how many there are */
    uint8_t *bytes;             /* those of a plan */
    size_t room;
    size_t every;               /* how many changes go to the disk together, or 0 */
    size_t waiting;             /* how many wait for that */
    size_t filled;              /* how many bytes their records have, behind the head of a group */
    size_t factor;              /* when it is made short by itself: cedar_store_compact_beyond */
    size_t spare;
    size_t base;                /* how long it was when that was looked at */
    uint32_t last_compaction;
    char *kept;                 /* the path of the file that has what the opening cut off, or NULL */
};

/* Does what a plan says, up to the first step that fails. */
bool store_carry_out(const disk_file *disk, const cedar_plan *plan, const uint8_t *bytes);

/* How many bytes stand in front of the records of a group, in a file whose records have sums or not. */
size_t store_head(bool is_summed);

/* Whether a store takes changes: CEDAR_OK, or why it doesn't. */
uint32_t store_takes_changes(const struct cedar_store_file *file);

/* Makes room for the bytes of a plan. */
uint32_t store_grow(struct cedar_store_file *file, size_t room);

/* Puts the changes that wait on the disk, as one record. If there is no room for it they go on waiting. */
uint32_t store_write_waiting(struct cedar_store_file *file);

/* Makes the file short if it is too long for what its entries take. It fails only where the store has failed then. */
uint32_t store_compact_if_due(cedar_store *s);

/* Acknowledges what a plan does that writes a record behind those that ended at `end`, and counts that record. If there is no room for it,
 * the file is as it was, and so is file->end: CEDAR_STORE_NO_ROOM. Otherwise the device has failed. */
uint32_t store_acknowledge(struct cedar_store_file *file, const cedar_plan *plan, size_t end);

#endif

/* Changes of a store that are made as one: all of them, or none. It is tested (tests/c/batches.c) and not proved. cedar.h says what the
 * call does.
 *
 * An update can be taken back without memory, and an erasure can't: its key would need slots again. So all that needs memory comes first:
 * the records of the erasures, which a dictionary beside the store's makes, and the updates. Once the record of all is on the disk, the
 * erasures are made. Of each key the last change counts, so the order of different keys doesn't matter. */
#include "store.h"

#include <errno.h>
#include <stdlib.h>
#include <string.h>

/* A change that counts, and what its key held before. */
typedef struct made {
    const cedar_change *change;
    bool was_held;
    int32_t before;
} made;

typedef struct batch {
    struct cedar_store_file *file;
    cedar_dictionary *dictionary;
    made *changes;  /* one of each key */
    size_t count;
    size_t room;    /* how many bytes their records have at most, with what stands around them */
} batch;

/* ---- what is asked of the changes */

/* The first fault of a change, as cedar_update tells it. */
static uint32_t fault_of(const cedar_change *change, size_t *position) {
    if (change->is_erasure) return CEDAR_OK;
    if (change->length == 0) return CEDAR_EMPTY_KEY;
    const uint8_t *nul = memchr(change->key, 0, change->length);
    if (nul != NULL) {
        if (position != NULL) *position = (size_t)(nul - change->key);
        return CEDAR_NUL_BYTE;
    }
    return change->value < CEDAR_MIN_VALUE || change->value > CEDAR_MAX_VALUE ? CEDAR_INVALID_VALUE : CEDAR_OK;
}

static uint32_t find_fault(const cedar_change *changes, size_t count, size_t *refused, size_t *position) {
    for (size_t i = 0; i < count; i++) {
        uint32_t status = fault_of(&changes[i], position);
        if (status != CEDAR_OK && refused != NULL) *refused = i;
        if (status != CEDAR_OK) return status;
    }
    return CEDAR_OK;
}

static int compare_keys(const cedar_change *one, const cedar_change *other) {
    size_t least = one->length < other->length ? one->length : other->length;
    int order = least == 0 ? 0 : memcmp(one->key, other->key, least);
    return order != 0 ? order : (one->length > other->length) - (one->length < other->length);
}

/* By their keys, and of one key the last one first. */
static int compare(const void *one, const void *other) {
    const cedar_change *left = ((const made *)one)->change, *right = ((const made *)other)->change;
    int order = compare_keys(left, right);
    return order != 0 ? order : (left < right) - (left > right);
}

/* Notes the last change of each key. */
static uint32_t note_last(batch *b, const cedar_change *changes, size_t count) {
    b->changes = count > SIZE_MAX / sizeof *b->changes ? NULL : malloc(count * sizeof *b->changes);
    if (b->changes == NULL) return CEDAR_MEMORY;
    for (size_t i = 0; i < count; i++) b->changes[i] = (made){&changes[i], false, 0};
    qsort(b->changes, count, sizeof *b->changes, compare);
    for (size_t i = 0; i < count; i++) {
        if (b->count > 0 && compare_keys(b->changes[b->count - 1].change, b->changes[i].change) == 0) continue;
        b->changes[b->count++] = b->changes[i];
    }
    return CEDAR_OK;
}

/* Makes room for all records. */
static uint32_t make_room(batch *b) {
    b->room = store_head(b->file->is_summed) + 1;
    for (size_t i = 0; i < b->count; i++) {
        size_t length = b->changes[i].change->length;
        if (length > LONGEST_RECORD || b->room > LONGEST_RECORD) return CEDAR_STORE_TOO_LONG;
        b->room += length + CEDAR_PLAN_CHANGE;
    }
    return b->room > LONGEST_RECORD ? CEDAR_STORE_TOO_LONG : store_grow(b->file, b->room);
}

/* ---- how they are made */

static uint8_t *place_of(const batch *b, size_t *room) {
    size_t before = store_head(b->file->is_summed) + b->file->filled;
    *room = b->file->room - before;
    return b->file->bytes + before;
}

/* Writes the record of an erasure, by a dictionary that has its key alone. */
static uint32_t write_erasure(batch *b, cedar_dictionary *beside, const cedar_change *change) {
    cedar_plan plan;
    bool held = false;
    size_t room, end = b->file->end;
    uint8_t *place = place_of(b, &room);
    uint32_t status = cedar_update(beside, change->key, change->length, 0, NULL);
    if (status == CEDAR_OK) status = cedar_plan_erase(beside, change->key, change->length, false, &end, place, room, &plan, &held);
    if (status == CEDAR_OK) b->file->filled += plan.steps[0].length;
    return status;
}

/* Notes what each key holds, and writes the records of the erasures among the changes. The store's dictionary stays. */
static uint32_t write_erasures(batch *b) {
    cedar_dictionary beside = CEDAR_CLOSED;
    uint32_t status = cedar_new(&beside);
    for (size_t i = 0; status == CEDAR_OK && i < b->count; i++) {
        made *one = &b->changes[i];
        const cedar_change *change = one->change;
        one->was_held = cedar_get(b->dictionary, change->key, change->length, &one->before);
        if (change->is_erasure && one->was_held) status = write_erasure(b, &beside, change);
    }
    cedar_free(&beside);
    return status;
}

/* Makes an update, and writes its record. */
static uint32_t make_update(batch *b, const cedar_change *change) {
    cedar_plan plan;
    bool held;
    int32_t before;
    size_t position, room, end = b->file->end;
    uint8_t *place = place_of(b, &room);
    uint32_t status = cedar_plan_put(b->dictionary, change->key, change->length, change->value, false, &end, place, room, &plan, &held,
                                     &before, &position);
    if (status == CEDAR_OK) b->file->filled += plan.steps[0].length;
    return status;
}

/* Takes the first updates back, which needs no memory. */
static void take_back(batch *b, size_t count) {
    for (size_t i = 0; i < count; i++) {
        const made *one = &b->changes[i];
        if (one->change->is_erasure) continue;
        if (one->was_held) cedar_update(b->dictionary, one->change->key, one->change->length, one->before, NULL);
        else cedar_erase(b->dictionary, one->change->key, one->change->length);
    }
}

/* Makes the updates among the changes, or none. */
static uint32_t make_updates(batch *b, const cedar_change *changes, size_t *refused) {
    for (size_t i = 0; i < b->count; i++) {
        const cedar_change *change = b->changes[i].change;
        uint32_t status = change->is_erasure ? CEDAR_OK : make_update(b, change);
        if (status == CEDAR_OK) continue;
        if (refused != NULL) *refused = (size_t)(change - changes);
        take_back(b, i);
        return status;
    }
    return CEDAR_OK;
}

static void make_erasures(batch *b) {
    for (size_t i = 0; i < b->count; i++) {
        const made *one = &b->changes[i];
        if (one->change->is_erasure && one->was_held) cedar_erase(b->dictionary, one->change->key, one->change->length);
    }
}

/* Makes the changes in the dictionary, and then on the disk. */
static uint32_t make_all(batch *b, const cedar_change *changes, size_t count, size_t *refused) {
    cedar_plan plan;
    uint32_t status = note_last(b, changes, count);
    if (status == CEDAR_OK) status = make_room(b);
    if (status == CEDAR_OK) status = write_erasures(b);
    if (status == CEDAR_OK) status = make_updates(b, changes, refused);
    if (status != CEDAR_OK || b->file->filled == 0) return status;
    size_t end = b->file->end;
    status = cedar_plan_group(b->file->filled, b->file->is_summed, &b->file->end, b->file->bytes, b->file->room, &plan);
    if (status == CEDAR_OK) status = store_acknowledge(b->file, &plan, end);
    int cause = errno;
    if (status == CEDAR_OK || b->file->has_failed) make_erasures(b);
    else take_back(b, b->count);
    errno = cause;
    return status;
}

uint32_t cedar_store_apply(cedar_store *s, const cedar_change *changes, size_t count, size_t *refused, size_t *position) {
    batch b = {s->file, &s->dictionary, NULL, 0, 0};
    uint32_t status = store_takes_changes(s->file);
    if (status == CEDAR_OK && disk_is_inherited(&s->file->disk)) status = CEDAR_STORE_LOCKED;
    if (status == CEDAR_OK) status = find_fault(changes, count, refused, position);
    if (status == CEDAR_OK) status = cedar_store_sync(s);
    if (status != CEDAR_OK || count == 0) return status;
    status = make_all(&b, changes, count, refused);
    int cause = errno;
    s->file->filled = 0;
    free(b.changes);
    errno = cause;
    return status == CEDAR_OK ? store_compact_if_due(s) : status;
}

/* Stores: dictionaries whose changes are in a file before they are acknowledged. The proved library says what is to be done to the file,
 * step by step; this part does it. It is tested (tests/c/store.c, tests/c/openings.c, tests/c/kept.c) and not proved. cedar.h says what the
 * calls do. */
#include "store.h"

#include <errno.h>
#include <stdlib.h>

/* When a store's file is made short by itself, as in Rattle. */
enum { DEFAULT_FACTOR = 2, DEFAULT_SPARE = 1 << 16 };

/* How many steps of a plan are done: all, or those before the first one that fails. *is_full says whether there was no room for that. */
static size_t carry_out(const disk_file *disk, const cedar_plan *plan, const uint8_t *bytes, bool *is_full) {
    *is_full = false;
    for (size_t i = 0; i < plan->count; i++) {
        const cedar_step *step = &plan->steps[i];
        bool is_done = step->kind == CEDAR_PLAN_CUT ? disk_cut(disk, step->at)
                                                    : disk_write(disk, step->at, bytes + step->from, step->length, is_full);
        if (!is_done) return i;
    }
    return plan->count;
}

bool store_carry_out(const disk_file *disk, const cedar_plan *plan, const uint8_t *bytes) {
    bool is_full;
    return carry_out(disk, plan, bytes, &is_full) == plan->count;
}

/* ---- a file that is opened */

/* Makes a file of these bytes ready for changes, by the plan of its opening. If that may cut off more than the record under way, all that it
 * cuts off is kept first, behind the header. */
static uint32_t mend(struct cedar_store_file *file, const cedar_plan *plan, const uint8_t *buffer, const uint8_t *bytes, size_t length) {
    uint32_t status = CEDAR_OK;
    if (plan->count > 0 && cedar_plan_may_cut_records(bytes, length)) {
        status = disk_keep(&file->disk, bytes, CEDAR_PLAN_HEADER, file->end, length, &file->kept);
    }
    if (status != CEDAR_OK) return status;
    return store_carry_out(&file->disk, plan, buffer) ? CEDAR_OK : CEDAR_STORE_DEVICE;
}

/* Reads the dictionary of the file, and makes the file ready for changes, unless it is opened to read. */
static uint32_t make_ready(cedar_store *s, bool is_reduced) {
    struct cedar_store_file *file = s->file;
    uint8_t *bytes = NULL, buffer[CEDAR_PLAN_OPENING];
    size_t length = 0;
    cedar_plan plan;
    uint32_t status = disk_read(&file->disk, &bytes, &length);
    if (status == CEDAR_OK) {
        status = cedar_plan_open(&s->dictionary, is_reduced, bytes, length, &file->is_summed, &file->end, &file->records,
                                 &s->damaged_at, buffer, sizeof buffer, &plan);
    }
    if (status == CEDAR_OK && !file->is_to_read) status = mend(file, &plan, buffer, bytes, length);
    int cause = errno;
    free(bytes);
    errno = cause;
    return status;
}

/* Opens a closed one. After an error it is closed again. */
static uint32_t open_closed(cedar_store *s, const char *path, uint32_t how) {
    s->file = calloc(1, sizeof *s->file);
    if (s->file == NULL) return CEDAR_MEMORY;
    s->damaged_at = 0;
    s->file->every = 1;
    s->file->factor = DEFAULT_FACTOR;
    s->file->spare = DEFAULT_SPARE;
    s->file->is_to_read = (how & CEDAR_OPEN_TO_READ) != 0;
    uint32_t status = disk_open(&s->file->disk, path, how);
    if (status == CEDAR_OK) status = make_ready(s, (how & CEDAR_OPEN_REDUCED) != 0);
    int cause = errno;
    if (status != CEDAR_OK) cedar_store_close(s);
    errno = cause;
    return status;
}

/* Whether the bits are known ones, and can be met together. */
static bool is_how(uint32_t how) {
    uint32_t what = how & ~(uint32_t)CEDAR_OPEN_REDUCED;
    /* What is opened to read has to be there anyway. */
    return what == 0 || what == CEDAR_OPEN_NEW || (what & ~(uint32_t)(CEDAR_OPEN_EXISTING | CEDAR_OPEN_TO_READ)) == 0;
}

uint32_t cedar_store_open_with(cedar_store *s, const char *path, uint32_t how) {
    if (!is_how(how)) {
        errno = EINVAL;
        return CEDAR_STORE_DEVICE;
    }
    /* It is closed first: it may have the lock of the very file. */
    if (s->file != NULL && !s->file->has_failed) {
        uint32_t status = store_write_waiting(s->file);
        if (status != CEDAR_OK) return status;
    }
    cedar_store_close(s);
    return open_closed(s, path, how);
}

uint32_t cedar_store_open(cedar_store *s, const char *path) {
    return cedar_store_open_with(s, path, 0);
}

uint32_t cedar_store_open_reduced(cedar_store *s, const char *path) {
    return cedar_store_open_with(s, path, CEDAR_OPEN_REDUCED);
}

uint32_t cedar_store_open_to_read(cedar_store *s, const char *path) {
    return cedar_store_open_with(s, path, CEDAR_OPEN_TO_READ);
}

bool cedar_store_failed(const cedar_store *s) {
    return s->file != NULL && s->file->has_failed;
}

size_t cedar_store_waiting(const cedar_store *s) {
    return s->file == NULL ? 0 : s->file->waiting;
}

size_t cedar_store_records(const cedar_store *s) {
    return s->file == NULL ? 0 : s->file->records;
}

const char *cedar_store_kept(const cedar_store *s) {
    return s->file == NULL ? NULL : s->file->kept;
}

/* ---- changes on the disk */

uint32_t store_acknowledge(struct cedar_store_file *file, const cedar_plan *plan, size_t end) {
    bool is_full;
    size_t done = carry_out(&file->disk, plan, file->bytes, &is_full);
    if (done == plan->count) {
        file->records++;
        return CEDAR_OK;
    }
    int cause = errno;
    /* The first step writes the record behind the closed gate. What is there of it is cut off. */
    if (done == 0 && is_full && disk_cut(&file->disk, plan->steps[0].at)) {
        file->end = end;
        errno = cause;
        return CEDAR_STORE_NO_ROOM;
    }
    file->has_failed = true;
    return CEDAR_STORE_DEVICE;
}

uint32_t store_write_waiting(struct cedar_store_file *file) {
    cedar_plan plan;
    if (file->waiting == 0) return CEDAR_OK;
    if (disk_is_inherited(&file->disk)) return CEDAR_STORE_LOCKED;
    size_t end = file->end;
    uint32_t status = cedar_plan_group(file->filled, file->is_summed, &file->end, file->bytes, file->room, &plan);
    if (status == CEDAR_OK) status = store_acknowledge(file, &plan, end);
    if (status == CEDAR_STORE_NO_ROOM) return status;
    file->waiting = 0;
    file->filled = 0;
    return status;
}

static uint32_t sync_store(struct cedar_store_file *file) {
    if (file == NULL) return CEDAR_IS_CLOSED;
    return file->has_failed ? CEDAR_STORE_FAILED : store_write_waiting(file);
}

uint32_t cedar_store_sync(cedar_store *s) {
    bool has_waited = cedar_store_waiting(s) > 0;
    uint32_t status = sync_store(s->file);
    /* Changes that didn't wait have looked at the file's length themselves. */
    return status == CEDAR_OK && has_waited ? store_compact_if_due(s) : status;
}

uint32_t cedar_store_sync_every(cedar_store *s, size_t changes) {
    uint32_t status = sync_store(s->file);
    if (status == CEDAR_OK) s->file->every = changes;
    return status;
}

void cedar_store_close(cedar_store *s) {
    struct cedar_store_file *file = s->file;
    cedar_free(&s->dictionary);
    if (file == NULL) return;
    sync_store(file);
    disk_close(&file->disk);
    free(file->bytes);
    free(file->kept);
    free(file);
    s->file = NULL;
}

/* ---- changes */

size_t store_head(bool is_summed) {
    return is_summed ? CEDAR_PLAN_SUMMED_GROUP : CEDAR_PLAN_GROUP;
}

/* Whether the record of a change has a sum. One that waits has none, since the record of all that wait has one. */
static bool has_sum(const struct cedar_store_file *file) {
    return file->every == 1 && file->is_summed;
}

/* Where the record of a change is written: first, or behind those that wait. */
static uint8_t *place_of(const struct cedar_store_file *file, size_t *room) {
    size_t before = file->every == 1 ? 0 : store_head(file->is_summed) + file->filled;
    *room = file->room - before;
    return file->bytes + before;
}

uint32_t store_grow(struct cedar_store_file *file, size_t room) {
    if (room <= file->room) return CEDAR_OK;
    size_t most = file->every == 1 || file->room > SIZE_MAX / 2 ? 0 : 2 * file->room;
    if (room < most) room = most;
    uint8_t *grown = realloc(file->bytes, room);
    if (grown == NULL) return CEDAR_MEMORY;
    file->bytes = grown;
    file->room = room;
    return CEDAR_OK;
}

uint32_t store_takes_changes(const struct cedar_store_file *file) {
    if (file == NULL) return CEDAR_IS_CLOSED;
    if (file->is_to_read) return CEDAR_STORE_READ_ONLY;
    return file->has_failed ? CEDAR_STORE_FAILED : CEDAR_OK;
}

/* Whether a store takes changes, and has room for the record of one with a key of so many bytes. A longer one is refused without. */
static uint32_t prepare(struct cedar_store_file *file, size_t length) {
    uint32_t status = store_takes_changes(file);
    if (status != CEDAR_OK) return status;
    /* One that waits is looked at when it is written. */
    if (file->every == 1 && disk_is_inherited(&file->disk)) return CEDAR_STORE_LOCKED;
    size_t room = length > LONGEST_RECORD ? CEDAR_PLAN_CHANGE : length + CEDAR_PLAN_CHANGE;
    if (file->every == 1) return store_grow(file, room);
    /* The record of a group is no longer than others are. */
    room += store_head(file->is_summed) + file->filled;
    return room > LONGEST_RECORD ? CEDAR_STORE_TOO_LONG : store_grow(file, room);
}

/* Acknowledges a change that the dictionary has: it is on the disk then, or it waits. Its plan's first step writes all of its record but
 * the first byte. */
static uint32_t take_up(cedar_store *s, size_t end, const cedar_plan *plan) {
    struct cedar_store_file *file = s->file;
    uint32_t status;
    if (file->every == 1) {
        size_t before = file->end;
        file->end = end;
        status = store_acknowledge(file, plan, before);
    } else {
        file->filled += plan->steps[0].length;
        file->waiting++;
        if (file->every == 0 || file->waiting < file->every) return CEDAR_OK;
        status = store_write_waiting(file);
    }
    return status == CEDAR_OK ? store_compact_if_due(s) : status;
}

/* Whether a change isn't made, since there is no room for its record. One that waits is, and waits on. */
static bool lacks_room(const cedar_store *s, uint32_t status) {
    return status == CEDAR_STORE_NO_ROOM && s->file->every == 1;
}

/* Takes a put back, which needs no memory. */
static void take_back(cedar_store *s, const uint8_t *key, size_t length, bool was_held, int32_t was) {
    int cause = errno;
    if (was_held) cedar_update(&s->dictionary, key, length, was, NULL);
    else cedar_erase(&s->dictionary, key, length);
    errno = cause;
}

/* Puts a key again that was erased. If there is no memory for it the store has failed. */
static uint32_t put_again(cedar_store *s, const uint8_t *key, size_t length, int32_t was) {
    int cause = errno;
    uint32_t status = cedar_update(&s->dictionary, key, length, was, NULL);
    errno = cause;
    if (status == CEDAR_OK) return CEDAR_STORE_NO_ROOM;
    s->file->has_failed = true;
    return CEDAR_STORE_DEVICE;
}

uint32_t cedar_store_insert(cedar_store *s, const uint8_t *key, size_t length, int32_t value, bool *held, int32_t *before,
                            size_t *position) {
    cedar_plan plan;
    bool was_held = false;
    int32_t was = 0;
    size_t at = 0;
    uint32_t status = prepare(s->file, length);
    if (status != CEDAR_OK) return status;
    size_t room, end = s->file->end;
    uint8_t *place = place_of(s->file, &room);
    status = cedar_plan_put(&s->dictionary, key, length, value, has_sum(s->file), &end, place, room, &plan, &was_held, &was, &at);
    if (status == CEDAR_NUL_BYTE && position != NULL) *position = at;
    if (status != CEDAR_OK) return status;
    status = take_up(s, end, &plan);
    if (lacks_room(s, status)) take_back(s, key, length, was_held, was);
    if (status != CEDAR_OK) return status;
    if (held != NULL) *held = was_held;
    if (before != NULL && was_held) *before = was;
    return CEDAR_OK;
}

uint32_t cedar_store_update(cedar_store *s, const uint8_t *key, size_t length, int32_t value, size_t *position) {
    return cedar_store_insert(s, key, length, value, NULL, NULL, position);
}

uint32_t cedar_store_erase(cedar_store *s, const uint8_t *key, size_t length, bool *held) {
    cedar_plan plan;
    bool was_held = false;
    int32_t was = 0;
    uint32_t status = prepare(s->file, length);
    if (status != CEDAR_OK) return status;
    size_t room, end = s->file->end;
    uint8_t *place = place_of(s->file, &room);
    if (s->file->every == 1) cedar_get(&s->dictionary, key, length, &was);
    status = cedar_plan_erase(&s->dictionary, key, length, has_sum(s->file), &end, place, room, &plan, &was_held);
    if (status == CEDAR_OK && was_held) status = take_up(s, end, &plan);
    if (lacks_room(s, status)) status = put_again(s, key, length, was);
    if (status == CEDAR_OK && held != NULL) *held = was_held;
    return status;
}

/* The file of a store made short: a new file that has the entries alone is put in its place. It is tested (tests/c/compactions.c) and
 * not proved. cedar.h says what the calls do.
 *
 * What is written to the new file are plans as those of any other: it is opened as an empty one, and groups of updates are appended, one
 * for each entry, in iteration order. So it stands for the dictionary. */
#include "store.h"

#include <errno.h>
#include <stdlib.h>
#include <string.h>

/* How many entries are looked at together, how many bytes their keys have at first, and from how many bytes on the records of a group go to
 * the file. */
enum { PAGE = 256, FIRST_ROOM = 1 << 14, FULL_GROUP = 1 << 22 };

/* ---- all entries */

/* The keys of a page. */
typedef struct page {
    uint8_t *bytes;
    size_t room;
    size_t count;
    cedar_found found[PAGE];
} page;

/* Reads the page behind a key. */
static uint32_t read_page(const cedar_dictionary *d, const uint8_t *behind, size_t length, page *next) {
    static const uint8_t NONE[1];
    size_t room = next->room == 0 ? FIRST_ROOM : next->room;
    for (;;) {
        if (room > next->room) {
            uint8_t *grown = realloc(next->bytes, room);
            if (grown == NULL) return CEDAR_MEMORY;
            next->bytes = grown;
            next->room = room;
        }
        uint32_t status = cedar_entries_from(d, NONE, 0, length == 0 ? NONE : behind, length, next->found, PAGE, next->bytes, next->room,
                                             &next->count, &room);
        if (status != CEDAR_NO_ROOM) return status;
    }
}

typedef uint32_t (*take_entry)(void *into, const uint8_t *key, size_t length, int32_t value);

/* Hands the entries of a page on, and finds the last one's key. */
static uint32_t take_page(const page *from, take_entry take, void *into, const uint8_t **last, size_t *length) {
    for (size_t i = 0; i < from->count; i++) {
        *last = from->bytes + from->found[i].place;
        *length = from->found[i].length;
        uint32_t status = take(into, *last, *length, from->found[i].value);
        if (status != CEDAR_OK) return status;
    }
    return CEDAR_OK;
}

/* Hands all entries on, in iteration order. */
static uint32_t take_entries(const cedar_dictionary *d, take_entry take, void *into) {
    page *pages = calloc(2, sizeof *pages); /* the page that is read doesn't overlap the one before it */
    if (pages == NULL) return CEDAR_MEMORY;
    const uint8_t *last = NULL;
    size_t length = 0, turn = 0;
    uint32_t status;
    do {
        page *next = &pages[turn++ % 2];
        status = read_page(d, last, length, next);
        if (status == CEDAR_OK) status = take_page(next, take, into, &last, &length);
        if (next->count == 0) break;
    } while (status == CEDAR_OK);
    int cause = errno;
    free(pages[0].bytes);
    free(pages[1].bytes);
    free(pages);
    errno = cause;
    return status;
}

/* ---- the new file */

/* A new file, and the records that are to be written to it. */
typedef struct made {
    disk_file disk;
    cedar_dictionary beside; /* has one key at a time: the calls that change it make the records */
    bool is_summed;
    size_t end;
    size_t records;
    uint8_t *bytes;
    size_t room;
    size_t filled;
} made;

/* Writes what has gathered, as one record. */
static uint32_t write_group(made *m) {
    cedar_plan plan;
    if (m->filled == 0) return CEDAR_OK;
    uint32_t status = cedar_plan_group(m->filled, m->is_summed, &m->end, m->bytes, m->room, &plan);
    m->filled = 0;
    if (status != CEDAR_OK) return status;
    if (!store_carry_out(&m->disk, &plan, m->bytes)) return CEDAR_STORE_KEPT;
    m->records++;
    return CEDAR_OK;
}

static uint32_t make_room(made *m, size_t room) {
    if (room <= m->room) return CEDAR_OK;
    if (room < 2 * m->room) room = 2 * m->room;
    uint8_t *grown = realloc(m->bytes, room);
    if (grown == NULL) return CEDAR_MEMORY;
    m->bytes = grown;
    m->room = room;
    return CEDAR_OK;
}

/* Adds the record of an entry. */
static uint32_t add_record(void *into, const uint8_t *key, size_t length, int32_t value) {
    made *m = into;
    cedar_plan plan;
    bool held;
    int32_t before;
    size_t position, end = m->end, from = store_head(m->is_summed) + m->filled;
    uint32_t status = make_room(m, from + length + CEDAR_PLAN_CHANGE);
    if (status == CEDAR_OK) {
        status = cedar_plan_put(&m->beside, key, length, value, false, &end, m->bytes + from, m->room - from, &plan, &held, &before,
                                &position);
    }
    if (status != CEDAR_OK) return status;
    cedar_erase(&m->beside, key, length);
    m->filled += plan.steps[0].length;
    return m->filled < FULL_GROUP ? CEDAR_OK : write_group(m);
}

/* Makes the new file, and its header. */
static uint32_t begin(made *m, const disk_file *old) {
    uint8_t buffer[CEDAR_PLAN_OPENING];
    static const uint8_t NONE[1];
    cedar_plan plan;
    size_t damaged_at;
    uint32_t status = cedar_plan_open(&m->beside, true, NONE, 0, &m->is_summed, &m->end, &m->records, &damaged_at, buffer, sizeof buffer,
                                      &plan);
    if (status != CEDAR_OK) return status;
    return disk_make_beside(old, &m->disk) && store_carry_out(&m->disk, &plan, buffer) ? CEDAR_OK : CEDAR_STORE_KEPT;
}

/* Puts the new file in the place of the old one. */
static uint32_t put_in_place(struct cedar_store_file *file, made *m) {
    if (disk_take_place(&file->disk, &m->disk, &file->is_unsure)) {
        file->has_failed = false;
        file->is_summed = m->is_summed;
        file->end = file->base = m->end;
        file->records = m->records;
        file->waiting = file->filled = 0;
        return CEDAR_OK;
    }
    if (!file->is_unsure) return CEDAR_STORE_KEPT;
    file->has_failed = true;
    file->waiting = file->filled = 0;
    return CEDAR_STORE_DEVICE;
}

static uint32_t compact(cedar_store *s) {
    made m = {DISK_CLOSED, CEDAR_CLOSED, false, 0, 0, NULL, 0, 0};
    uint32_t status = begin(&m, &s->file->disk);
    if (status == CEDAR_OK) status = take_entries(&s->dictionary, add_record, &m);
    if (status == CEDAR_OK) status = write_group(&m);
    if (status == CEDAR_OK) status = put_in_place(s->file, &m);
    int cause = errno;
    disk_give_up(&s->file->disk, &m.disk);
    cedar_free(&m.beside);
    free(m.bytes);
    s->file->last_compaction = status;
    errno = cause;
    return status;
}

uint32_t cedar_store_compact(cedar_store *s) {
    if (s->file == NULL) return CEDAR_IS_CLOSED;
    if (s->file->is_to_read) return CEDAR_STORE_READ_ONLY;
    if (disk_is_inherited(&s->file->disk)) return CEDAR_STORE_LOCKED;
    return s->file->is_unsure ? CEDAR_STORE_FAILED : compact(s);
}

/* ---- when it is done */

/* How long the new file would be: the header with a closed gate, and groups with sums. */
typedef struct measured {
    size_t length;
    size_t filled;
} measured;

static uint32_t add_length(void *into, const uint8_t *key, size_t length, int32_t value) {
    (void)key;
    (void)value;
    measured *m = into;
    size_t record = length + CEDAR_PLAN_PART;
    if (m->filled == 0) m->length += CEDAR_PLAN_SUMMED_GROUP;
    m->length += record;
    m->filled += record;
    if (m->filled >= FULL_GROUP) m->filled = 0;
    return CEDAR_OK;
}

uint32_t cedar_store_compacted_len(const cedar_store *s, size_t *length) {
    measured m = {CEDAR_PLAN_OPENING, 0};
    if (s->file == NULL) return CEDAR_IS_CLOSED;
    uint32_t status = take_entries(&s->dictionary, add_length, &m);
    if (status == CEDAR_OK) *length = m.length;
    return status;
}

static size_t add(size_t one, size_t other) {
    return one > SIZE_MAX - other ? SIZE_MAX : one + other;
}

/* Whether the file is too long for so many bytes. */
static bool is_beyond(const struct cedar_store_file *file, size_t bytes) {
    size_t factor = file->factor < 2 ? 2 : file->factor;
    size_t most = bytes > SIZE_MAX / factor ? SIZE_MAX : factor * bytes;
    return add(most, file->spare) < file->end;
}

/* It is looked at again once the file is so much longer than it is now: so all looks together cost no more than what was written, times a
 * constant. Lack of memory and a file that is kept are no errors of the change, which is acknowledged. A reader's file, and one whose
 * lock is the parent's, is another's to replace. */
uint32_t store_compact_if_due(cedar_store *s) {
    struct cedar_store_file *file = s->file;
    size_t length = 0;
    if (file->factor == 0 || !is_beyond(file, file->base)) return CEDAR_OK;
    if (file->is_to_read || disk_is_inherited(&file->disk)) return CEDAR_OK;
    file->base = file->end;
    uint32_t status = cedar_store_compacted_len(s, &length);
    if (status != CEDAR_OK) file->last_compaction = status;
    if (status != CEDAR_OK || !is_beyond(file, length)) return CEDAR_OK;
    return compact(s) == CEDAR_STORE_DEVICE ? CEDAR_STORE_DEVICE : CEDAR_OK;
}

uint32_t cedar_store_compact_beyond(cedar_store *s, size_t factor, size_t spare) {
    if (s->file == NULL) return CEDAR_IS_CLOSED;
    s->file->factor = factor;
    s->file->spare = spare;
    return CEDAR_OK;
}

size_t cedar_store_file_len(const cedar_store *s) {
    return s->file == NULL ? 0 : s->file->end + 1;
}

uint32_t cedar_store_last_compaction(const cedar_store *s) {
    return s->file == NULL ? CEDAR_OK : s->file->last_compaction;
}

/* Keys with their values, gathered into memory of their own. Nothing here calls Python.
 *
 * Where labels ascend, the library writes the keys behind any key, a page of them at a time: what is read costs what is shown. Otherwise it
 * writes only all keys with a prefix, in an order of its own. Then the wanted ones are sorted. */
#include "core.h"

#include <stdlib.h>
#include <string.h>

enum { FIRST_ROOM = SIZED(64, 1), FIRST_PLACES = SIZED(16, 1), MOST_PLACES = SIZED(1024, 3), GROWTH = 4, BYTES_A_KEY = SIZED(16, 2) };

static const uint8_t NONE[1];
static const Span ROOT = {NULL, NONE, 0};

void gathered_free(Gathered *gathered) {
    free(gathered->bytes);
    free(gathered->found);
    memset(gathered, 0, sizeof *gathered);
}

/* Makes room for `needed` things of a size. At least doubles what there is, so that a list of n costs n. */
static bool make_room(void **memory, size_t *room, size_t needed, size_t size) {
    if (needed <= *room && *memory) return true;
    size_t next = *room < FIRST_ROOM ? FIRST_ROOM : 2 * *room;
    if (next < needed) next = needed;
    if (next > PTRDIFF_MAX / size) return false;
    void *grown = realloc(*memory, next * size);
    if (!grown) return false;
    *memory = grown;
    *room = next;
    return true;
}

static bool bytes_room(Gathered *gathered, size_t needed) {
    return make_room((void **)&gathered->bytes, &gathered->room, needed, 1);
}

static bool found_room(Gathered *gathered, size_t needed) {
    return make_room((void **)&gathered->found, &gathered->places, needed, sizeof *gathered->found);
}

bool gathered_append(Gathered *gathered, const uint8_t *key, size_t length, int32_t value) {
    if (!bytes_room(gathered, gathered->size + length) || !found_room(gathered, gathered->count + 1)) return false;
    memcpy(gathered->bytes + gathered->size, key, length);
    gathered->found[gathered->count++] = (cedar_found){gathered->size, length, value};
    gathered->size += length;
    return true;
}

static int compare(const uint8_t *a, size_t length, const uint8_t *b, size_t other) {
    int order = memcmp(a, b, length < other ? length : other);
    return order ? order : (length > other) - (length < other);
}

static bool is_below(const uint8_t *key, size_t length, const Span *bound) {
    return compare(key, length, bound->at, bound->length) < 0;
}

bool is_within(const Bounds *bounds, const uint8_t *key, size_t length) {
    const Span *prefix = bounds->prefix;
    if (prefix && (length < prefix->length || memcmp(key, prefix->at, prefix->length) != 0)) return false;
    return (!bounds->low || !is_below(key, length, bounds->low)) && (!bounds->high || is_below(key, length, bounds->high));
}

typedef struct Entry {
    const uint8_t *key;
    cedar_found found;
} Entry;

static int by_key(const void *left, const void *right) {
    const Entry *a = left, *b = right;
    return compare(a->key, a->found.length, b->key, b->found.length);
}

bool gathered_sort(Gathered *gathered) {
    Gathered sorted = {0};
    Entry *entries = malloc((gathered->count + 1) * sizeof *entries);
    bool done = entries != NULL;
    for (size_t i = 0; done && i < gathered->count; i++) {
        entries[i] = (Entry){gathered->bytes + gathered->found[i].place, gathered->found[i]};
    }
    if (done) qsort(entries, gathered->count, sizeof *entries, by_key);
    for (size_t i = 0; done && i < gathered->count; i++) {
        done = gathered_append(&sorted, entries[i].key, entries[i].found.length, entries[i].found.value);
    }
    free(entries);
    Gathered unsorted = *gathered;
    *gathered = sorted;
    gathered_free(&unsorted);
    return done;
}

/* ---- all at once */

/* How many bytes the keys with a prefix have together, and how many they are. False where memory is wanted. */
static bool measure(const cedar *dictionary, const Span *prefix, size_t *count, size_t *size) {
    *size = 0;
    *count = cedar_count_prefix(dictionary, prefix->at, prefix->length);
    cedar_match *matches = malloc((*count + 1) * sizeof *matches);
    if (!matches) return false;
    cedar_predictions(dictionary, prefix->at, prefix->length, matches, *count);
    for (size_t i = 0; i < *count; i++) *size += matches[i].length;
    free(matches);
    return true;
}

/* The keys that begin with a prefix, in the order of the walk. False where memory is wanted. */
bool gather_below(const cedar *dictionary, const Span *prefix, Gathered *gathered) {
    size_t size, count;
    if (!measure(dictionary, prefix, &count, &size) || !found_room(gathered, count) || !bytes_room(gathered, size)) return false;
    gathered->size = size;
    return cedar_entries_from(dictionary, prefix->at, prefix->length, NONE, 0, gathered->found, count, gathered->bytes, size,
                              &gathered->count, NULL) == CEDAR_OK;
}

/* What all wanted keys begin with. */
static Span common_prefix(const Bounds *bounds) {
    if (bounds->prefix) return *bounds->prefix;
    if (!bounds->low || !bounds->high) return ROOT;
    size_t length = 0, most = bounds->low->length < bounds->high->length ? bounds->low->length : bounds->high->length;
    while (length < most && bounds->low->at[length] == bounds->high->at[length]) length++;
    return (Span){NULL, bounds->low->at, length};
}

/* The wanted keys of a dictionary whose labels don't ascend: without bounds in the order of the walk, and otherwise ascending by bytes. It
 * costs what all keys cost that begin with what both bounds begin with. False where memory is wanted. */
bool gather_unordered(const cedar *dictionary, const Bounds *bounds, Gathered *gathered) {
    Gathered all = {0};
    Span prefix = common_prefix(bounds);
    bool done = gather_below(dictionary, &prefix, &all);
    for (size_t i = 0; done && i < all.count; i++) {
        const uint8_t *key = all.bytes + all.found[i].place;
        if (is_within(bounds, key, all.found[i].length)) done = gathered_append(gathered, key, all.found[i].length, all.found[i].value);
    }
    gathered_free(&all);
    if (!bounds->prefix && !bounds->low && !bounds->high) return done;
    return done && gathered_sort(gathered);
}

/* ---- by pages */

void pages_free(Pages *pages) {
    gathered_free(&pages->page);
    free(pages->behind);
    memset(pages, 0, sizeof *pages);
}

/* Reads so many keys at most into a page, behind a key or, where that has no byte, the first ones; `is_last` becomes whether no key with
 * the prefix comes behind them. False where memory is wanted. */
static bool page_read(const cedar *dictionary, const Span *prefix, const Span *behind, size_t places, Gathered *page, bool *is_last) {
    size_t needed = places * BYTES_A_KEY;
    uint32_t status = CEDAR_NO_ROOM;
    page->count = page->size = 0;
    while (status == CEDAR_NO_ROOM) {
        if (!bytes_room(page, needed) || !found_room(page, places)) return false;
        status = cedar_entries_below(dictionary, prefix->at, prefix->length, behind->at, behind->length, page->found, places, page->bytes,
                                     page->room, &page->count, &needed);
    }
    if (page->count > 0) page->size = page->found[page->count - 1].place + page->found[page->count - 1].length;
    *is_last = status != CEDAR_OK || needed == 0;
    return status != CEDAR_MEMORY;
}

/* Leaves out what isn't below the upper bound: then no page comes any more, and neither does one behind an empty one. */
static void end_page(Pages *pages) {
    Gathered *page = &pages->page;
    const Span *high = pages->bounds.high;
    while (high && page->count > 0) {
        cedar_found last = page->found[page->count - 1];
        if (is_below(page->bytes + last.place, last.length, high)) break;
        page->count--;
        pages->places = 0;
    }
    if (page->count == 0) pages->places = 0;
}

static bool go_behind(Pages *pages, const uint8_t *key, size_t length) {
    if (!make_room((void **)&pages->behind, &pages->room, length, 1)) return false;
    memcpy(pages->behind, key, length);
    pages->length = length;
    return true;
}

/* Reads the next page; an empty one where nothing is left. False where memory is wanted. The dictionary may have been changed. */
bool pages_read(const cedar *dictionary, Pages *pages) {
    Gathered *page = &pages->page;
    if (page->count > 0) {
        cedar_found last = page->found[page->count - 1];
        if (!go_behind(pages, page->bytes + last.place, last.length)) return false;
    }
    page->count = 0;
    if (pages->places == 0) return true;
    const Span *prefix = pages->bounds.prefix ? pages->bounds.prefix : &ROOT;
    Span behind = {NULL, pages->length > 0 ? pages->behind : NONE, pages->length};
    bool is_last;
    if (!page_read(dictionary, prefix, &behind, pages->places, page, &is_last)) return false;
    pages->places = pages->places < MOST_PLACES ? pages->places * GROWTH : MOST_PLACES;
    if (is_last) pages->places = 0;
    end_page(pages);
    return true;
}

/* Begins a walk, whose labels have to ascend, with its first page. The bounds stay the caller's. False where memory is wanted. */
bool pages_begin(const cedar *dictionary, const Bounds *bounds, Pages *pages) {
    const Span *low = bounds->low;
    int32_t value;
    memset(pages, 0, sizeof *pages);
    pages->bounds = *bounds;
    pages->places = FIRST_PLACES;
    if (!low || low->length == 0) return pages_read(dictionary, pages);
    /* No key has a byte 0: those from `ab\0c` on are those behind `ab`. */
    const uint8_t *nul = memchr(low->at, 0, low->length);
    size_t length = nul ? (size_t)(nul - low->at) : low->length;
    if (length > 0 && !go_behind(pages, low->at, length)) return false;
    if (nul || !cedar_get(dictionary, low->at, length, &value)) return pages_read(dictionary, pages);
    if (!gathered_append(&pages->page, low->at, length, value)) return false;
    end_page(pages);
    return true;
}

/* The wanted keys of a dictionary whose labels ascend. False where memory is wanted. */
bool gather_ordered(const cedar *dictionary, const Bounds *bounds, Gathered *gathered) {
    Pages pages;
    bool done = pages_begin(dictionary, bounds, &pages);
    while (done && pages.page.count > 0) {
        const Gathered *page = &pages.page;
        for (size_t i = 0; done && i < page->count; i++) {
            cedar_found found = page->found[i];
            done = gathered_append(gathered, page->bytes + found.place, found.length, found.value);
        }
        done = done && pages_read(dictionary, &pages);
    }
    pages_free(&pages);
    return done;
}

/* The best keys with a prefix, at most so many, in the order of their values. False where memory is wanted. */
bool gather_best(const cedar *dictionary, const Span *prefix, size_t most, bool lowest_first, Gathered *best) {
    size_t held = cedar_len(dictionary), places = most < held ? most : held, needed = places * BYTES_A_KEY;
    uint32_t status = CEDAR_NO_ROOM;
    while (status == CEDAR_NO_ROOM) {
        if (!bytes_room(best, needed) || !found_room(best, places)) return false;
        status = cedar_best(dictionary, prefix->at, prefix->length, lowest_first, best->found, places, best->bytes, best->room, &best->count,
                            &needed);
    }
    best->size = needed;
    return status != CEDAR_MEMORY;
}

/* Takes note of a key that was written to the first bytes; of no byte, that there is none. */
static void take_one(Gathered *found, uint32_t status, size_t length, int32_t value) {
    found->count = status == CEDAR_OK && length > 0;
    found->size = found->count > 0 ? length : 0;
    found->found[0] = (cedar_found){0, found->size, value};
}

/* The key next to another one, if there is one: the last one up to it, or the first one from it on. No byte is no bound. Returns a status. */
uint32_t gather_neighbour(const cedar *dictionary, const Span *key, bool included, bool is_floor, Gathered *found) {
    int32_t value = 0;
    size_t needed = FIRST_ROOM;
    uint32_t status = CEDAR_NO_ROOM;
    while (status == CEDAR_NO_ROOM) {
        if (!bytes_room(found, needed) || !found_room(found, 1)) return CEDAR_MEMORY;
        status = (is_floor ? cedar_floor : cedar_ceiling)(dictionary, key->at, key->length, included, found->bytes, found->room, &value,
                                                           &needed);
    }
    take_one(found, status, needed, value);
    return status;
}

/* Makes the call that finds the first key behind another one that is wanted. */
static uint32_t next_wanted(const cedar *dictionary, const Wanted *wanted, const Span *behind, Gathered *found, int32_t *value, size_t *needed) {
    const Span *query = &wanted->query;
    if (wanted->is_pattern) {
        return cedar_next_fitting(dictionary, query->at, query->length, behind->at, behind->length, found->bytes, found->room, value, needed);
    }
    return (wanted->is_text ? cedar_next_near_text : cedar_next_near)(dictionary, query->at, query->length, wanted->two_edits,
                                                                       wanted->is_beginning, behind->at, behind->length, found->bytes,
                                                                       found->room, value, needed);
}

/* The first key behind another one that is wanted, if there is one. Returns a status. */
uint32_t gather_wanted(const cedar *dictionary, const Wanted *wanted, const Span *behind, Gathered *found) {
    int32_t value = 0;
    size_t needed = FIRST_ROOM;
    uint32_t status = CEDAR_NO_ROOM;
    while (status == CEDAR_NO_ROOM) {
        if (!bytes_room(found, needed) || !found_room(found, 1)) return CEDAR_MEMORY;
        status = next_wanted(dictionary, wanted, behind, found, &value, &needed);
    }
    take_one(found, status, needed, value);
    return status;
}

/* The first key of the walk, if there is one. False where memory is wanted. */
bool gather_first(const cedar *dictionary, Gathered *gathered) {
    bool is_last;
    return page_read(dictionary, &ROOT, &ROOT, 1, gathered, &is_last);
}

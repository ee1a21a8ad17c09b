/* Each request for memory refused in turn. Linked with -Wl,--wrap=malloc,--wrap=realloc. */
#include "cedar.h"
#include "check.h"
#include <string.h>

enum { KEYS = 3000 };

/* How many requests are still met; below 0 all are. */
static long left = -1;

void *__real_malloc(size_t size);
void *__real_realloc(void *block, size_t size);

static bool is_met(void) {
    if (left == 0) return false;
    if (left > 0) left--;
    return true;
}

void *__wrap_malloc(size_t size) { return is_met() ? __real_malloc(size) : NULL; }
void *__wrap_realloc(void *block, size_t size) { return is_met() ? __real_realloc(block, size) : NULL; }

static void nth_key(int32_t n, uint8_t *key) {
    key[0] = (uint8_t)(1 + n % 250);
    key[1] = (uint8_t)(1 + n / 7 % 250);
    key[2] = (uint8_t)(1 + n / 250);
}

/* Stores keys until a request is refused, and answers how many it stored. */
static int32_t fill(cedar *d) {
    uint8_t key[3];
    size_t position = 0;
    int32_t value, stored = 0;
    for (; stored < KEYS; stored++) {
        size_t keys = cedar_len(d), slots = cedar_used_slots(d);
        nth_key(stored, key);
        uint32_t status = cedar_update(d, key, 3, stored, &position);
        if (status == CEDAR_OK) continue;
        CHECK(status == CEDAR_MEMORY && cedar_len(d) == keys && cedar_used_slots(d) == slots);
        CHECK(!cedar_get(d, key, 3, &value));
        return stored;
    }
    return stored;
}

/* Builds of pairs, sorted or not, with each request refused in turn: the dictionary stays till one is met. Answers how many were refused. */
static int builds(bool is_sorted) {
    static uint8_t keys[KEYS][2];
    static cedar_pair pairs[KEYS];
    cedar d = CEDAR_CLOSED;
    size_t position = 77;
    int32_t value;
    for (int32_t i = 0; i < KEYS; i++) {
        int32_t at = is_sorted ? i : i * 7 % KEYS; /* each once if KEYS has no factor 7 */
        keys[i][0] = (uint8_t)(1 + i / 250);
        keys[i][1] = (uint8_t)(1 + i % 250);
        pairs[at] = (cedar_pair){keys[i], 2, i};
    }
    CHECK(cedar_new(&d) == CEDAR_OK && cedar_update(&d, keys[7], 2, 70, &position) == CEDAR_OK);
    for (int refused = 0;; refused++) {
        left = refused;
        uint32_t status = is_sorted ? cedar_build(&d, true, 1, pairs, KEYS, &position) : cedar_build_unsorted(&d, true, 1, pairs, KEYS, &position);
        left = -1;
        if (status == CEDAR_OK) {
            CHECK(cedar_len(&d) == KEYS && cedar_get(&d, keys[7], 2, &value) && value == 7);
            cedar_free(&d);
            return refused;
        }
        CHECK(status == CEDAR_MEMORY && position == 77 && cedar_len(&d) == 1 && cedar_get(&d, keys[7], 2, &value) && value == 70);
    }
}

/* Room for blocks ahead with each request refused in turn: the dictionary stays till all are met, and then keys of as many bytes together
 * are stored while all requests are refused. Answers how many were refused. */
static int reserves(void) {
    enum { BLOCKS = 300 };
    for (int refused = 0;; refused++) {
        cedar d = CEDAR_CLOSED;
        uint8_t key[3];
        size_t position;
        int32_t value;
        nth_key(0, key);
        CHECK(cedar_new(&d) == CEDAR_OK && cedar_update(&d, key, 3, 5, &position) == CEDAR_OK);
        size_t capacity = cedar_capacity(&d), slots = cedar_used_slots(&d);
        left = refused;
        uint32_t status = cedar_reserve(&d, BLOCKS);
        left = 0;
        if (status == CEDAR_OK) {
            CHECK(cedar_spare_blocks(&d) >= BLOCKS);
            for (int32_t i = 1; i <= BLOCKS / 3; i++) {
                nth_key(i, key);
                CHECK(cedar_update(&d, key, 3, i, &position) == CEDAR_OK && cedar_get(&d, key, 3, &value) && value == i);
            }
            CHECK(cedar_len(&d) == BLOCKS / 3 + 1);
        } else {
            CHECK(status == CEDAR_MEMORY && cedar_capacity(&d) == capacity && cedar_used_slots(&d) == slots && cedar_len(&d) == 1);
            CHECK(cedar_get(&d, key, 3, &value) && value == 5);
        }
        left = -1;
        cedar_free(&d);
        if (status == CEDAR_OK) return refused;
    }
}

/* A copy, or the memory given back, with each request refused in turn: both dictionaries stay till all are met. Answers how many were
 * refused. */
static int copies(bool is_shrink) {
    for (int refused = 0;; refused++) {
        cedar d = CEDAR_CLOSED, copy = CEDAR_CLOSED;
        uint8_t key[3];
        int32_t value;
        CHECK(cedar_new(&d) == CEDAR_OK && fill(&d) == KEYS && cedar_reserve(&d, 5000) == CEDAR_OK && cedar_new(&copy) == CEDAR_OK);
        size_t capacity = cedar_capacity(&d);
        left = refused;
        uint32_t status = is_shrink ? cedar_shrink(&d) : cedar_clone(&d, &copy);
        left = -1;
        CHECK(status == CEDAR_OK || (status == CEDAR_MEMORY && cedar_capacity(&d) == capacity && cedar_len(&copy) == 0));
        if (status == CEDAR_OK) CHECK(is_shrink ? cedar_capacity(&d) < capacity : cedar_len(&copy) == KEYS);
        for (int32_t i = 0; i < KEYS; i += 500) {
            nth_key(i, key);
            CHECK(cedar_get(&d, key, 3, &value) && value == i);
        }
        cedar_free(&d);
        cedar_free(&copy);
        if (status == CEDAR_OK) return refused;
    }
}

/* A cut of least cost, by values or by costs beside them, with each request refused in turn: places and count stay till all are met.
 * Answers how many were refused. */
static int cuts(bool by_costs) {
    enum { LENGTH = 3000 };
    static uint8_t text[LENGTH];
    static cedar_found found[LENGTH];
    static uint32_t costs[KEYS];
    cedar d = CEDAR_CLOSED;
    CHECK(cedar_new(&d) == CEDAR_OK && fill(&d) == KEYS);
    for (int32_t i = 0; i < LENGTH; i += 3) nth_key(i, text + i);
    for (uint32_t i = 0; i < KEYS; i++) costs[i] = i;
    for (int refused = 0;; refused++) {
        size_t needed = 77;
        for (size_t i = 0; i < LENGTH; i++) found[i] = (cedar_found){7, 7, 7};
        left = refused;
        uint32_t status = by_costs ? cedar_cheapest_by(&d, text, LENGTH, costs, KEYS, 0, NULL, 0, KEYS, 1, true, found, LENGTH, &needed)
                                   : cedar_cheapest(&d, text, LENGTH, KEYS, refused % 2, found, LENGTH, &needed);
        left = -1;
        if (status == CEDAR_OK) {
            CHECK(needed == LENGTH / 3 && found[1].place == 3 && found[1].length == 3 && found[1].value == 3);
            cedar_free(&d);
            return refused;
        }
        CHECK(status == CEDAR_MEMORY && needed == 77);
        for (size_t i = 0; i < LENGTH; i++) CHECK(found[i].place == 7 && found[i].length == 7 && found[i].value == 7);
    }
}

/* A page below a prefix behind a key that isn't held, with no room for the next key of all: it wants memory for that. */
static void pages(void) {
    const uint8_t *net = (const uint8_t *)"net";
    cedar d = CEDAR_CLOSED;
    cedar_found found[2] = {{7, 7, 7}, {7, 7, 7}};
    uint8_t bytes[8] = "1234567";
    size_t count = 77, needed = 77;
    CHECK(cedar_new(&d) == CEDAR_OK && cedar_update(&d, net, 3, 1, NULL) == CEDAR_OK);
    CHECK(cedar_update(&d, (const uint8_t *)"network", 7, 2, NULL) == CEDAR_OK && cedar_update(&d, (const uint8_t *)"zzzz", 4, 3, NULL) == CEDAR_OK);
    left = 0;
    CHECK(cedar_entries_below(&d, net, 3, (const uint8_t *)"neta", 4, found, 2, bytes, 6, &count, &needed) == CEDAR_MEMORY);
    CHECK(cedar_entries_below(&d, net, 3, (const uint8_t *)"netx", 4, found, 2, bytes, 3, &count, &needed) == CEDAR_MEMORY);
    CHECK(count == 77 && needed == 77 && found[0].place == 7 && memcmp(bytes, "1234567", 8) == 0);
    /* It wants none if there is room, or if the key is held. */
    CHECK(cedar_entries_below(&d, net, 3, (const uint8_t *)"neta", 4, found, 2, bytes, 7, &count, &needed) == CEDAR_OK && count == 1 && needed == 0);
    CHECK(cedar_entries_below(&d, net, 3, net, 3, found, 2, bytes, 6, &count, &needed) == CEDAR_NO_ROOM && needed == 7);
    left = 1;
    CHECK(cedar_entries_below(&d, net, 3, (const uint8_t *)"neta", 4, found, 2, bytes, 6, &count, &needed) == CEDAR_NO_ROOM && needed == 7);
    left = 1;
    CHECK(cedar_entries_below(&d, net, 3, (const uint8_t *)"netx", 4, found, 2, bytes, 3, &count, &needed) == CEDAR_OK && count == 0 && needed == 0);
    for (int call = 0; call < 4; call++) {
        uint32_t status = CEDAR_MEMORY;
        int32_t value = 5;
        for (int refused = 0; status == CEDAR_MEMORY; refused++) {
            count = needed = 77;
            left = refused;
            status = call == 0   ? cedar_best(&d, net, 3, false, found, 2, bytes, 8, &count, &needed)
                     : call == 1 ? cedar_floor(&d, (const uint8_t *)"neu", 3, true, bytes, 8, &value, &needed)
                     : call == 2 ? cedar_ceiling(&d, (const uint8_t *)"neta", 4, true, bytes, 8, &value, &needed)
                                 : cedar_next_near_text(&d, (const uint8_t *)"netw\xc3\xb6rk", 8, false, false, NULL, 0, bytes, 8, &value, &needed);
            left = -1;
            CHECK(refused > 0 || status == CEDAR_MEMORY);
            CHECK(status == CEDAR_MEMORY ? count == 77 && needed == 77 && value == 5 : call == 0 ? status == CEDAR_NO_ROOM && needed == 10 : value == 2 && needed == 7);
        }
    }
    cedar_free(&d);
}

/* A scanner for a search, with each request refused in turn: the one before it stays till all are met. Answers how many were refused. */
static int scanners(uint32_t search) {
    cedar d = CEDAR_CLOSED;
    cedar_scanner s = CEDAR_SCANNER_CLOSED;
    uint8_t key[3];
    cedar_found found[4];
    size_t position = 0;
    nth_key(5, key);
    CHECK(cedar_new(&d) == CEDAR_OK && cedar_update(&d, key, 1, 70, &position) == CEDAR_OK);
    CHECK(cedar_scanner_new(&d, search, &s) == CEDAR_OK);
    CHECK(cedar_erase(&d, key, 1) && fill(&d) == KEYS);
    for (int refused = 0;; refused++) {
        left = refused;
        uint32_t status = cedar_scanner_new(&d, search, &s);
        left = 0;
        size_t next = 0, count = cedar_scanner_find(&s, key, 3, &next, found, 4);
        left = -1;
        CHECK(count == 1 && next == 3 && found[0].place == 0);
        if (status == CEDAR_OK) {
            CHECK(found[0].length == 3 && found[0].value == 5 && cedar_scanner_longest(&s) == 3);
            cedar_scanner_free(&s);
            cedar_free(&d);
            return refused;
        }
        CHECK(status == CEDAR_MEMORY && found[0].length == 1 && found[0].value == 70 && cedar_scanner_longest(&s) == 1);
    }
}

int main(void) {
    int refused_new = 0, refused_update = 0;
    for (long budget = 0; budget < 60; budget++) {
        cedar d = CEDAR_CLOSED;
        left = budget;
        if ((budget % 2 ? cedar_new_reduced(&d, true, 1) : cedar_new(&d)) == CEDAR_OK) {
            int32_t stored = fill(&d), value;
            uint8_t key[3];
            refused_update += stored < KEYS;
            left = 0;
            CHECK(cedar_new(&d) == CEDAR_MEMORY && cedar_len(&d) == (size_t)stored);
            for (int32_t i = 0; i < stored; i++) {
                nth_key(i, key);
                CHECK(cedar_get(&d, key, 3, &value) && value == i);
            }
        } else {
            refused_new++;
        }
        left = -1;
        cedar_free(&d);
    }
    int refused_builds = builds(true), refused_unsorted = builds(false), refused_reserves = reserves(), refused_copies = copies(false), refused_shrinks = copies(true);
    CHECK(refused_new > 0 && refused_update > 0 && refused_builds > 10 && refused_unsorted > refused_builds && refused_reserves > 0 && refused_copies > 0 && refused_shrinks > 0);
    CHECK(cuts(false) > 0 && cuts(true) > 0);
    pages();
    for (uint32_t search = CEDAR_OVERLAPPING; search <= CEDAR_LEFTMOST_FIRST; search++) CHECK(scanners(search) > 1);
    printf("refused: %d new, %d updates, %d builds, %d reserves\nok\n", refused_new, refused_update, refused_builds, refused_reserves);
    return 0;
}

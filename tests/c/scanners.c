/* Scanners beside a plain search that looks for each key at each place: random keys and texts in both layouts and orders, for each search,
 * with buffers of a few elements, and with texts in pieces. Four threads search by one scanner while its dictionary is changed and
 * freed. */
#include "cedar.h"
#include "check.h"
#include <pthread.h>
#include <string.h>
#include <time.h>

enum { KEYS = 12, LONGEST = 5, LENGTH = 40, MATCHES = LENGTH * LONGEST, HOSTILE = 80000 };

/* A key and its value. */
typedef struct Key {
    uint8_t bytes[LONGEST];
    size_t length;
    int32_t value;
} Key;

static Key keys[KEYS];
static size_t key_count;
static uint8_t text[LENGTH];
static cedar_found expected[MATCHES], told[MATCHES];

static void draw_bytes(uint8_t *bytes, size_t length) {
    static const uint8_t letters[3] = {'a', 'b', 0xE7};
    for (size_t i = 0; i < length; i++) bytes[i] = letters[next_random() % 3];
}

/* Random keys, each once, in a dictionary that held some others. */
static void fill(cedar *d, bool reduced, bool ordered) {
    CHECK((reduced ? cedar_new_reduced : cedar_new_with)(d, ordered, 1) == CEDAR_OK);
    key_count = 0;
    for (size_t drawn = next_random() % KEYS; drawn > 0; drawn--) {
        Key key = {{0}, 1 + next_random() % LONGEST, (int32_t)(next_random() % 4)};
        draw_bytes(key.bytes, key.length);
        if (cedar_contains(d, key.bytes, key.length)) continue;
        CHECK(cedar_update(d, key.bytes, key.length, key.value, NULL) == CEDAR_OK);
        keys[key_count++] = key;
    }
    /* Some are erased again, with the nodes that only they had. */
    for (size_t erased = next_random() % 4; erased > 0 && key_count > 0; erased--) {
        size_t at = next_random() % key_count;
        CHECK(cedar_erase(d, keys[at].bytes, keys[at].length));
        keys[at] = keys[--key_count];
    }
}

/* The value of the key that a text has at a place with so many bytes, or -1. */
static int32_t key_at(size_t place, size_t length) {
    for (size_t i = 0; i < key_count; i++) {
        if (keys[i].length == length && memcmp(keys[i].bytes, text + place, length) == 0) return keys[i].value;
    }
    return -1;
}

static size_t longest_key(void) {
    size_t longest = 0;
    for (size_t i = 0; i < key_count; i++) longest = keys[i].length > longest ? keys[i].length : longest;
    return longest;
}

/* The keys that end behind `from`, by their ends and the longest first; if they may not overlap, only the first that ends behind the one
 * before it. */
static size_t by_ends(size_t from, size_t length, bool overlap) {
    size_t count = 0, free_from = from;
    for (size_t end = from + 1; end <= length; end++) {
        for (size_t size = end < LONGEST ? end : LONGEST; size > 0; size--) {
            int32_t value = key_at(end - size, size);
            if (value < 0 || (!overlap && end - size < free_from)) continue;
            expected[count++] = (cedar_found){end - size, size, value};
            if (!overlap) free_from = end;
        }
    }
    return count;
}

/* From left to right the longest key that begins at a place, or the one with the least value and of several the shortest. */
static size_t by_beginnings(size_t from, size_t length, bool longest) {
    size_t count = 0;
    for (size_t place = from; place < length;) {
        cedar_found best = {place, 0, -1};
        for (size_t size = 1; size <= LONGEST && place + size <= length; size++) {
            int32_t value = key_at(place, size);
            if (value >= 0 && (best.length == 0 || longest || value < best.value)) best = (cedar_found){place, size, value};
        }
        if (best.length > 0) expected[count++] = best;
        place += best.length > 0 ? best.length : 1;
    }
    return count;
}

static size_t expect(uint32_t search, size_t from, size_t length) {
    if (search == CEDAR_OVERLAPPING || search == CEDAR_EARLIEST) return by_ends(from, length, search == CEDAR_OVERLAPPING);
    return by_beginnings(from, length, search == CEDAR_LEFTMOST_LONGEST);
}

static bool are_equal(const cedar_found *one, const cedar_found *other, size_t count) {
    for (size_t i = 0; i < count; i++) {
        if (one[i].place != other[i].place || one[i].length != other[i].length || one[i].value != other[i].value) return false;
    }
    return true;
}

/* What a scanner finds in the first bytes of the text from a place on, in pieces of so many elements. */
static size_t find_all(const cedar_scanner *s, size_t from, size_t length, size_t room) {
    size_t count = 0, next = from;
    while (next < length) {
        size_t before = next, more = cedar_scanner_find(s, text, length, &next, told + count, room);
        CHECK(more <= room && before <= next && next <= length);
        CHECK(more > 0 || next > before);
        count += more;
    }
    CHECK(next == length);
    return count;
}

/* The same of a text in pieces: each with the bytes before it that a key may begin in. */
static size_t find_in_pieces(const cedar_scanner *s, size_t length) {
    size_t count = 0, read = 0, longest = cedar_scanner_longest(s);
    while (read < length) {
        size_t size = 1 + next_random() % 7, kept = longest == 0 ? 0 : longest - 1;
        if (size > length - read) size = length - read;
        if (kept > read) kept = read;
        uint8_t piece[LENGTH];
        memcpy(piece, text + read - kept, kept + size);
        size_t next = kept, found = cedar_scanner_find(s, piece, kept + size, &next, told + count, MATCHES - count);
        CHECK(next == kept + size);
        for (size_t i = 0; i < found; i++) told[count + i].place += read - kept;
        count += found;
        read += size;
    }
    return count;
}

static void compare(uint32_t search, const cedar_scanner *s) {
    CHECK(cedar_scanner_longest(s) == longest_key());
    for (int turn = 0; turn < 4; turn++) {
        size_t length = next_random() % (LENGTH + 1), from = turn == 0 ? 0 : next_random() % (length + 1);
        size_t count = expect(search, from, length);
        CHECK(find_all(s, from, length, LONGEST + next_random() % MATCHES) == count && are_equal(told, expected, count));
        /* Where keys overlap, as many elements are needed as keys end at one byte. */
        size_t least = search == CEDAR_OVERLAPPING ? LONGEST : 1;
        CHECK(find_all(s, from, length, least) == count && are_equal(told, expected, count));
        if (search != CEDAR_OVERLAPPING) continue;
        count = expect(search, 0, length);
        CHECK(find_in_pieces(s, length) == count && are_equal(told, expected, count));
    }
}

static void drawn_texts(int rounds) {
    for (int round = 0; round < rounds; round++) {
        for (uint32_t search = CEDAR_OVERLAPPING; search <= CEDAR_LEFTMOST_FIRST; search++) {
            cedar d = CEDAR_CLOSED;
            cedar_scanner s = CEDAR_SCANNER_CLOSED;
            fill(&d, next_random() % 2 == 0, next_random() % 2 == 0);
            draw_bytes(text, LENGTH);
            CHECK(cedar_scanner_new(&d, search, &s) == CEDAR_OK);
            /* What becomes of the dictionary doesn't matter to the scanner. */
            if (round % 2 == 0) cedar_clear(&d);
            cedar_free(&d);
            compare(search, &s);
            cedar_scanner_free(&s);
        }
    }
}

static void refusals(void) {
    cedar d = CEDAR_CLOSED;
    cedar_scanner s = CEDAR_SCANNER_CLOSED;
    size_t next = 1;
    CHECK(cedar_scanner_new(&d, CEDAR_OVERLAPPING, &s) == CEDAR_IS_CLOSED);
    CHECK(cedar_scanner_new(&d, 9, &s) == CEDAR_IS_CLOSED);
    CHECK(cedar_scanner_longest(&s) == 0);
    CHECK(cedar_scanner_find(&s, (const uint8_t *)"net", 3, &next, told, MATCHES) == 0 && next == 3);
    cedar_scanner_free(&s);
    CHECK(cedar_new(&d) == CEDAR_OK);
    CHECK(cedar_scanner_new(&d, 4, &s) == CEDAR_UNKNOWN_SEARCH && cedar_scanner_new(&d, UINT32_MAX, &s) == CEDAR_UNKNOWN_SEARCH);
    CHECK(cedar_scanner_longest(&s) == 0);
    /* Without a key nothing is found. */
    CHECK(cedar_scanner_new(&d, CEDAR_LEFTMOST_FIRST, &s) == CEDAR_OK && cedar_scanner_longest(&s) == 0);
    next = 0;
    CHECK(cedar_scanner_find(&s, (const uint8_t *)"net", 3, &next, told, MATCHES) == 0 && next == 3);
    /* A further scanner takes its place, and a refused one doesn't. */
    CHECK(cedar_update(&d, (const uint8_t *)"net", 3, 7, NULL) == CEDAR_OK);
    CHECK(cedar_scanner_new(&d, CEDAR_EARLIEST, &s) == CEDAR_OK && cedar_scanner_new(&d, 5, &s) == CEDAR_UNKNOWN_SEARCH);
    next = 0;
    CHECK(cedar_scanner_find(&s, (const uint8_t *)"a net", 5, &next, told, MATCHES) == 1 && next == 5);
    CHECK(told[0].place == 2 && told[0].length == 3 && told[0].value == 7);
    /* From a place behind the text on there is nothing, and *next stays. */
    next = 9;
    CHECK(cedar_scanner_find(&s, (const uint8_t *)"a net", 5, &next, told, MATCHES) == 0 && next == 9);
    cedar_scanner_free(&s);
    cedar_scanner_free(&s);
    cedar_free(&d);
}

/* One key a..ab, and with it the key a, in a text of a alone. A search that goes back takes 3,200 million steps, which are some seconds of
 * processor. By the automaton it takes a millisecond or two. */
static void hostile(uint32_t search) {
    static uint8_t key[HOSTILE + 1], all[HOSTILE];
    static cedar_found found[HOSTILE];
    cedar d = CEDAR_CLOSED;
    cedar_scanner s = CEDAR_SCANNER_CLOSED;
    memset(key, 'a', HOSTILE);
    memset(all, 'a', HOSTILE);
    key[HOSTILE] = 'b';
    CHECK(cedar_new(&d) == CEDAR_OK);
    CHECK(cedar_update(&d, key, HOSTILE + 1, 1, NULL) == CEDAR_OK && cedar_update(&d, key, 1, 0, NULL) == CEDAR_OK);
    CHECK(cedar_scanner_new(&d, search, &s) == CEDAR_OK && cedar_scanner_longest(&s) == HOSTILE + 1);
    clock_t began = clock();
    size_t next = 0, count = cedar_scanner_find(&s, all, HOSTILE, &next, found, HOSTILE);
    CHECK(clock() - began < CLOCKS_PER_SEC);
    CHECK(count == HOSTILE && next == HOSTILE);
    for (size_t i = 0; i < count; i++) CHECK(found[i].place == i && found[i].length == 1 && found[i].value == 0);
    cedar_scanner_free(&s);
    cedar_free(&d);
}

static cedar_scanner shared = CEDAR_SCANNER_CLOSED;

static void *work(void *given) {
    const cedar_scanner mine = *(const cedar_scanner *)given;
    for (int i = 0; i < 2000; i++) {
        cedar_found found[4];
        size_t next = 0;
        CHECK(cedar_scanner_find(&mine, (const uint8_t *)"ushers", 6, &next, found, 4) == 3 && next == 6);
        CHECK(found[0].place == 1 && found[0].length == 3 && found[0].value == 2);
        CHECK(found[1].place == 2 && found[1].length == 2 && found[2].length == 4);
    }
    return NULL;
}

static void shared_by_threads(void) {
    cedar d = CEDAR_CLOSED;
    cedar_scanner copies[4];
    pthread_t threads[4];
    CHECK(cedar_new(&d) == CEDAR_OK);
    CHECK(cedar_update(&d, (const uint8_t *)"he", 2, 1, NULL) == CEDAR_OK);
    CHECK(cedar_update(&d, (const uint8_t *)"she", 3, 2, NULL) == CEDAR_OK);
    CHECK(cedar_update(&d, (const uint8_t *)"hers", 4, 3, NULL) == CEDAR_OK);
    CHECK(cedar_scanner_new(&d, CEDAR_OVERLAPPING, &shared) == CEDAR_OK);
    for (int i = 0; i < 4; i++) copies[i] = shared;
    for (int i = 0; i < 4; i++) CHECK(pthread_create(&threads[i], NULL, work, &copies[i]) == 0);
    /* Meanwhile the dictionary is changed. */
    CHECK(cedar_update(&d, (const uint8_t *)"us", 2, 4, NULL) == CEDAR_OK);
    cedar_free(&d);
    for (int i = 0; i < 4; i++) pthread_join(threads[i], NULL);
    cedar_scanner_free(&shared);
}

int main(int count, char **arguments) {
    refusals();
    drawn_texts(count > 1 ? atoi(arguments[1]) : 2000);
    for (uint32_t search = CEDAR_OVERLAPPING; search <= CEDAR_LEFTMOST_FIRST; search++) hostile(search);
    shared_by_threads();
    puts("ok");
    return 0;
}

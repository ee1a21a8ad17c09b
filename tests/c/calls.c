/* Calls each function, makes 100,000 random calls beside a plain table of the same keys, and times as many keys as an argument says. */
#include "cedar.h"
#include "check.h"
#include <string.h>

/* The keys of the random calls: 1 to 4 bytes of 1 to 6, so 1554 of them; a plain table has a place for each. */
enum { PLACES = 7 * 7 * 7 * 7 };

static size_t random_key(uint8_t *key) {
    size_t length = 1 + next_random() % 4;
    for (size_t i = 0; i < length; i++) key[i] = (uint8_t)(1 + next_random() % 6);
    return length;
}

static size_t place_of(const uint8_t *key, size_t length) {
    size_t place = 0;
    for (size_t i = 0; i < length; i++) place = place * 7 + key[i];
    return place;
}

static void each_function(void) {
    cedar d = CEDAR_CLOSED;
    size_t position = 77;
    int32_t value = 55;
    CHECK(cedar_update(&d, (const uint8_t *)"net", 3, 7, &position) == CEDAR_IS_CLOSED);
    CHECK(!cedar_get(&d, (const uint8_t *)"net", 3, &value) && value == 55);
    CHECK(!cedar_erase(&d, (const uint8_t *)"net", 3));
    CHECK(cedar_len(&d) == 0 && cedar_used_slots(&d) == 0 && cedar_capacity(&d) == 0 && cedar_spare_blocks(&d) == 0);
    cedar_free(&d);
    CHECK(cedar_new(&d) == CEDAR_OK);
    CHECK(cedar_update(&d, (const uint8_t *)"net", 3, 7, &position) == CEDAR_OK);
    CHECK(cedar_update(&d, (const uint8_t *)"network", 7, 8, &position) == CEDAR_OK);
    CHECK(cedar_update(&d, (const uint8_t *)"", 0, 8, &position) == CEDAR_EMPTY_KEY && position == 77);
    CHECK(cedar_update(&d, (const uint8_t *)"n\0t", 3, -1, &position) == CEDAR_NUL_BYTE && position == 1);
    CHECK(cedar_update(&d, (const uint8_t *)"n", 1, -1, &position) == CEDAR_INVALID_VALUE && position == 1);
    CHECK(cedar_update(&d, (const uint8_t *)"n", 1, CEDAR_MAX_VALUE + 1, &position) == CEDAR_INVALID_VALUE);
    CHECK(cedar_get(&d, (const uint8_t *)"net", 3, &value) && value == 7);
    CHECK(!cedar_get(&d, (const uint8_t *)"netw", 4, &value) && value == 7);
    CHECK(cedar_len(&d) == 2 && cedar_used_slots(&d) == 1 + 7 + 2 && cedar_capacity(&d) % 256 == 0);
    CHECK(cedar_erase(&d, (const uint8_t *)"net", 3) && !cedar_erase(&d, (const uint8_t *)"net", 3));
    CHECK(cedar_len(&d) == 1);
    CHECK(cedar_new(&d) == CEDAR_OK && cedar_len(&d) == 0 && cedar_capacity(&d) == 256);
    cedar_free(&d);
    cedar_free(&d);
    CHECK(cedar_len(&d) == 0);
}

static void settings_and_walks(void) {
    cedar d = CEDAR_CLOSED;
    cedar_match found[3] = {{-1, 77}, {-1, 77}, {-1, 77}};
    bool held = true;
    int32_t before = 55;
    size_t position = 77;
    CHECK(cedar_prefixes(&d, (const uint8_t *)"a", 1, found, 3) == 0 && cedar_predictions(&d, (const uint8_t *)"a", 1, found, 3) == 0);
    CHECK(cedar_insert(&d, (const uint8_t *)"a", 1, 1, &held, &before, &position) == CEDAR_IS_CLOSED && before == 55);
    CHECK(cedar_new_with(&d, false, 0) == CEDAR_INVALID_MAX_TRIAL && cedar_capacity(&d) == 0);
    CHECK(cedar_new_with(&d, false, 3) == CEDAR_OK);
    CHECK(cedar_insert(&d, (const uint8_t *)"a", 1, 1, &held, &before, &position) == CEDAR_OK && !held && before == 55);
    CHECK(cedar_insert(&d, (const uint8_t *)"a", 1, 2, &held, &before, &position) == CEDAR_OK && held && before == 1);
    CHECK(cedar_insert(&d, (const uint8_t *)"a\0", 2, 2, &held, &before, &position) == CEDAR_NUL_BYTE && position == 1);
    CHECK(cedar_update(&d, (const uint8_t *)"abc", 3, 3, &position) == CEDAR_OK);
    CHECK(cedar_update(&d, (const uint8_t *)"abd", 3, 4, &position) == CEDAR_OK);
    CHECK(cedar_prefixes(&d, (const uint8_t *)"abcd", 4, found, 1) == 2);
    CHECK(found[0].value == 2 && found[0].length == 1 && found[1].value == -1 && found[1].length == 77);
    CHECK(cedar_prefixes(&d, (const uint8_t *)"abcd", 4, found, 3) == 2);
    CHECK(found[1].value == 3 && found[1].length == 3 && found[2].value == -1);
    CHECK(cedar_predictions(&d, (const uint8_t *)"ab", 2, found, 2) == 2); /* a new label goes first */
    CHECK(found[0].value == 4 && found[0].length == 3 && found[1].value == 3 && found[1].length == 3 && found[2].value == -1);
    CHECK(cedar_predictions(&d, (const uint8_t *)"", 0, found, 3) == 3 && found[0].value == 2 && found[0].length == 1);
    CHECK(cedar_len(&d) == 3);
    cedar_free(&d);
}

/* Room for some blocks more, which updates then take without asking for memory; too many are refused. */
static void room_ahead(bool is_reduced) {
    cedar d = CEDAR_CLOSED;
    size_t position;
    int32_t value;
    CHECK(cedar_reserve(&d, 0) == CEDAR_IS_CLOSED && cedar_reserve(&d, SIZE_MAX) == CEDAR_IS_CLOSED && cedar_capacity(&d) == 0);
    CHECK((is_reduced ? cedar_new_reduced(&d, true, 1) : cedar_new(&d)) == CEDAR_OK);
    CHECK(cedar_reserve(&d, 0) == CEDAR_OK && cedar_capacity(&d) == 256 && cedar_spare_blocks(&d) == 0);
    CHECK(cedar_reserve(&d, 3) == CEDAR_OK && cedar_capacity(&d) == 1024 && cedar_spare_blocks(&d) == 3);
    CHECK(cedar_reserve(&d, 2) == CEDAR_OK && cedar_capacity(&d) == 1024 && cedar_spare_blocks(&d) == 3);
    CHECK(cedar_update(&d, (const uint8_t *)"net", 3, 7, &position) == CEDAR_OK && cedar_capacity(&d) == 1024);
    CHECK(cedar_reserve(&d, (size_t)1 << 22) == CEDAR_SLOT_LIMIT && cedar_reserve(&d, SIZE_MAX) == CEDAR_SLOT_LIMIT);
    CHECK(cedar_capacity(&d) == 1024 && cedar_get(&d, (const uint8_t *)"net", 3, &value) && value == 7 && cedar_len(&d) == 1);
    CHECK(cedar_reserve(&d, 100) == CEDAR_OK && cedar_capacity(&d) == 256 * 128 && cedar_spare_blocks(&d) >= 100);
    CHECK(cedar_is_reduced(&d) == is_reduced && cedar_get(&d, (const uint8_t *)"net", 3, &value) && value == 7 && cedar_len(&d) == 1);
    cedar_free(&d);
}

/* A bound on how many blocks a search tries, which a copy and a shrunk dictionary have too, and no file. */
static void bounded_searches(bool is_reduced) {
    cedar d = CEDAR_CLOSED, copy = CEDAR_CLOSED;
    static uint8_t file[1 << 16];
    size_t needed;
    int32_t value;
    cedar_set_search_limit(&d, 3);
    CHECK(cedar_search_limit(&d) == 0 && cedar_capacity(&d) == 0);
    CHECK((is_reduced ? cedar_new_reduced(&d, true, 1) : cedar_new(&d)) == CEDAR_OK && cedar_search_limit(&d) == SIZE_MAX);
    CHECK(cedar_update(&d, (const uint8_t *)"net", 3, 7, NULL) == CEDAR_OK);
    cedar_set_search_limit(&d, 3);
    CHECK(cedar_search_limit(&d) == 3 && cedar_is_reduced(&d) == is_reduced && cedar_len(&d) == 1 && cedar_capacity(&d) == 512);
    CHECK(cedar_update(&d, (const uint8_t *)"new", 3, 8, NULL) == CEDAR_OK && cedar_search_limit(&d) == 3);
    CHECK(cedar_get(&d, (const uint8_t *)"net", 3, &value) && value == 7 && cedar_get(&d, (const uint8_t *)"new", 3, &value) && value == 8);
    CHECK(cedar_clone(&d, &copy) == CEDAR_OK && cedar_search_limit(&copy) == 3);
    CHECK(cedar_shrink(&d) == CEDAR_OK && cedar_search_limit(&d) == 3);
    CHECK(cedar_save(&d, false, file, sizeof file, &needed) == CEDAR_OK && cedar_load_any(&copy, file, needed, CEDAR_LOAD_LIMIT) == CEDAR_OK);
    CHECK(cedar_search_limit(&copy) == SIZE_MAX && cedar_len(&copy) == 2);
    cedar_free(&copy);
    cedar_free(&d);
}

/* Keys erased by a prefix and all together, and the memory given back. */
static void erased_by_prefix(bool is_reduced) {
    const char *keys[] = {"net", "network", "networks", "ten"};
    cedar d = CEDAR_CLOSED;
    size_t erased = 77;
    int32_t value;
    CHECK(cedar_erase_prefix(&d, (const uint8_t *)"net", 3, &erased) == CEDAR_IS_CLOSED && erased == 77);
    CHECK(cedar_shrink(&d) == CEDAR_IS_CLOSED && cedar_count_prefix(&d, (const uint8_t *)"net", 3) == 0);
    cedar_clear(&d);
    CHECK((is_reduced ? cedar_new_reduced(&d, true, 1) : cedar_new(&d)) == CEDAR_OK && cedar_reserve(&d, 9) == CEDAR_OK);
    for (int i = 0; i < 4; i++) CHECK(cedar_update(&d, (const uint8_t *)keys[i], strlen(keys[i]), i, NULL) == CEDAR_OK);
    CHECK(cedar_count_prefix(&d, (const uint8_t *)"net", 3) == 3 && cedar_count_prefix(&d, (const uint8_t *)"netw", 4) == 2);
    CHECK(cedar_count_prefix(&d, NULL, 0) == 4 && cedar_count_prefix(&d, (const uint8_t *)"nest", 4) == 0);
    CHECK(cedar_erase_prefix(&d, (const uint8_t *)"netw", 4, &erased) == CEDAR_OK && erased == 2 && cedar_len(&d) == 2);
    CHECK(cedar_erase_prefix(&d, (const uint8_t *)"netw", 4, NULL) == CEDAR_OK && cedar_len(&d) == 2);
    CHECK(cedar_shrink(&d) == CEDAR_OK && cedar_capacity(&d) <= 1024 && cedar_len(&d) == 2 && cedar_is_reduced(&d) == is_reduced);
    CHECK(cedar_get(&d, (const uint8_t *)"net", 3, &value) && value == 0 && cedar_get(&d, (const uint8_t *)"ten", 3, &value) && value == 3);
    cedar_clear(&d);
    CHECK(cedar_len(&d) == 0 && cedar_used_slots(&d) == 1 && cedar_shrink(&d) == CEDAR_OK && cedar_capacity(&d) == 256);
    CHECK(cedar_erase_prefix(&d, NULL, 0, &erased) == CEDAR_OK && erased == 0);
    cedar_free(&d);
}

/* Many keys erased by one call, with room for no answer, some answers and more than all. */
static void erased_together(bool is_reduced) {
    enum { KEYS = 100 };
    static uint8_t bytes[KEYS][2];
    static cedar_key keys[KEYS + 2];
    static bool held[KEYS + 3];
    cedar d = CEDAR_CLOSED;
    for (int i = 0; i < KEYS; i++) {
        bytes[i][0] = (uint8_t)(1 + i * 7 % 10);
        bytes[i][1] = (uint8_t)(1 + i / 10);
        keys[i] = (cedar_key){bytes[i], 2};
    }
    keys[KEYS] = keys[3];
    keys[KEYS + 1] = (cedar_key){NULL, 0};
    held[0] = true;
    CHECK(cedar_erase_all(&d, keys, KEYS, held, 1) == 0 && held[0] && cedar_erase_all(&d, NULL, 0, NULL, 0) == 0);
    for (size_t room = 0; room <= KEYS + 3; room += room < 20 ? 1 : 9) {
        CHECK((is_reduced ? cedar_new_reduced(&d, true, 1) : cedar_new(&d)) == CEDAR_OK);
        CHECK(cedar_update(&d, (const uint8_t *)"stays", 5, 5, NULL) == CEDAR_OK);
        for (int i = 0; i < KEYS; i += 3) CHECK(cedar_update(&d, bytes[i], 2, i, NULL) == CEDAR_OK);
        memset(held, true, sizeof held);
        size_t slots = cedar_capacity(&d);
        CHECK(cedar_erase_all(&d, keys, KEYS + 2, room ? held : NULL, room) == (KEYS + 2) / 3 && cedar_len(&d) == 1 && cedar_capacity(&d) == slots);
        for (size_t i = 0; i < KEYS + 3; i++) CHECK(held[i] == (i >= room || i >= KEYS + 2 || (i < KEYS && i % 3 == 0)));
        CHECK(cedar_contains(&d, (const uint8_t *)"stays", 5) && cedar_erase_all(&d, keys, KEYS, NULL, 0) == 0 && cedar_erase_all(&d, NULL, 0, held, 1) == 0);
    }
    cedar_free(&d);
}

/* Whether a key is held, and the longest one that a text begins with. */
static void short_questions(bool is_reduced) {
    cedar d = CEDAR_CLOSED;
    cedar_match found = {55, 77};
    CHECK(!cedar_contains(&d, (const uint8_t *)"net", 3) && !cedar_longest_prefix(&d, (const uint8_t *)"net", 3, &found));
    CHECK((is_reduced ? cedar_new_reduced(&d, true, 1) : cedar_new(&d)) == CEDAR_OK);
    CHECK(cedar_update(&d, (const uint8_t *)"ne", 2, 1, NULL) == CEDAR_OK && cedar_update(&d, (const uint8_t *)"net", 3, 7, NULL) == CEDAR_OK);
    CHECK(cedar_contains(&d, (const uint8_t *)"net", 3) && !cedar_contains(&d, (const uint8_t *)"n", 1) && !cedar_contains(&d, NULL, 0));
    CHECK(!cedar_longest_prefix(&d, (const uint8_t *)"ten", 3, &found) && found.value == 55 && found.length == 77);
    CHECK(!cedar_longest_prefix(&d, NULL, 0, &found) && found.value == 55);
    CHECK(cedar_longest_prefix(&d, (const uint8_t *)"nets", 4, &found) && found.value == 7 && found.length == 3);
    CHECK(cedar_longest_prefix(&d, (const uint8_t *)"nest", 4, &found) && found.value == 1 && found.length == 2);
    cedar_free(&d);
}

/* A copy, which changes alone. */
static void copies(bool is_reduced) {
    cedar d = CEDAR_CLOSED, copy = CEDAR_CLOSED;
    CHECK(cedar_clone(&d, &copy) == CEDAR_IS_CLOSED && cedar_capacity(&copy) == 0);
    CHECK(cedar_new(&copy) == CEDAR_OK && cedar_update(&copy, (const uint8_t *)"old", 3, 1, NULL) == CEDAR_OK);
    CHECK(cedar_clone(&d, &copy) == CEDAR_IS_CLOSED && cedar_contains(&copy, (const uint8_t *)"old", 3));
    CHECK((is_reduced ? cedar_new_reduced(&d, true, 1) : cedar_new(&d)) == CEDAR_OK);
    CHECK(cedar_update(&d, (const uint8_t *)"net", 3, 7, NULL) == CEDAR_OK && cedar_clone(&d, &copy) == CEDAR_OK);
    CHECK(cedar_len(&copy) == 1 && cedar_contains(&copy, (const uint8_t *)"net", 3) && cedar_is_reduced(&copy) == is_reduced);
    CHECK(cedar_erase(&d, (const uint8_t *)"net", 3) && cedar_contains(&copy, (const uint8_t *)"net", 3));
    cedar_free(&d);
    CHECK(cedar_contains(&copy, (const uint8_t *)"net", 3));
    cedar_free(&copy);
}

static void refused_files(void) {
    cedar d = CEDAR_CLOSED;
    const uint8_t wrong[8] = {'n', 'o', ' ', 'f', 'i', 'l', 'e', '.'};
    CHECK(cedar_new(&d) == CEDAR_OK);
    CHECK(cedar_load(&d, wrong, 0, CEDAR_LOAD_LIMIT) == CEDAR_FILE_TRUNCATED);
    CHECK(cedar_load(&d, wrong, 8, CEDAR_LOAD_LIMIT) == CEDAR_FILE_MAGIC);
    CHECK(cedar_capacity(&d) == 256);
    cedar_free(&d);
}

static const uint8_t *bytes_of(const char *text) { return (const uint8_t *)text; }

static void files_and_texts(void) {
    cedar d = CEDAR_CLOSED, other = CEDAR_CLOSED;
    static uint8_t file[1 << 14];
    size_t needed = 77, full = 77, position = 77, length;
    int32_t value;
    uint8_t text[64];
    CHECK(cedar_save(&d, false, file, sizeof file, &needed) == CEDAR_IS_CLOSED && needed == 77);
    CHECK(cedar_new(&d) == CEDAR_OK && cedar_update(&d, bytes_of("net"), 3, 7, &position) == CEDAR_OK);
    CHECK(cedar_save(&d, false, file, 0, &needed) == CEDAR_NO_ROOM && needed > 88 && file[0] == 0);
    CHECK(cedar_save(&d, true, file, 0, &full) == CEDAR_NO_ROOM && full > 88);
    CHECK(cedar_save(&d, false, file, needed - 1, &length) == CEDAR_NO_ROOM && length == needed && file[0] == 0);
    CHECK(cedar_save(&d, false, file, sizeof file, &length) == CEDAR_OK && length == needed && file[needed] == 0);
    CHECK(cedar_load(&other, file, needed, CEDAR_LOAD_LIMIT) == CEDAR_OK);
    CHECK(cedar_get(&other, bytes_of("net"), 3, &value) && value == 7 && cedar_len(&other) == 1);
    CHECK(cedar_save(&other, true, file, full, &length) == CEDAR_OK && length == full);
    CHECK(cedar_load(&other, file, full, CEDAR_LOAD_LIMIT) == CEDAR_OK && cedar_get(&other, bytes_of("net"), 3, &value));
    CHECK(cedar_load(&other, file, full - 1, CEDAR_LOAD_LIMIT) == CEDAR_FILE_TRUNCATED && cedar_len(&other) == 1);
    length = cedar_status_text(CEDAR_FILE_TRUNCATED, text, sizeof text);
    CHECK(length == 34 && memcmp(text, "serialized cedar trie is truncated", 34) == 0);
    CHECK(cedar_status_text(CEDAR_MEMORY, text, 3) == 13 && memcmp(text, "outialized", 10) == 0);
    CHECK(cedar_status_text(1000, text, 0) > 0);
    cedar_free(&d);
    cedar_free(&other);
}

static void many_pairs(void) {
    cedar d = CEDAR_CLOSED;
    const cedar_pair pairs[] = {{bytes_of("a"), 1, 1}, {bytes_of("ab"), 2, 2}, {bytes_of("a"), 1, 3}, {bytes_of("b\0"), 2, 4}};
    size_t position = 77;
    int32_t value;
    CHECK(cedar_update_all(&d, pairs, 3, &position) == CEDAR_IS_CLOSED);
    CHECK(cedar_new(&d) == CEDAR_OK);
    CHECK(cedar_update_all(&d, pairs, 4, &position) == CEDAR_NUL_BYTE && position == 1 && cedar_len(&d) == 0);
    CHECK(cedar_faulty_pair(pairs, 4) == 3 && cedar_faulty_pair(pairs, 3) == 3 && cedar_faulty_pair(NULL, 0) == 0);
    const cedar_pair others[] = {{bytes_of("a"), 1, CEDAR_MAX_VALUE}, {bytes_of("b"), 1, -1}, {bytes_of(""), 0, 1}, {bytes_of("c"), 1, INT32_MAX}};
    CHECK(cedar_faulty_pair(others, 4) == 1 && cedar_faulty_pair(&others[2], 2) == 0 && cedar_faulty_pair(&others[3], 1) == 0);
    CHECK(cedar_update_all(&d, pairs, 3, &position) == CEDAR_OK && cedar_len(&d) == 2);
    CHECK(cedar_get(&d, bytes_of("a"), 1, &value) && value == 3 && cedar_get(&d, bytes_of("ab"), 2, &value) && value == 2);
    CHECK(cedar_update_all(&d, pairs, 0, &position) == CEDAR_OK && cedar_len(&d) == 2);
    uint8_t keys[8] = {'?', '?', '?', '?', '?', '?', '?', '?'};
    CHECK(cedar_keys(&d, keys, 2, &position) == CEDAR_NO_ROOM && position == 3 && keys[0] == '?');
    CHECK(cedar_keys(&d, keys, 8, &position) == CEDAR_OK && position == 3 && memcmp(keys, "aab?????", 8) == 0);
    cedar_free(&d);
    CHECK(cedar_keys(&d, keys, 8, &position) == CEDAR_IS_CLOSED);
}

/* No pointer where there is nothing to point to, or nobody wants an answer; buffers that nobody has set. */
static void null_pointers(void) {
    cedar d = cedar_closed();
    const cedar_pair empty = {NULL, 0, 1}, twice[] = {{bytes_of("a"), 1, 1}, {bytes_of("a"), 1, 1}};
    const cedar_key absent = {NULL, 0};
    size_t next = 0;
    int32_t value = 55;
    bool held;
    uint8_t *unset = malloc(1 << 14);
    CHECK(unset != NULL && cedar_update(&d, NULL, 0, 1, NULL) == CEDAR_IS_CLOSED && cedar_insert(&d, NULL, 0, 1, NULL, NULL, NULL) == CEDAR_IS_CLOSED);
    CHECK(!cedar_get(&d, NULL, 0, &value) && cedar_save(&d, false, NULL, 0, NULL) == CEDAR_IS_CLOSED && cedar_keys(&d, NULL, 0, NULL) == CEDAR_IS_CLOSED);
    CHECK(cedar_build(&d, true, 1, NULL, 0, NULL) == CEDAR_OK && cedar_build_reduced(&d, true, 1, twice, 2, NULL) == CEDAR_DUPLICATE_KEY);
    CHECK(cedar_build_unsorted(&d, true, 1, &empty, 1, NULL) == CEDAR_EMPTY_KEY && cedar_build_unsorted_reduced(&d, true, 1, NULL, 0, NULL) == CEDAR_OK);
    CHECK(cedar_update(&d, NULL, 0, 1, NULL) == CEDAR_EMPTY_KEY && cedar_update(&d, bytes_of("a\0"), 2, 1, NULL) == CEDAR_NUL_BYTE);
    CHECK(cedar_update_all(&d, NULL, 0, NULL) == CEDAR_OK && cedar_update_all(&d, &empty, 1, NULL) == CEDAR_EMPTY_KEY && cedar_len(&d) == 0);
    CHECK(cedar_insert(&d, bytes_of("net"), 3, 7, NULL, NULL, NULL) == CEDAR_OK && cedar_insert(&d, bytes_of("net"), 3, 8, &held, NULL, NULL) == CEDAR_OK);
    CHECK(held && cedar_insert(&d, bytes_of("net"), 3, 9, NULL, &value, NULL) == CEDAR_OK && value == 8 && cedar_len(&d) == 1);
    CHECK(!cedar_get(&d, NULL, 0, &value) && value == 8 && !cedar_erase(&d, NULL, 0) && cedar_erase_all(&d, &absent, 1, NULL, 0) == 0);
    CHECK(cedar_prefixes(&d, NULL, 0, NULL, 0) == 0 && cedar_prefixes(&d, bytes_of("net"), 3, NULL, 0) == 1 && cedar_predictions(&d, NULL, 0, NULL, 0) == 1);
    CHECK(cedar_prefixes_from(&d, bytes_of("net"), 3, &next, NULL, 0) == 0 && cedar_predictions_from(&d, NULL, 0, &next, NULL, 0) == 0 && next == 0);
    CHECK(cedar_first_predictions(&d, NULL, 0, NULL, 0) == 0 && cedar_entries_below(&d, NULL, 0, NULL, 0, NULL, 0, NULL, 0, &next, NULL) == CEDAR_OK && next == 0);
    CHECK(cedar_scan(&d, NULL, 0, &next, NULL, 0) == 0 && cedar_scan(&d, bytes_of("net"), 3, &next, NULL, 0) == 0 && next == 0);
    CHECK(cedar_segment(&d, NULL, 0, &next, NULL, 0) == 0 && cedar_segment(&d, bytes_of("net"), 3, &next, NULL, 0) == 0 && next == 0);
    CHECK(cedar_keys(&d, NULL, 0, NULL) == CEDAR_NO_ROOM && cedar_save(&d, true, NULL, 0, NULL) == CEDAR_NO_ROOM);
    CHECK(cedar_keys(&d, unset, 3, NULL) == CEDAR_OK && memcmp(unset, "net", 3) == 0 && cedar_save(&d, false, unset, 1 << 14, NULL) == CEDAR_OK);
    CHECK(cedar_load(&d, NULL, 0, CEDAR_LOAD_LIMIT) == CEDAR_FILE_TRUNCATED && cedar_load_reduced(&d, NULL, 0, CEDAR_LOAD_LIMIT) == CEDAR_FILE_TRUNCATED);
    CHECK(cedar_status_text(CEDAR_MEMORY, NULL, 0) == 13 && cedar_len(&d) == 1);
    cedar_free(&d);
    d = cedar_closed();
    CHECK(cedar_len(&d) == 0);
    free(unset);
}

static void sorted_pairs(void) {
    cedar d = CEDAR_CLOSED, other = CEDAR_CLOSED;
    const cedar_pair pairs[] = {{bytes_of("a"), 1, 1}, {bytes_of("ab"), 2, 2}, {bytes_of("b\xff"), 2, 3}, {bytes_of("b\xff"), 2, 4}, {bytes_of("a"), 1, 5}};
    const cedar_pair faulty[] = {{bytes_of("a"), 1, 1}, {bytes_of("b\0"), 2, 2}, {bytes_of("a"), 0, 3}, {bytes_of("a"), 1, -1}};
    cedar_match matches[3];
    size_t position = 77;
    int32_t value;
    CHECK(cedar_build(&d, true, 0, pairs, 3, &position) == CEDAR_INVALID_MAX_TRIAL && cedar_len(&d) == 0);
    CHECK(cedar_build(&d, true, 1, pairs, 3, &position) == CEDAR_OK && position == 77 && cedar_len(&d) == 3 && cedar_used_slots(&d) == 8);
    CHECK(cedar_predictions(&d, bytes_of(""), 0, matches, 3) == 3 && matches[0].value == 1 && matches[1].value == 2 && matches[2].value == 3);
    CHECK(cedar_build(&d, true, 1, pairs, 4, &position) == CEDAR_DUPLICATE_KEY && position == 3 && cedar_len(&d) == 3);
    CHECK(cedar_build(&d, true, 1, pairs + 3, 2, &position) == CEDAR_KEYS_NOT_SORTED && position == 1 && cedar_len(&d) == 3);
    CHECK(cedar_build(&d, true, 1, faulty, 2, &position) == CEDAR_NUL_BYTE && position == 1 && cedar_len(&d) == 3);
    CHECK(cedar_build(&d, true, 1, faulty + 2, 2, &position) == CEDAR_EMPTY_KEY && cedar_build(&d, true, 1, faulty + 3, 1, &position) == CEDAR_INVALID_VALUE);
    CHECK(cedar_get(&d, bytes_of("ab"), 2, &value) && value == 2);
    CHECK(cedar_build(&d, false, 3, pairs + 1, 2, &position) == CEDAR_OK && cedar_len(&d) == 2 && !cedar_get(&d, bytes_of("a"), 1, &value));
    CHECK(cedar_update(&d, bytes_of("a"), 1, 6, &position) == CEDAR_OK && cedar_get(&d, bytes_of("a"), 1, &value) && value == 6);
    CHECK(cedar_build(&other, true, 1, pairs, 0, &position) == CEDAR_OK && cedar_len(&other) == 0 && cedar_capacity(&other) == 256);
    cedar_free(&d);
    cedar_free(&other);
}

/* Whether two dictionaries have the same file. */
static bool are_same(const cedar *d, const cedar *other) {
    static uint8_t file[1 << 18], another[1 << 18];
    size_t length = 0, other_length = 0;
    CHECK(cedar_save(d, false, file, sizeof file, &length) == CEDAR_OK && cedar_save(other, false, another, sizeof another, &other_length) == CEDAR_OK);
    return length == other_length && memcmp(file, another, length) == 0;
}

static void unsorted_pairs(bool is_reduced) {
    uint32_t (*build)(cedar *, bool, int32_t, const cedar_pair *, size_t, size_t *) = is_reduced ? cedar_build_unsorted_reduced : cedar_build_unsorted;
    cedar d = CEDAR_CLOSED, other = CEDAR_CLOSED;
    const cedar_pair pairs[] = {{bytes_of("b\xff"), 2, 4}, {bytes_of("a"), 1, 5}, {bytes_of("ab"), 2, 2}, {bytes_of("b\xff"), 2, 3}, {bytes_of("a"), 1, 1}};
    const cedar_pair sorted[] = {{bytes_of("a"), 1, 1}, {bytes_of("ab"), 2, 2}, {bytes_of("b\xff"), 2, 3}};
    const cedar_pair faulty[] = {{bytes_of("b"), 1, 1}, {bytes_of("ab\0"), 3, -1}, {bytes_of("a"), 0, 3}, {bytes_of("a"), 1, -1}, {bytes_of("b"), 1, 2}};
    cedar_match matches[3];
    size_t position = 77;
    int32_t value;
    CHECK(build(&d, true, 0, pairs, 5, &position) == CEDAR_INVALID_MAX_TRIAL && cedar_capacity(&d) == 0);
    CHECK(build(&d, true, 1, pairs, 5, &position) == CEDAR_OK && position == 77 && cedar_len(&d) == 3 && cedar_is_reduced(&d) == is_reduced);
    CHECK(cedar_predictions(&d, bytes_of(""), 0, matches, 3) == 3 && matches[0].value == 1 && matches[1].value == 2 && matches[2].value == 3);
    CHECK((is_reduced ? cedar_build_reduced : cedar_build)(&other, true, 1, sorted, 3, &position) == CEDAR_OK && are_same(&d, &other));
    CHECK(build(&d, true, 1, faulty, 5, &position) == CEDAR_NUL_BYTE && position == 2 && cedar_len(&d) == 3);
    CHECK(build(&d, true, 1, faulty + 2, 3, &position) == CEDAR_EMPTY_KEY && build(&d, true, 1, faulty + 3, 2, NULL) == CEDAR_INVALID_VALUE && position == 2);
    CHECK(cedar_get(&d, bytes_of("ab"), 2, &value) && value == 2 && are_same(&d, &other));
    CHECK(build(&d, false, 3, pairs, 2, NULL) == CEDAR_OK && cedar_len(&d) == 2 && cedar_get(&d, bytes_of("a"), 1, &value) && value == 5);
    CHECK(cedar_update(&d, bytes_of("c"), 1, 6, NULL) == CEDAR_OK && cedar_predictions(&d, bytes_of(""), 0, matches, 3) == 3 && matches[0].value == 6);
    CHECK(build(&other, true, 1, NULL, 0, NULL) == CEDAR_OK && cedar_len(&other) == 0 && cedar_capacity(&other) == 256);
    cedar_free(&d);
    cedar_free(&other);
}

/* Builds of random pairs in any order beside a plain table, and beside a build of the same entries sorted. */
static void random_builds(bool is_reduced) {
    enum { PAIRS = 700 };
    static int32_t plain[PLACES]; /* a value and 1, or 0 */
    static uint8_t bytes[PAIRS][4], sorted_bytes[4 * PAIRS];
    static cedar_pair pairs[PAIRS];
    static cedar_match matches[PAIRS];
    cedar d = CEDAR_CLOSED, other = CEDAR_CLOSED;
    for (int turn = 0; turn < 200; turn++) {
        size_t count = next_random() % (turn % 10 ? 40 : PAIRS), position = 77, held = 0, needed = 0, place = 0;
        int32_t value;
        memset(plain, 0, sizeof plain);
        for (size_t i = 0; i < count; i++) {
            size_t length = random_key(bytes[i]);
            pairs[i] = (cedar_pair){bytes[i], length, (int32_t)(next_random() % 1000000)};
            held += plain[place_of(bytes[i], length)] == 0;
            plain[place_of(bytes[i], length)] = pairs[i].value + 1;
        }
        CHECK((is_reduced ? cedar_build_unsorted_reduced : cedar_build_unsorted)(&d, true, 1, pairs, count, &position) == CEDAR_OK);
        CHECK(position == 77 && cedar_len(&d) == held);
        for (size_t i = 0; i < count; i++) {
            CHECK(cedar_get(&d, pairs[i].key, pairs[i].length, &value) && value == plain[place_of(pairs[i].key, pairs[i].length)] - 1);
        }
        CHECK(cedar_predictions(&d, NULL, 0, matches, PAIRS) == held && cedar_keys(&d, sorted_bytes, sizeof sorted_bytes, &needed) == CEDAR_OK);
        for (size_t i = 0; i < held; place += matches[i++].length) pairs[i] = (cedar_pair){sorted_bytes + place, matches[i].length, matches[i].value};
        CHECK((is_reduced ? cedar_build_reduced : cedar_build)(&other, true, 1, pairs, held, &position) == CEDAR_OK && are_same(&d, &other));
    }
    cedar_free(&d);
    cedar_free(&other);
}

/* A dictionary of the reduced layout answers the same, takes fewer slots, and has files of its own. */
static void reduced_layout(void) {
    cedar d = CEDAR_CLOSED, other = CEDAR_CLOSED;
    const cedar_pair pairs[] = {{bytes_of("net"), 3, 7}, {bytes_of("network"), 7, CEDAR_MAX_VALUE}, {bytes_of("nor"), 3, 0}};
    static uint8_t file[1 << 14];
    cedar_match matches[3];
    cedar_found found[4];
    size_t position = 77, needed, next = 0;
    int32_t value;
    CHECK(!cedar_is_reduced(&d) && cedar_new(&d) == CEDAR_OK && !cedar_is_reduced(&d));
    CHECK(cedar_new_reduced(&d, true, 0) == CEDAR_INVALID_MAX_TRIAL && !cedar_is_reduced(&d));
    CHECK(cedar_new_reduced(&d, true, 1) == CEDAR_OK && cedar_is_reduced(&d) && cedar_capacity(&d) == 256);
    CHECK(cedar_update(&d, pairs[0].key, 3, 7, &position) == CEDAR_OK && cedar_used_slots(&d) == 1 + 3);
    CHECK(cedar_update(&d, pairs[1].key, 7, CEDAR_MAX_VALUE, &position) == CEDAR_OK && cedar_used_slots(&d) == 1 + 7 + 1);
    CHECK(cedar_update(&d, pairs[2].key, 3, CEDAR_MAX_VALUE + 1, &position) == CEDAR_INVALID_VALUE && cedar_len(&d) == 2);
    CHECK(cedar_get(&d, pairs[1].key, 7, &value) && value == CEDAR_MAX_VALUE && !cedar_get(&d, pairs[1].key, 4, &value));
    CHECK(cedar_prefixes(&d, pairs[1].key, 7, matches, 3) == 2 && matches[0].value == 7 && matches[1].value == CEDAR_MAX_VALUE);
    CHECK(cedar_segment(&d, bytes_of("a net"), 5, &next, found, 4) == 3 && next == 5 && found[2].place == 2 && found[2].value == 7);
    CHECK(cedar_save(&d, false, file, sizeof file, &needed) == CEDAR_OK && file[13] == 1);
    CHECK(cedar_new(&other) == CEDAR_OK && cedar_load(&other, file, needed, CEDAR_LOAD_LIMIT) == CEDAR_FILE_LAYOUT && !cedar_is_reduced(&other));
    CHECK(cedar_load_reduced(&other, file, needed, CEDAR_LOAD_LIMIT) == CEDAR_OK && cedar_is_reduced(&other) && cedar_len(&other) == 2);
    CHECK(cedar_load_reduced(&other, file, needed - 1, CEDAR_LOAD_LIMIT) == CEDAR_FILE_TRUNCATED && cedar_len(&other) == 2);
    CHECK(cedar_build_reduced(&d, true, 0, pairs, 3, &position) == CEDAR_INVALID_MAX_TRIAL && cedar_len(&d) == 2);
    CHECK(cedar_build_reduced(&d, true, 1, pairs + 1, 3 - 2, &position) == CEDAR_OK && cedar_is_reduced(&d) && cedar_used_slots(&d) == 1 + 7);
    CHECK(cedar_build_reduced(&d, true, 1, pairs, 3, &position) == CEDAR_OK && cedar_len(&d) == 3 && cedar_used_slots(&d) == 1 + 9 + 1);
    CHECK(cedar_build(&other, true, 1, pairs, 3, &position) == CEDAR_OK && !cedar_is_reduced(&other) && cedar_used_slots(&other) == 1 + 9 + 3);
    CHECK(cedar_predictions(&d, bytes_of("n"), 1, matches, 3) == 3 && matches[2].value == 0);
    CHECK(cedar_erase(&d, pairs[0].key, 3) && !cedar_get(&d, pairs[0].key, 3, &value) && cedar_len(&d) == 2);
    CHECK(cedar_save(&other, true, file, sizeof file, &needed) == CEDAR_OK && file[13] == 0);
    CHECK(cedar_load_reduced(&d, file, needed, CEDAR_LOAD_LIMIT) == CEDAR_FILE_LAYOUT && cedar_len(&d) == 2 && cedar_is_reduced(&d));
    cedar_free(&d);
    cedar_free(&other);
    CHECK(!cedar_is_reduced(&d));
}

static void walks_in_pieces(void) {
    cedar d = CEDAR_CLOSED;
    const cedar_pair pairs[] = {{bytes_of("a"), 1, 1}, {bytes_of("ab"), 2, 2}, {bytes_of("abcd"), 4, 3}, {bytes_of("abd"), 3, 4}, {bytes_of("b"), 1, 5}};
    cedar_match all[8], some[8];
    size_t position, next = 3;
    CHECK(cedar_prefixes_from(&d, bytes_of("abcd"), 4, &next, some, 8) == 0 && cedar_predictions_from(&d, bytes_of("a"), 1, &next, some, 8) == 0 && next == 3);
    CHECK(cedar_first_predictions(&d, bytes_of("a"), 1, some, 8) == 0);
    CHECK(cedar_build(&d, true, 1, pairs, 5, &position) == CEDAR_OK);
    for (int call = 0; call < 2; call++) {
        const char *text = call ? "a" : "abcde";
        size_t whole = (call ? cedar_predictions : cedar_prefixes)(&d, bytes_of(text), strlen(text), all, 8), more;
        CHECK(whole == (call ? 4u : 3u));
        for (size_t room = 1; room < 8; room++) {
            next = 0;
            do {
                size_t before = next;
                memset(some, '?', sizeof some);
                more = (call ? cedar_predictions_from : cedar_prefixes_from)(&d, bytes_of(text), strlen(text), &next, some, room);
                CHECK(next == before + more && more <= room && (more == room || next == whole));
                for (size_t i = 0; i < more; i++) CHECK(some[i].value == all[before + i].value && some[i].length == all[before + i].length);
                CHECK(some[more].value == 0x3f3f3f3f);
            } while (more == room);
            CHECK(next == whole);
        }
        next = SIZE_MAX;
        CHECK((call ? cedar_predictions_from : cedar_prefixes_from)(&d, bytes_of(text), strlen(text), &next, some, 8) == 0 && next == SIZE_MAX);
    }
    cedar_free(&d);
}

/* Tells a whole text by calls with this much room, and answers how many were told. */
static size_t told(size_t (*call)(const cedar *, const uint8_t *, size_t, size_t *, cedar_found *, size_t), const cedar *d, const char *text, cedar_found *all,
                   size_t room) {
    size_t next = 0, count = 0, length = strlen(text);
    while (next < length) {
        size_t before = next, more = call(d, bytes_of(text), length, &next, all + count, room);
        CHECK(more > 0 || next > before);
        count += more;
    }
    return count;
}

static void whole_texts(void) {
    cedar d = CEDAR_CLOSED;
    cedar_found all[32];
    const cedar_pair pairs[] = {{bytes_of("a"), 1, 1}, {bytes_of("abc"), 3, 2}, {bytes_of("bc"), 2, 3}};
    size_t position, next = 0;
    CHECK(cedar_scan(&d, bytes_of("abc"), 3, &next, all, 32) == 0 && next == 3);
    next = 1;
    CHECK(cedar_segment(&d, bytes_of("abc"), 3, &next, all, 32) == 0 && next == 3);
    CHECK(cedar_new(&d) == CEDAR_OK && cedar_update_all(&d, pairs, 3, &position) == CEDAR_OK);
    for (size_t room = 2; room < 8; room++) {
        CHECK(told(cedar_scan, &d, "xabca", all, room) == 4);
        CHECK(all[0].place == 1 && all[0].length == 1 && all[0].value == 1 && all[1].place == 1 && all[1].length == 3 && all[1].value == 2);
        CHECK(all[2].place == 2 && all[2].length == 2 && all[2].value == 3 && all[3].place == 4 && all[3].length == 1 && all[3].value == 1);
    }
    next = 0;
    CHECK(cedar_scan(&d, bytes_of("xabca"), 5, &next, all, 1) == 0 && next == 1); /* two keys begin there */
    for (size_t room = 1; room < 8; room++) {
        CHECK(told(cedar_segment, &d, "xabca", all, room) == 3);
        CHECK(all[0].place == 0 && all[0].length == 1 && all[0].value == -1 && all[1].place == 1 && all[1].length == 3 && all[1].value == 2);
        CHECK(all[2].place == 4 && all[2].length == 1 && all[2].value == 1);
    }
    next = 9;
    CHECK(cedar_scan(&d, bytes_of("xabca"), 5, &next, all, 8) == 0 && next == 9);
    cedar_free(&d);
}

/* Erases some random keys by one call, from a plain table too, and answers how many were held. */
static size_t erase_random_keys(cedar *d, int32_t *plain) {
    enum { MOST = 40 };
    uint8_t bytes[MOST][4];
    cedar_key keys[MOST] = {{NULL, 0}};
    bool held[MOST] = {false};
    size_t count = next_random() % (MOST + 1), room = next_random() % (MOST + 1), erased = 0, told = 0;
    for (size_t i = 0; i < count; i++) keys[i] = (cedar_key){bytes[i], random_key(bytes[i])};
    size_t answer = cedar_erase_all(d, keys, count, held, room);
    for (size_t i = 0; i < count; i++) {
        size_t place = place_of(keys[i].key, keys[i].length);
        CHECK(held[i] == (i < room && plain[place] != 0));
        erased += plain[place] != 0;
        plain[place] = 0;
    }
    for (size_t i = 0; i < MOST; i++) told += held[i];
    CHECK(answer == erased && told <= erased && (told == erased || room < count));
    return erased;
}

static void random_calls(bool is_reduced) {
    static int32_t plain[PLACES]; /* a value and 1, or 0 */
    size_t held = 0, position;
    cedar d = CEDAR_CLOSED;
    CHECK((is_reduced ? cedar_new_reduced(&d, true, 1) : cedar_new(&d)) == CEDAR_OK);
    memset(plain, 0, sizeof plain);
    for (int i = 0; i < 100000; i++) {
        uint8_t key[4];
        size_t length = random_key(key), place = place_of(key, length);
        int32_t value = (int32_t)(next_random() % 1000000);
        if (i % 50 == 0) held -= erase_random_keys(&d, plain);
        switch (next_random() % 3) {
        case 0:
            CHECK(cedar_update(&d, key, length, value, &position) == CEDAR_OK);
            held += plain[place] == 0;
            plain[place] = value + 1;
            break;
        case 1:
            CHECK(cedar_erase(&d, key, length) == (plain[place] != 0));
            held -= plain[place] != 0;
            plain[place] = 0;
            break;
        default:
            CHECK(cedar_get(&d, key, length, &value) == (plain[place] != 0));
            CHECK(plain[place] == 0 || value == plain[place] - 1);
        }
        CHECK(cedar_len(&d) == held);
    }
    cedar_free(&d);
}

/* The nth key: eight hexadecimal digits, scattered. */
static void nth_key(uint32_t n, uint8_t *key) {
    uint32_t scattered = n * 2654435761u;
    for (int i = 0; i < 8; i++) key[i] = (uint8_t)"0123456789abcdef"[scattered >> (28 - 4 * i) & 15];
}

static void times(uint32_t keys) {
    cedar d = CEDAR_CLOSED;
    size_t position;
    int32_t value = 0;
    uint8_t (*all)[8] = malloc((size_t)keys * 8);
    CHECK(all != NULL && cedar_new(&d) == CEDAR_OK);
    for (uint32_t i = 0; i < keys; i++) nth_key(i, all[i]);
    double start = seconds();
    for (uint32_t i = 0; i < keys; i++) CHECK(cedar_update(&d, all[i], 8, (int32_t)i, &position) == CEDAR_OK);
    double updated = seconds();
    for (uint32_t i = 0; i < keys; i++) CHECK(cedar_get(&d, all[i], 8, &value) && value == (int32_t)i);
    double found = seconds();
    CHECK(cedar_len(&d) == keys);
    double counted = seconds();
    for (uint32_t i = 0; i < keys; i++) CHECK(cedar_erase(&d, all[i], 8));
    double erased = seconds();
    printf("%u keys: update %.0f ns, get %.0f ns, erase %.0f ns a call; len %.3f ms\n", keys, (updated - start) * 1e9 / keys,
           (found - updated) * 1e9 / keys, (erased - counted) * 1e9 / keys, (counted - found) * 1e3);
    cedar_free(&d);
    free(all);
}

/* MiB of text a second, by calls with room for 16384. */
static void text_times(void) {
    static const char words[] = "the network here is at work there; a net of nets works on. ";
    static cedar_found found[1 << 14];
    const cedar_pair pairs[] = {{bytes_of("the"), 3, 1}, {bytes_of("there"), 5, 2}, {bytes_of("here"), 4, 3}, {bytes_of("net"), 3, 4}, {bytes_of("network"), 7, 5}, {bytes_of("work"), 4, 6}};
    size_t length = (1 << 24) / (sizeof words - 1) * (sizeof words - 1), position;
    uint8_t *text = malloc(length);
    cedar d = CEDAR_CLOSED;
    CHECK(text != NULL && cedar_new(&d) == CEDAR_OK && cedar_update_all(&d, pairs, 6, &position) == CEDAR_OK);
    for (size_t i = 0; i < length; i++) text[i] = (uint8_t)words[i % (sizeof words - 1)];
    for (int call = 0; call < 2; call++) {
        double best = 1e9;
        size_t count = 0;
        for (int turn = 0; turn < 5; turn++) {
            double start = seconds();
            count = 0;
            for (size_t next = 0; next < length;) count += (call ? cedar_segment : cedar_scan)(&d, text, length, &next, found, 1 << 14);
            if (seconds() - start < best) best = seconds() - start;
        }
        printf("%s: %.1f MiB of text a second, %zu found\n", call ? "segment" : "scan", (double)length / best / (1 << 20), count);
    }
    cedar_free(&d);
    free(text);
}

int main(int count, char **arguments) {
    each_function();
    settings_and_walks();
    room_ahead(false);
    room_ahead(true);
    bounded_searches(false);
    bounded_searches(true);
    for (int is_reduced = 0; is_reduced < 2; is_reduced++) {
        erased_by_prefix(is_reduced);
        erased_together(is_reduced);
        unsorted_pairs(is_reduced);
        random_builds(is_reduced);
        short_questions(is_reduced);
        copies(is_reduced);
    }
    refused_files();
    files_and_texts();
    many_pairs();
    null_pointers();
    sorted_pairs();
    walks_in_pieces();
    whole_texts();
    random_calls(false);
    random_calls(true);
    reduced_layout();
    if (count > 1) {
        times((uint32_t)atol(arguments[1]));
        text_times();
    }
    puts("ok");
    return 0;
}

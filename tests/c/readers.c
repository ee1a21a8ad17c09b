/* Eight threads that read one dictionary at the same time without a lock, each by its own copy of the variable: readers [ROUNDS [fault]].
 * Each checks its answers against those that one thread had before. With `fault` one more thread changes the dictionary meanwhile, which is
 * forbidden: a tool that looks for races has to tell it. */
#include "cedar.h"
#include "check.h"
#include <pthread.h>
#include <string.h>

enum { THREADS = 8, KEYS = 5000, TEXT = 20000, ROOM = 4096, FILE_ROOM = 1 << 18, ALL = KEYS * 8 };

/* What a thread reads: the counts of scans, tokens, keywords, tokens of least cost, prefixes and predictions, the sum of all values, the bytes of keys and of the file, and
 * the figures. */
typedef struct Answers {
    size_t found, tokens, keywords, cheapest, prefixes, predictions, key_bytes, file_bytes, figures;
    uint64_t sum;
} Answers;

static uint8_t keys[KEYS][8];
static size_t lengths[KEYS];
static uint8_t text[TEXT];
static Answers expected;
static int rounds = 5;

static void read_texts(const cedar *d, Answers *answers) {
    static _Thread_local cedar_found found[ROOM];
    static _Thread_local cedar_match matches[64];
    for (size_t next = 0; next < TEXT;) {
        size_t count = cedar_scan(d, text, TEXT, &next, found, ROOM);
        for (size_t i = 0; i < count; i++) answers->sum += (uint64_t)found[i].value;
        answers->found += count;
    }
    for (size_t next = 0; next < TEXT;) answers->tokens += cedar_segment(d, text, TEXT, &next, found, ROOM);
    for (size_t next = 0; next < TEXT;) answers->keywords += cedar_keywords(d, text, TEXT, &next, found, ROOM);
    for (size_t place = 0; place < TEXT; place++) {
        size_t length = TEXT - place < 16 ? TEXT - place : 16, next = 1;
        answers->prefixes += cedar_prefixes(d, text + place, length, matches, 64);
        answers->predictions += cedar_predictions_from(d, text + place, length < 3 ? length : 3, &next, matches, 64);
        next = 1;
        answers->prefixes += cedar_prefixes_from(d, text + place, length, &next, matches, 64);
    }
}

/* Whether the memory for a file, a list of keys and a cut was there. */
static bool read_wholes(const cedar *d, Answers *answers) {
    static _Thread_local uint8_t file[FILE_ROOM];
    static _Thread_local uint8_t all[ALL];
    static _Thread_local cedar_found cut[TEXT];
    answers->figures = cedar_len(d) + 3 * cedar_used_slots(d) + 5 * cedar_capacity(d) + 7 * cedar_spare_blocks(d) + cedar_is_reduced(d);
    return cedar_keys(d, all, ALL, &answers->key_bytes) == CEDAR_OK
           && cedar_cheapest(d, text, TEXT, KEYS, false, cut, TEXT, &answers->cheapest) == CEDAR_OK
           && cedar_save(d, false, file, FILE_ROOM, &answers->file_bytes) == CEDAR_OK;
}

static Answers read_all(const cedar *d) {
    Answers answers;
    memset(&answers, 0, sizeof answers);
    read_texts(d, &answers);
    CHECK(read_wholes(d, &answers));
    return answers;
}

static void *work(void *own_copy) {
    const cedar *mine = own_copy;
    for (int round = 0; round < rounds; round++) {
        Answers answers = read_all(mine);
        CHECK(memcmp(&answers, &expected, sizeof answers) == 0);
        for (int i = 0; i < KEYS; i++) {
            int32_t value;
            CHECK(cedar_get(mine, keys[i], lengths[i], &value) && memcmp(keys[value], keys[i], 8) == 0);
        }
        CHECK(!cedar_get(mine, (const uint8_t *)"~~~", 3, &(int32_t){0}));
    }
    return NULL;
}

static void *change(void *dictionary) {
    size_t position;
    for (int i = 0; i < 1000; i++) CHECK(cedar_update(dictionary, keys[i], lengths[i], i, &position) == CEDAR_OK);
    return NULL;
}

static void fill(cedar *d) {
    size_t position;
    for (int i = 0; i < KEYS; i++) {
        lengths[i] = 1 + next_random() % 6;
        memset(keys[i], 0, sizeof keys[i]);
        for (size_t at = 0; at < lengths[i]; at++) keys[i][at] = (uint8_t)('a' + next_random() % 8);
        CHECK(cedar_update(d, keys[i], lengths[i], i, &position) == CEDAR_OK);
    }
    for (size_t at = 0; at < TEXT; at++) text[at] = (uint8_t)('a' + next_random() % 9);
}

int main(int count, char **arguments) {
    cedar d = CEDAR_CLOSED, copies[THREADS];
    pthread_t threads[THREADS + 1];
    if (count > 1) rounds = atoi(arguments[1]);
    for (int reduced = 0; reduced < 2; reduced++) {
        CHECK((reduced ? cedar_new_reduced(&d, true, 1) : cedar_new(&d)) == CEDAR_OK);
        fill(&d);
        expected = read_all(&d);
        CHECK(expected.found > 0 && expected.tokens > 0 && expected.predictions > 0 && expected.key_bytes > 0);
        for (int i = 0; i < THREADS; i++) copies[i] = d;
        for (int i = 0; i < THREADS; i++) CHECK(pthread_create(&threads[i], NULL, work, &copies[i]) == 0);
        if (count > 2) CHECK(pthread_create(&threads[THREADS], NULL, change, &d) == 0);
        for (int i = 0; i < THREADS + (count > 2); i++) pthread_join(threads[i], NULL);
        CHECK(cedar_update(&d, (const uint8_t *)"~~~", 3, 1, &(size_t){0}) == CEDAR_OK);
        cedar_free(&d);
    }
    puts("ok");
    return 0;
}

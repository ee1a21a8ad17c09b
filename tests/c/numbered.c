/* The job `kill` of crates/trial_run in C, as far as tests/power and tests/faults ask it: numbered changes of a store, and what files hold.
 *   change PATH FIRST COUNT       makes changes, and prints the number of each once it is acknowledged
 *   insist PATH FIRST COUNT       goes on after a change that isn't made, and prints why
 *   persist PATH FIRST COUNT      compacts the file after a change that isn't made, prints that it is mended if so, and goes on
 *   batch PATH FIRST COUNT SIZE   makes changes SIZE at a time as one, and prints each time how many are acknowledged
 *   grow PATH FIRST COUNT SIZE    the same, and the file is never compacted
 *   mend PATH                     compacts the file, and prints how many entries it has
 *   reopen PATH..                 opens each file, and prints its entries, and then whether it was opened */
#include "cedar.h"
#include <inttypes.h>
#include <stdio.h>
#include <stdlib.h>
#include <string.h>
#include <unistd.h>

enum { KEYS = 997, KEY_ROOM = 32, LARGEST = 1000, FACTOR = 2, SPARE = 1024, TURNS = 101 };

static const char *reason_of(uint32_t status) {
    if (status == CEDAR_STORE_FAILED) return "the device failed before";
    if (status == CEDAR_STORE_NO_ROOM) return "there is no room";
    return status == CEDAR_STORE_DEVICE || status == CEDAR_STORE_KEPT ? "the disk failed" : "another error";
}

/* Writes a line by a call of the system: tests/calls.c sees no others. */
static void tell(const char *line) {
    char whole[256];
    int length = snprintf(whole, sizeof whole, "%s\n", line);
    if (write(1, whole, (size_t)length) != length) exit(3);
}

static void tell_number(uint64_t number, uint32_t status) {
    char line[64];
    snprintf(line, sizeof line, status == CEDAR_OK ? "%" PRIu64 : "%" PRIu64 ": %s", number, reason_of(status));
    tell(line);
}

/* Writes the key of one of the numbers below KEYS. */
static void write_key(char *key, uint64_t of) {
    size_t length = (size_t)snprintf(key, KEY_ROOM, "%" PRIu64, of);
    memset(key + length, 'k', of % 23);
    key[length + of % 23] = 0;
}

static cedar_change change_of(uint64_t number, char *key) {
    write_key(key, number % KEYS * 619 % KEYS);
    return (cedar_change){(const uint8_t *)key, strlen(key), (int32_t)(number % 2147483646), number % 5 == 4};
}

static uint32_t make(cedar_store *s, uint64_t number) {
    char key[KEY_ROOM];
    cedar_change change = change_of(number, key);
    bool held;
    uint32_t status = change.is_erasure ? cedar_store_erase(s, change.key, change.length, &held)
                                        : cedar_store_update(s, change.key, change.length, change.value, NULL);
    return status == CEDAR_OK && number % TURNS == 0 ? cedar_store_compact(s) : status;
}

static uint32_t make_together(cedar_store *s, uint64_t first, size_t count) {
    static char keys[LARGEST][KEY_ROOM];
    static cedar_change changes[LARGEST];
    for (size_t i = 0; i < count; i++) changes[i] = change_of(first + i, keys[i]);
    return cedar_store_apply(s, changes, count, NULL, NULL);
}

/* What is done after a change that isn't made. */
typedef enum { ENDS, INSISTS, PERSISTS } temper;

static uint32_t change(cedar_store *s, uint64_t first, uint64_t count, temper then) {
    uint32_t status = CEDAR_OK;
    for (uint64_t i = 0; i < count && (status == CEDAR_OK || then != ENDS); i++) {
        status = make(s, first + i);
        if (status == CEDAR_OK || then != ENDS) tell_number(first + i, status);
        if (status != CEDAR_OK && then == PERSISTS && cedar_store_compact(s) == CEDAR_OK) tell("mended");
    }
    return then == ENDS ? status : CEDAR_OK;
}

static uint32_t batch(cedar_store *s, uint64_t first, uint64_t count, uint64_t size) {
    uint32_t status = CEDAR_OK;
    if (size == 0 || size > LARGEST) return CEDAR_STORE_TOO_LONG;
    for (uint64_t done = 0; done + size <= count && status == CEDAR_OK; done += size) {
        status = make_together(s, first + done, size);
        if (status == CEDAR_OK) tell_number(done + size, status);
    }
    return status;
}

static void reopen(const char *path) {
    cedar_store s = CEDAR_STORE_CLOSED;
    uint32_t status = cedar_store_open(&s, path);
    char key[KEY_ROOM], line[128] = "= opened";
    size_t found = 0;
    for (uint64_t of = 0; status == CEDAR_OK && of < KEYS; of++) {
        int32_t value = 0;
        write_key(key, of);
        if (!cedar_get(cedar_store_dictionary(&s), (const uint8_t *)key, strlen(key), &value)) continue;
        char entry[64];
        snprintf(entry, sizeof entry, "%s %" PRId32, key, value);
        tell(entry);
        found++;
    }
    if (status != CEDAR_OK) snprintf(line, sizeof line, "= %s", reason_of(status));
    if (status == CEDAR_OK && found != cedar_len(cedar_store_dictionary(&s))) snprintf(line, sizeof line, "= it has other keys");
    tell(line);
    cedar_store_close(&s);
}

static uint32_t mend(cedar_store *s) {
    uint32_t status = cedar_store_compact(s);
    if (status == CEDAR_OK) tell_number(cedar_len(cedar_store_dictionary(s)), status);
    return status;
}

/* Does what the words say with a store that is open. */
static uint32_t answer(cedar_store *s, const char *work, const uint64_t *numbers) {
    uint32_t status = cedar_store_compact_beyond(s, strcmp(work, "grow") == 0 ? 0 : FACTOR, SPARE);
    if (status != CEDAR_OK) return status;
    if (strcmp(work, "mend") == 0) return mend(s);
    if (strcmp(work, "change") == 0) return change(s, numbers[0], numbers[1], ENDS);
    if (strcmp(work, "insist") == 0) return change(s, numbers[0], numbers[1], INSISTS);
    if (strcmp(work, "persist") == 0) return change(s, numbers[0], numbers[1], PERSISTS);
    return batch(s, numbers[0], numbers[1], numbers[2]);
}

int main(int count, char **words) {
    if (count < 3) return 2;
    if (strcmp(words[1], "reopen") == 0) {
        for (int i = 2; i < count; i++) reopen(words[i]);
        return 0;
    }
    cedar_store s = CEDAR_STORE_CLOSED;
    uint64_t numbers[3] = {0, 0, 0};
    for (int i = 3; i < count && i < 6; i++) numbers[i - 3] = strtoull(words[i], NULL, 10);
    uint32_t status = cedar_store_open(&s, words[2]);
    if (status == CEDAR_OK) status = answer(&s, words[1], numbers);
    cedar_store_close(&s);
    if (status != CEDAR_OK) fprintf(stderr, "numbered: %s\n", reason_of(status));
    return status == CEDAR_OK ? 0 : 1;
}

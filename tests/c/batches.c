/* Changes that are made as one: what they leave, beside a list; refused ones, which leave nothing; each call of the system and each request
 * for memory failing in turn, or ending the process. Argument: a folder to write in. Linked with -Wl,--wrap=.. of the calls below that begin
 * with __wrap_. */
#define _GNU_SOURCE /* mode_t */
#include "cedar.h"
#include "check.h"
#include <errno.h>
#include <string.h>
#include <sys/wait.h>
#include <unistd.h>

enum { FILE_ROOM = 1 << 20, LAST_STEP = 400, ROUNDS = 120, MOST = 12, NAMES = 20 };

enum fault { NONE, FAILS, ENDS_THE_PROCESS, LACKS_MEMORY };

static enum fault fault = NONE;
static long left;
static char calls[64];

static bool is_met(char letter) {
    size_t count = strlen(calls);
    if (count + 1 < sizeof calls) calls[count] = letter;
    if ((fault != FAILS && fault != ENDS_THE_PROCESS) || left-- != 0) return false;
    if (fault == ENDS_THE_PROCESS) _exit(7);
    errno = EIO;
    return true;
}

ssize_t __real_pwrite(int file, const void *bytes, size_t length, off_t at);
int __real_fdatasync(int file);
void *__real_malloc(size_t size);
void *__real_calloc(size_t count, size_t size);
void *__real_realloc(void *block, size_t size);

ssize_t __wrap_pwrite(int file, const void *bytes, size_t length, off_t at) {
    return is_met('w') ? -1 : __real_pwrite(file, bytes, length, at);
}
int __wrap_fdatasync(int file) { return is_met('s') ? -1 : __real_fdatasync(file); }
static bool lacks(void) { return fault == LACKS_MEMORY && left-- == 0; }
void *__wrap_malloc(size_t size) { return lacks() ? NULL : __real_malloc(size); }
void *__wrap_calloc(size_t count, size_t size) { return lacks() ? NULL : __real_calloc(count, size); }
void *__wrap_realloc(void *block, size_t size) { return lacks() ? NULL : __real_realloc(block, size); }

static void begin(enum fault which, long step) {
    memset(calls, 0, sizeof calls);
    fault = which;
    left = step;
}

/* Ends it, and says whether it came. */
static bool end(void) {
    bool came = fault != NONE && left < 0;
    fault = NONE;
    return came;
}

static char path[4096];

static const uint8_t *bytes(const char *text) { return (const uint8_t *)text; }

static cedar_change put(const char *key, int32_t value) { return (cedar_change){bytes(key), strlen(key), value, false}; }

static cedar_change erasure(const char *key) { return (cedar_change){bytes(key), strlen(key), 0, true}; }

static int32_t at(const cedar_store *s, const char *key) {
    int32_t value = -1;
    cedar_get(cedar_store_dictionary(s), bytes(key), strlen(key), &value);
    return value;
}

static size_t count(const cedar_store *s) { return cedar_len(cedar_store_dictionary(s)); }

static size_t read_file(uint8_t *data) {
    FILE *file = fopen(path, "rb");
    CHECK(file != NULL);
    size_t length = fread(data, 1, FILE_ROOM, file);
    fclose(file);
    return length;
}

static void open_new(cedar_store *s, bool is_reduced) {
    cedar_store_close(s);
    unlink(path);
    CHECK((is_reduced ? cedar_store_open_reduced : cedar_store_open)(s, path) == CEDAR_OK);
}

/* Of each key the last change counts. The batch is on the disk by two syncs, and what waited before it. */
static void check_order(bool is_reduced) {
    cedar_store s = CEDAR_STORE_CLOSED;
    open_new(&s, is_reduced);
    cedar_change first[] = {put("net", 7), put("ten", 1), put("nets", 8), put("ten", 2), erasure("nets"), erasure("nor"), put("a", 3)};
    begin(NONE, 0);
    CHECK(cedar_store_apply(&s, first, 7, NULL, NULL) == CEDAR_OK && strcmp(calls, "wsws") == 0 && cedar_store_records(&s) == 1);
    CHECK(count(&s) == 3 && at(&s, "net") == 7 && at(&s, "ten") == 2 && at(&s, "a") == 3);
    cedar_change second[] = {erasure("net"), put("net", 9), put("b", 4), erasure("b"), erasure("a")};
    CHECK(cedar_store_sync_every(&s, 0) == CEDAR_OK && cedar_store_update(&s, bytes("w"), 1, 5, NULL) == CEDAR_OK);
    begin(NONE, 0);
    CHECK(cedar_store_apply(&s, second, 5, NULL, NULL) == CEDAR_OK && strcmp(calls, "wswswsws") == 0 && cedar_store_waiting(&s) == 0);
    CHECK(count(&s) == 3 && at(&s, "net") == 9 && at(&s, "ten") == 2 && at(&s, "w") == 5 && cedar_store_records(&s) == 3);
    begin(NONE, 0);
    cedar_change nothing[] = {erasure("b"), erasure(""), {bytes("n\0t"), 3, -1, true}};
    CHECK(cedar_store_apply(&s, nothing, 3, NULL, NULL) == CEDAR_OK && cedar_store_apply(&s, NULL, 0, NULL, NULL) == CEDAR_OK);
    CHECK(strcmp(calls, "") == 0 && cedar_store_records(&s) == 3);
    CHECK(cedar_store_update(&s, bytes("v"), 1, 6, NULL) == CEDAR_OK && cedar_store_waiting(&s) == 1);
    cedar_store_close(&s);
    CHECK(cedar_store_open(&s, path) == CEDAR_OK && count(&s) == 4 && at(&s, "net") == 9 && at(&s, "w") == 5 && at(&s, "v") == 6);
    CHECK(cedar_store_records(&s) == 4);
    cedar_store_close(&s);
}

/* A refused batch leaves nothing, and says which change was refused. */
static void check_refused(void) {
    static uint8_t before[FILE_ROOM], now[FILE_ROOM];
    static const struct { cedar_change change; uint32_t status; size_t position; } faults[] = {
        {{(const uint8_t *)"", 0, 1, false}, CEDAR_EMPTY_KEY, 99},
        {{(const uint8_t *)"n\0t", 3, -1, false}, CEDAR_NUL_BYTE, 1},
        {{(const uint8_t *)"ten", 3, -1, false}, CEDAR_INVALID_VALUE, 99},
        {{(const uint8_t *)"ten", 3, CEDAR_MAX_VALUE + 1, false}, CEDAR_INVALID_VALUE, 99},
    };
    cedar_store s = CEDAR_STORE_CLOSED;
    size_t refused = 99, position = 99;
    cedar_change changes[] = {put("net", 1), erasure("nets"), put("x", 2), put("ten", 3)};
    CHECK(cedar_store_apply(&s, changes, 4, &refused, &position) == CEDAR_IS_CLOSED && refused == 99);
    open_new(&s, false);
    CHECK(cedar_store_update(&s, bytes("net"), 3, 7, NULL) == CEDAR_OK && cedar_store_update(&s, bytes("nets"), 4, 8, NULL) == CEDAR_OK);
    size_t length = read_file(before);
    for (size_t i = 0; i < sizeof faults / sizeof *faults; i++) {
        changes[2] = faults[i].change;
        refused = position = 99;
        CHECK(cedar_store_apply(&s, changes, 4, &refused, &position) == faults[i].status && refused == 2 && position == faults[i].position);
        CHECK(cedar_store_apply(&s, changes, 4, NULL, NULL) == faults[i].status);
        CHECK(count(&s) == 2 && at(&s, "net") == 7 && at(&s, "nets") == 8 && cedar_store_records(&s) == 2);
        CHECK(read_file(now) == length && memcmp(now, before, length) == 0);
    }
    CHECK(cedar_store_open_to_read(&s, path) == CEDAR_OK && cedar_store_apply(&s, changes, 1, NULL, NULL) == CEDAR_STORE_READ_ONLY);
    CHECK(at(&s, "net") == 7);
    cedar_store_close(&s);
}

/* Batches of few keys, beside a list of what they hold. */
static void check_runs(bool is_reduced) {
    static char names[NAMES][4];
    cedar_store s = CEDAR_STORE_CLOSED;
    int32_t held[NAMES];
    for (int i = 0; i < NAMES; i++) {
        held[i] = -1;
        CHECK(snprintf(names[i], sizeof names[i], "%.*s%c", i % 3, "ab", 'c' + i / 3) > 0);
    }
    open_new(&s, is_reduced);
    for (int round = 0; round < ROUNDS; round++) {
        cedar_change changes[MOST];
        size_t some = next_random() % MOST;
        for (size_t i = 0; i < some; i++) {
            int name = (int)(next_random() % NAMES);
            bool is_erasure = next_random() % 3 == 0;
            held[name] = is_erasure ? -1 : (int32_t)(next_random() % 1000);
            changes[i] = (cedar_change){bytes(names[name]), strlen(names[name]), held[name], is_erasure};
        }
        CHECK(cedar_store_apply(&s, changes, some, NULL, NULL) == CEDAR_OK);
        if (round % 20 == 0) CHECK(cedar_store_open(&s, path) == CEDAR_OK && cedar_store_sync_every(&s, next_random() % 3) == CEDAR_OK);
        size_t keys = 0;
        for (int i = 0; i < NAMES; i++) {
            CHECK(at(&s, names[i]) == held[i]);
            keys += held[i] >= 0;
        }
        CHECK(count(&s) == keys);
    }
    cedar_store_close(&s);
}

/* Whether the store has what was there before the batch below, or what it leaves. */
static bool has_all(const cedar_store *s) {
    return count(s) == 4 && at(s, "net") == 1 && at(s, "nets") == -1 && at(s, "x") == 2 && at(s, "long key") == 3 && at(s, "w") == 9;
}

static bool has_none(const cedar_store *s, bool has_waiting) {
    return count(s) == (has_waiting ? 3 : 2) && at(s, "net") == 7 && at(s, "nets") == 8 && at(s, "w") == (has_waiting ? 9 : -1);
}

static uint32_t apply_some(cedar_store *s, size_t *refused) {
    cedar_change changes[] = {put("net", 1), erasure("nets"), put("x", 2), put("long key", 3)};
    return cedar_store_apply(s, changes, 4, refused, NULL);
}

/* Memory is refused once: none of the batch is made, and it is made the next time. */
static bool check_memory(long step) {
    cedar_store s = CEDAR_STORE_CLOSED;
    open_new(&s, false);
    CHECK(cedar_store_update(&s, bytes("net"), 3, 7, NULL) == CEDAR_OK && cedar_store_update(&s, bytes("nets"), 4, 8, NULL) == CEDAR_OK);
    CHECK(cedar_store_update(&s, bytes("w"), 1, 9, NULL) == CEDAR_OK);
    begin(LACKS_MEMORY, step);
    uint32_t status = apply_some(&s, NULL);
    bool came = end();
    CHECK(status == CEDAR_OK || (came && status == CEDAR_MEMORY));
    CHECK(status == CEDAR_OK ? has_all(&s) : has_none(&s, true));
    CHECK(cedar_store_records(&s) == (status == CEDAR_OK ? 4 : 3));
    CHECK(!cedar_store_failed(&s) && apply_some(&s, NULL) == CEDAR_OK && has_all(&s));
    CHECK(cedar_store_open(&s, path) == CEDAR_OK && has_all(&s));
    cedar_store_close(&s);
    return came;
}

/* A call fails, or the process ends there: the file has all of the batch or nothing of it. What waited is there if anything is. */
static bool check_disk(enum fault which, long step) {
    cedar_store s = CEDAR_STORE_CLOSED;
    open_new(&s, false);
    CHECK(cedar_store_update(&s, bytes("net"), 3, 7, NULL) == CEDAR_OK && cedar_store_update(&s, bytes("nets"), 4, 8, NULL) == CEDAR_OK);
    cedar_store_close(&s);
    pid_t child = which == ENDS_THE_PROCESS ? fork() : 0;
    CHECK(child >= 0);
    uint32_t status = CEDAR_STORE_DEVICE;
    bool came;
    if (child == 0) {
        CHECK(cedar_store_open(&s, path) == CEDAR_OK && cedar_store_sync_every(&s, 0) == CEDAR_OK);
        CHECK(cedar_store_update(&s, bytes("w"), 1, 9, NULL) == CEDAR_OK);
        begin(which, step);
        status = apply_some(&s, NULL);
        if (which == ENDS_THE_PROCESS) _exit(status == CEDAR_OK ? 0 : 1);
        came = end();
        CHECK(status == CEDAR_OK || (came && status == CEDAR_STORE_DEVICE && errno == EIO && cedar_store_failed(&s)));
        CHECK(status == CEDAR_OK || apply_some(&s, NULL) == CEDAR_STORE_FAILED);
        CHECK(has_all(&s) || (status != CEDAR_OK && has_none(&s, true)));
    } else {
        int how;
        CHECK(waitpid(child, &how, 0) == child && WIFEXITED(how) && (WEXITSTATUS(how) == 0 || WEXITSTATUS(how) == 7));
        came = WEXITSTATUS(how) == 7;
        if (!came) status = CEDAR_OK;
    }
    CHECK(cedar_store_open(&s, path) == CEDAR_OK);
    CHECK(has_all(&s) || (status != CEDAR_OK && (has_none(&s, true) || has_none(&s, false))));
    cedar_store_close(&s);
    return came;
}

int main(int argument_count, char **arguments) {
    CHECK(argument_count == 2 && snprintf(path, sizeof path, "%s/batches.store", arguments[1]) > 0);
    for (int is_reduced = 0; is_reduced < 2; is_reduced++) check_order(is_reduced);
    check_refused();
    for (int is_reduced = 0; is_reduced < 2; is_reduced++) check_runs(is_reduced);
    long step = 0;
    while (step < LAST_STEP && check_memory(step)) step++;
    CHECK(step > 4 && step < LAST_STEP);
    for (enum fault which = FAILS; which <= ENDS_THE_PROCESS; which++) {
        for (step = 0; step < LAST_STEP && check_disk(which, step); step++) {}
        CHECK(step == 8); /* two writes and two syncs, of what waited and of the batch */
    }
    unlink(path);
    return 0;
}

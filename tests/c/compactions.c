/* Stores whose files are made short: by a call, by themselves, and on a store that has failed; each call of the system and each request for
 * memory failing in turn, or ending the process; what is beside the file. Argument: a folder to write in. Linked with -Wl,--wrap=.. of the
 * calls below that begin with __wrap_. */
#define _GNU_SOURCE /* mode_t */
#include "cedar.h"
#include "check.h"
#include <errno.h>
#include <fcntl.h>
#include <stdarg.h>
#include <string.h>
#include <sys/stat.h>
#include <sys/wait.h>
#include <unistd.h>

enum { LAST_STEP = 200, KEYS = 700, LONG_KEY = 1 << 20, COUNTS = 20000, SOME_RECORDS = 11 };

enum fault { NONE, FAILS, ENDS_THE_PROCESS, LACKS_MEMORY };

static enum fault fault = NONE;
static long left;
static char calls[256]; /* the first letter of each call, in their order */

static bool fails(char letter) {
    size_t count = strlen(calls);
    if (count + 1 < sizeof calls) calls[count] = letter;
    if ((fault != FAILS && fault != ENDS_THE_PROCESS) || left-- != 0) return false;
    if (fault == ENDS_THE_PROCESS) _exit(7);
    errno = EIO;
    return true;
}

int __real_openat(int folder, const char *name, int flags, mode_t mode);
int __real_flock(int file, int how);
int __real_fchmod(int file, mode_t mode);
ssize_t __real_pwrite(int file, const void *bytes, size_t length, off_t at);
int __real_ftruncate(int file, off_t length);
int __real_fsync(int file);
int __real_fdatasync(int file);
int __real_renameat(int from, const char *name, int to, const char *other);
void *__real_malloc(size_t size);
void *__real_calloc(size_t count, size_t size);
void *__real_realloc(void *block, size_t size);

int __wrap_openat(int folder, const char *name, int flags, ...) {
    va_list mode;
    va_start(mode, flags);
    int file = fails('o') ? -1 : __real_openat(folder, name, flags, va_arg(mode, mode_t));
    va_end(mode);
    return file;
}
int __wrap_flock(int file, int how) { return fails('l') ? -1 : __real_flock(file, how); }
int __wrap_fchmod(int file, mode_t mode) { return fails('m') ? -1 : __real_fchmod(file, mode); }
ssize_t __wrap_pwrite(int file, const void *bytes, size_t length, off_t at) {
    return fails('w') ? -1 : __real_pwrite(file, bytes, length, at);
}
int __wrap_ftruncate(int file, off_t length) { return fails('c') ? -1 : __real_ftruncate(file, length); }
int __wrap_fsync(int file) { return fails('S') ? -1 : __real_fsync(file); }
int __wrap_fdatasync(int file) { return fails('s') ? -1 : __real_fdatasync(file); }
int __wrap_renameat(int from, const char *name, int to, const char *other) {
    return fails('r') ? -1 : __real_renameat(from, name, to, other);
}
static bool lacks(void) {
    if (fault != LACKS_MEMORY || left-- != 0) return false;
    errno = ENOMEM;
    return true;
}
void *__wrap_malloc(size_t size) { return lacks() ? NULL : __real_malloc(size); }
void *__wrap_calloc(size_t count, size_t size) { return lacks() ? NULL : __real_calloc(count, size); }
void *__wrap_realloc(void *block, size_t size) { return lacks() ? NULL : __real_realloc(block, size); }

static void begin(enum fault which, long step) {
    memset(calls, 0, sizeof calls);
    fault = which;
    left = step;
}

/* Ends it, and says whether it came. */
static bool end(void) {
    bool came = fault != NONE && left < 0;
    fault = NONE;
    return came;
}

static char path[4096], beside[4200];

static const uint8_t *bytes(const char *text) { return (const uint8_t *)text; }

static uint32_t update(cedar_store *s, const char *key, int32_t value) {
    return cedar_store_update(s, bytes(key), strlen(key), value, NULL);
}

static int32_t at(const cedar_store *s, const char *key) {
    int32_t value = -1;
    cedar_get(cedar_store_dictionary(s), bytes(key), strlen(key), &value);
    return value;
}

static size_t count(const cedar_store *s) { return cedar_len(cedar_store_dictionary(s)); }

static bool is_there(const char *name) {
    struct stat found;
    return lstat(name, &found) == 0;
}

static size_t size_of(const char *name) {
    struct stat found;
    CHECK(stat(name, &found) == 0);
    return (size_t)found.st_size;
}

static void open_new(cedar_store *s, bool is_reduced) {
    cedar_store_close(s);
    unlink(path);
    CHECK((is_reduced ? cedar_store_open_reduced : cedar_store_open)(s, path) == CEDAR_OK);
}

/* Two keys, one of which has had many values: SOME_RECORDS records. */
static void open_some(cedar_store *s) {
    open_new(s, false);
    CHECK(update(s, "nets", 8) == CEDAR_OK && update(s, "x", 1) == CEDAR_OK && cedar_store_erase(s, bytes("x"), 1, NULL) == CEDAR_OK);
    for (int32_t i = 0; i < 8; i++) CHECK(update(s, "net", i) == CEDAR_OK);
}

static bool has_some(const cedar_store *s) { return count(s) == 2 && at(s, "net") == 7 && at(s, "nets") == 8; }

/* A file that was made short has the entries, what waited too, and the store goes on with it, alone. */
static void check_short(bool is_reduced) {
    cedar_store s = CEDAR_STORE_CLOSED, two = CEDAR_STORE_CLOSED;
    char key[16];
    size_t length = 0, before;
    CHECK(cedar_store_compact(&s) == CEDAR_IS_CLOSED && cedar_store_compacted_len(&s, &length) == CEDAR_IS_CLOSED && length == 0);
    CHECK(cedar_store_compact_beyond(&s, 2, 0) == CEDAR_IS_CLOSED && cedar_store_file_len(&s) == 0);
    CHECK(cedar_store_last_compaction(&s) == CEDAR_OK && cedar_store_records(&s) == 0);
    open_new(&s, is_reduced);
    CHECK(cedar_store_compact(&s) == CEDAR_OK && cedar_store_file_len(&s) == size_of(path) && count(&s) == 0);
    CHECK(cedar_store_records(&s) == 0);
    CHECK(cedar_store_compacted_len(&s, &length) == CEDAR_OK && length == size_of(path));
    CHECK(cedar_store_sync_every(&s, 0) == CEDAR_OK);
    for (int32_t i = 0; i < 2 * KEYS; i++) {
        CHECK(snprintf(key, sizeof key, "k%d", i % KEYS) > 0 && update(&s, key, i) == CEDAR_OK);
    }
    CHECK(cedar_store_sync(&s) == CEDAR_OK && update(&s, "first", 4) == CEDAR_OK && cedar_store_sync(&s) == CEDAR_OK);
    CHECK(update(&s, "waits", 5) == CEDAR_OK && cedar_store_waiting(&s) == 1 && cedar_store_records(&s) == 2);
    before = size_of(path);
    CHECK(cedar_store_compacted_len(&s, &length) == CEDAR_OK && cedar_store_file_len(&s) == before && length < before * 2 / 3);
    CHECK(chmod(path, 0640) == 0 && cedar_store_open_to_read(&two, path) == CEDAR_OK && count(&two) == KEYS + 1);
    begin(NONE, 0);
    CHECK(cedar_store_compact(&s) == CEDAR_OK && strcmp(calls, "olmcswswswswswsSrS") == 0 && cedar_store_waiting(&s) == 0);
    CHECK(size_of(path) == length && cedar_store_file_len(&s) == length && !is_there(beside));
    CHECK(cedar_store_records(&s) == 1 && cedar_store_records(&two) == 2);
    struct stat found;
    CHECK(stat(path, &found) == 0 && (found.st_mode & 07777) == 0640);
    CHECK(cedar_store_compact(&two) == CEDAR_STORE_READ_ONLY && count(&two) == KEYS + 1 && at(&two, "waits") == -1);
    CHECK(cedar_store_open(&two, path) == CEDAR_STORE_LOCKED);
    CHECK(cedar_store_sync_every(&s, 1) == CEDAR_OK && update(&s, "later", 6) == CEDAR_OK && size_of(path) > length);
    cedar_store_close(&s);
    CHECK(cedar_store_open(&s, path) == CEDAR_OK && count(&s) == KEYS + 3 && at(&s, "waits") == 5 && at(&s, "later") == 6);
    CHECK(cedar_store_records(&s) == 2);
    for (int32_t i = 0; i < KEYS; i++) CHECK(snprintf(key, sizeof key, "k%d", i) > 0 && at(&s, key) == i + KEYS);
    cedar_store_close(&s);
}

/* More than a group takes, by keys that are longer than a page's room. */
static void check_long(void) {
    enum { LONG_KEYS = 6 };
    static uint8_t key[LONG_KEY];
    cedar_store s = CEDAR_STORE_CLOSED;
    size_t length;
    memset(key, 'a', sizeof key);
    open_new(&s, true);
    for (int32_t i = 0; i < LONG_KEYS; i++) {
        key[LONG_KEY - 1] = (uint8_t)(1 + i);
        CHECK(cedar_store_update(&s, key, LONG_KEY - (size_t)(i == 3), i, NULL) == CEDAR_OK);
    }
    CHECK(cedar_store_records(&s) == LONG_KEYS);
    CHECK(cedar_store_compacted_len(&s, &length) == CEDAR_OK && cedar_store_compact(&s) == CEDAR_OK && size_of(path) == length);
    CHECK(cedar_store_records(&s) == 2);
    CHECK(cedar_store_open(&s, path) == CEDAR_OK && count(&s) == LONG_KEYS && cedar_store_file_len(&s) == length);
    CHECK(cedar_store_records(&s) == 2);
    cedar_store_close(&s);
}

/* A counter: its file stays short by itself, unless that is turned off. */
static void check_by_itself(void) {
    cedar_store s = CEDAR_STORE_CLOSED;
    open_new(&s, false);
    CHECK(cedar_store_sync_every(&s, 100) == CEDAR_OK);
    for (int32_t i = 0; i < COUNTS; i++) CHECK(update(&s, "counter", i) == CEDAR_OK && cedar_store_file_len(&s) < (1 << 16) + 4096);
    CHECK(at(&s, "counter") == COUNTS - 1 && cedar_store_last_compaction(&s) == CEDAR_OK && size_of(path) == cedar_store_file_len(&s));
    size_t records = cedar_store_records(&s);
    CHECK(cedar_store_open(&s, path) == CEDAR_OK && count(&s) == 1 && at(&s, "counter") == COUNTS - 1);
    CHECK(cedar_store_records(&s) == records && records < COUNTS / 400);
    CHECK(cedar_store_compact_beyond(&s, 0, 0) == CEDAR_OK && cedar_store_sync_every(&s, 100) == CEDAR_OK);
    for (int32_t i = 0; i < COUNTS; i++) CHECK(update(&s, "counter", i) == CEDAR_OK);
    CHECK(size_of(path) > COUNTS * 17 && cedar_store_records(&s) == records + COUNTS / 100);
    /* One that is kept is no error of the change, and is told. */
    CHECK(mkdir(beside, 0700) == 0 && cedar_store_compact_beyond(&s, 3, 0) == CEDAR_OK);
    CHECK(cedar_store_compact(&s) == CEDAR_STORE_KEPT && errno == EEXIST && cedar_store_last_compaction(&s) == CEDAR_STORE_KEPT);
    CHECK(update(&s, "counter", 5) == CEDAR_OK && cedar_store_sync(&s) == CEDAR_OK && size_of(path) > COUNTS * 17);
    CHECK(cedar_store_last_compaction(&s) == CEDAR_STORE_KEPT && !cedar_store_failed(&s) && rmdir(beside) == 0);
    CHECK(cedar_store_open(&s, path) == CEDAR_OK && cedar_store_compact_beyond(&s, 1, 100) == CEDAR_OK);
    CHECK(update(&s, "net", 7) == CEDAR_OK && size_of(path) < 100 && at(&s, "counter") == 5);
    cedar_store_close(&s);
}

/* A store that has failed in a change, by each call of it, goes on after a compaction, with that change. */
static void check_failed(void) {
    for (long step = 0; step < 4; step++) {
        cedar_store s = CEDAR_STORE_CLOSED;
        open_some(&s);
        begin(FAILS, step);
        CHECK(update(&s, "ten", 9) == CEDAR_STORE_DEVICE && errno == EIO && end() && cedar_store_failed(&s));
        CHECK(update(&s, "a", 1) == CEDAR_STORE_FAILED && cedar_store_sync(&s) == CEDAR_STORE_FAILED);
        CHECK(cedar_store_records(&s) == SOME_RECORDS);
        CHECK(cedar_store_compact(&s) == CEDAR_OK && !cedar_store_failed(&s) && at(&s, "ten") == 9 && cedar_store_records(&s) == 1);
        CHECK(update(&s, "b", 2) == CEDAR_OK && cedar_store_records(&s) == 2);
        cedar_store_close(&s);
        CHECK(cedar_store_open(&s, path) == CEDAR_OK && count(&s) == 4 && at(&s, "ten") == 9 && at(&s, "b") == 2);
        cedar_store_close(&s);
    }
}

/* A call fails in a compaction: the store is as it was, or it has failed and the file has all. */
static bool check_fault(long step, bool has_failed) {
    cedar_store s = CEDAR_STORE_CLOSED;
    open_some(&s);
    if (has_failed) {
        begin(FAILS, 3);
        CHECK(update(&s, "net", 7) == CEDAR_STORE_DEVICE && end());
    }
    size_t length = size_of(path);
    begin(FAILS, step);
    uint32_t status = cedar_store_compact(&s);
    int cause = errno;
    bool came = end(), is_named = strchr(calls, 'r') != NULL;
    CHECK(has_some(&s) && cedar_store_last_compaction(&s) == status && !is_there(beside));
    if (status == CEDAR_STORE_DEVICE) {
        CHECK(came && cause == EIO && is_named && cedar_store_failed(&s));
        CHECK(update(&s, "a", 1) == CEDAR_STORE_FAILED && cedar_store_compact(&s) == CEDAR_STORE_FAILED && count(&s) == 2);
    } else if (status == CEDAR_STORE_KEPT) {
        CHECK(came && cause == EIO && !is_named && cedar_store_failed(&s) == has_failed && size_of(path) == length);
        CHECK(cedar_store_records(&s) == SOME_RECORDS);
        CHECK(cedar_store_compact(&s) == CEDAR_OK && !cedar_store_failed(&s));
    } else {
        CHECK(!came && status == CEDAR_OK && !cedar_store_failed(&s) && cedar_store_records(&s) == 1);
    }
    if (status != CEDAR_STORE_DEVICE) CHECK(update(&s, "net", 7) == CEDAR_OK);
    CHECK(cedar_store_open(&s, path) == CEDAR_OK && has_some(&s));
    cedar_store_close(&s);
    return came;
}

static bool check_memory(long step) {
    cedar_store s = CEDAR_STORE_CLOSED;
    open_some(&s);
    size_t length = size_of(path);
    begin(LACKS_MEMORY, step);
    uint32_t status = cedar_store_compact(&s);
    int cause = errno;
    bool came = end();
    CHECK(status == CEDAR_OK || (came && (status == CEDAR_MEMORY || (status == CEDAR_STORE_KEPT && cause == ENOMEM))));
    CHECK(has_some(&s) && !is_there(beside) && !cedar_store_failed(&s) && (status == CEDAR_OK) == (size_of(path) < length));
    CHECK(update(&s, "net", 7) == CEDAR_OK && cedar_store_open(&s, path) == CEDAR_OK && has_some(&s));
    cedar_store_close(&s);
    return came;
}

/* The process ends in the course of a compaction: the file has all, and what is left beside it is removed by the next opening. */
static bool check_end(long step, bool *was_left) {
    cedar_store s = CEDAR_STORE_CLOSED;
    open_some(&s);
    cedar_store_close(&s);
    pid_t child = fork();
    CHECK(child >= 0);
    if (child == 0) {
        if (cedar_store_open(&s, path) != CEDAR_OK) _exit(1);
        begin(ENDS_THE_PROCESS, step);
        _exit(cedar_store_compact(&s) == CEDAR_OK ? 0 : 1);
    }
    int how;
    CHECK(waitpid(child, &how, 0) == child && WIFEXITED(how) && (WEXITSTATUS(how) == 0 || WEXITSTATUS(how) == 7));
    *was_left = *was_left || is_there(beside);
    CHECK(cedar_store_open_to_read(&s, path) == CEDAR_OK && has_some(&s));
    CHECK(cedar_store_open(&s, path) == CEDAR_OK && has_some(&s) && !is_there(beside) && cedar_store_compact(&s) == CEDAR_OK);
    cedar_store_close(&s);
    return WEXITSTATUS(how) == 7;
}

/* What is beside the file, and at its path. */
static void check_names(const char *folder) {
    cedar_store s = CEDAR_STORE_CLOSED;
    char other[4200], long_path[4600];
    CHECK(snprintf(other, sizeof other, "%s/other", folder) > 0);
    open_some(&s);
    CHECK(symlink(path, beside) == 0 && cedar_store_compact(&s) == CEDAR_STORE_KEPT && errno == EEXIST && is_there(beside));
    CHECK(cedar_store_open(&s, path) == CEDAR_OK && is_there(beside) && has_some(&s) && unlink(beside) == 0);
    /* A store that is opened by a link is replaced where the link leads to. */
    CHECK(symlink(path, other) == 0 && cedar_store_open(&s, other) == CEDAR_OK && cedar_store_compact(&s) == CEDAR_OK);
    struct stat found;
    CHECK(lstat(other, &found) == 0 && S_ISLNK(found.st_mode) && size_of(path) == cedar_store_file_len(&s) && unlink(other) == 0);
    /* A file that was moved away isn't put back, nor what has come to its place replaced. */
    CHECK(rename(path, other) == 0 && cedar_store_compact(&s) == CEDAR_STORE_KEPT && errno == ENOENT && !is_there(path));
    CHECK(link(other, path) == 0 && unlink(path) == 0);
    FILE *file = fopen(path, "wb");
    CHECK(file != NULL && fclose(file) == 0 && cedar_store_compact(&s) == CEDAR_STORE_KEPT && errno == ESTALE && size_of(path) == 0);
    CHECK(update(&s, "net", 7) == CEDAR_OK && rename(other, path) == 0 && cedar_store_compact(&s) == CEDAR_OK && has_some(&s));
    cedar_store_close(&s);
    /* A name that has no room for what is put behind it. */
    int length = snprintf(long_path, sizeof long_path, "%s/", folder);
    memset(long_path + length, 'n', 250);
    long_path[length + 250] = '\0';
    CHECK(cedar_store_open(&s, long_path) == CEDAR_OK && update(&s, "net", 7) == CEDAR_OK);
    CHECK(cedar_store_compact(&s) == CEDAR_STORE_KEPT && errno == ENAMETOOLONG && update(&s, "nets", 8) == CEDAR_OK);
    cedar_store_close(&s);
    unlink(long_path);
}

int main(int argument_count, char **arguments) {
    CHECK(argument_count == 2 && snprintf(path, sizeof path, "%s/short.store", arguments[1]) > 0);
    CHECK(snprintf(beside, sizeof beside, "%s.cedar-compaction", path) > 0);
    unlink(beside);
    rmdir(beside);
    for (int is_reduced = 0; is_reduced < 2; is_reduced++) check_short(is_reduced);
    check_long();
    check_by_itself();
    check_failed();
    long step;
    for (int has_failed = 0; has_failed < 2; has_failed++) {
        for (step = 0; step < LAST_STEP && check_fault(step, has_failed); step++) {}
        CHECK(step == 18);
    }
    for (step = 0; step < LAST_STEP && check_memory(step); step++) {}
    CHECK(step > 4 && step < LAST_STEP);
    bool was_left = false;
    for (step = 0; step < LAST_STEP && check_end(step, &was_left); step++) {}
    CHECK(step == 18 && was_left);
    check_names(arguments[1]);
    unlink(path);
    return 0;
}

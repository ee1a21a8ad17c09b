/* Stores: changes that are there when the file is opened again; each byte of a file; files that are refused; each call of the system and each
 * request for memory failing in turn, or ending the process. Argument: a folder to write in. Linked with -Wl,--wrap=.. of the calls below that
 * begin with __wrap_. */
#define _GNU_SOURCE /* mode_t */
#include "cedar.h"
#include "check.h"
#include <errno.h>
#include <fcntl.h>
#include <stdarg.h>
#include <string.h>
#include <sys/stat.h>
#include <sys/wait.h>
#include <unistd.h>

enum { FILE_ROOM = 1 << 20, LAST_STEP = 60, CHANGES = 400, NAMES = 60 };

/* The calls that are counted: the one that is met fails, is interrupted once, does a part and then fails, or is the last one that the
 * process makes, in part. */
enum fault { NONE, FAILS, IS_INTERRUPTED, DOES_A_PART, ENDS_THE_PROCESS };

static enum fault fault = NONE;
static long left;
static char calls[64]; /* the first letter of each call that changes a file or the disk, in their order */

static bool is_met(char letter) {
    size_t count = strlen(calls);
    if (letter != 0 && count + 1 < sizeof calls) calls[count] = letter;
    return fault != NONE && left-- == 0;
}

/* What a call answers that is met: false where it is to be made all the same. */
static bool fails(char letter) {
    if (!is_met(letter)) return false;
    if (fault == ENDS_THE_PROCESS) _exit(7);
    errno = fault == IS_INTERRUPTED ? EINTR : EIO;
    return true;
}

int __real_open(const char *path, int flags, mode_t mode);
ssize_t __real_read(int file, void *bytes, size_t length);
ssize_t __real_pwrite(int file, const void *bytes, size_t length, off_t at);
int __real_ftruncate(int file, off_t length);
int __real_flock(int file, int how);
int __real_fsync(int file);
int __real_fdatasync(int file);
void *__real_malloc(size_t size);
void *__real_calloc(size_t count, size_t size);
void *__real_realloc(void *block, size_t size);

int __wrap_open(const char *path, int flags, ...) {
    va_list mode;
    va_start(mode, flags);
    int file = fails(0) ? -1 : __real_open(path, flags, va_arg(mode, mode_t));
    va_end(mode);
    return file;
}
ssize_t __wrap_read(int file, void *bytes, size_t length) { return fails(0) ? -1 : __real_read(file, bytes, length); }
ssize_t __wrap_pwrite(int file, const void *bytes, size_t length, off_t at) {
    if (!is_met('w')) return __real_pwrite(file, bytes, length, at);
    if (fault == IS_INTERRUPTED) {
        errno = EINTR;
        return -1;
    }
    if (fault != FAILS) __real_pwrite(file, bytes, length / 2, at);
    if (fault == ENDS_THE_PROCESS) _exit(7);
    if (fault == DOES_A_PART) {
        left = length > 1 ? 0 : -1; /* and the rest fails; a call that takes none of one byte has failed by that */
        fault = FAILS;
        return (ssize_t)(length / 2);
    }
    errno = EIO;
    return -1;
}
int __wrap_ftruncate(int file, off_t length) { return fails('c') ? -1 : __real_ftruncate(file, length); }
int __wrap_flock(int file, int how) { return fails('l') ? -1 : __real_flock(file, how); }
int __wrap_fsync(int file) { return fails('S') ? -1 : __real_fsync(file); }
int __wrap_fdatasync(int file) { return fails('s') ? -1 : __real_fdatasync(file); }
static bool lacks(void) {
    if (!is_met(0) || fault == IS_INTERRUPTED) return false;
    if (fault == ENDS_THE_PROCESS) _exit(7);
    return true;
}
void *__wrap_malloc(size_t size) { return lacks() ? NULL : __real_malloc(size); }
void *__wrap_calloc(size_t count, size_t size) { return lacks() ? NULL : __real_calloc(count, size); }
void *__wrap_realloc(void *block, size_t size) { return lacks() ? NULL : __real_realloc(block, size); }

static void begin(enum fault which, long step) {
    memset(calls, 0, sizeof calls);
    fault = which;
    left = step;
}

/* Ends it, and says whether it came. */
static bool end(void) {
    bool came = left < 0;
    fault = NONE;
    return came;
}

static char path[4096];

static const uint8_t *bytes(const char *text) { return (const uint8_t *)text; }

static uint32_t update(cedar_store *s, const char *key, int32_t value) { return cedar_store_update(s, bytes(key), strlen(key), value, NULL); }

static uint32_t erase(cedar_store *s, const char *key) { return cedar_store_erase(s, bytes(key), strlen(key), NULL); }

/* The value at a key, or -1. */
static int32_t at(const cedar_store *s, const char *key) {
    int32_t value = -1;
    cedar_get(cedar_store_dictionary(s), bytes(key), strlen(key), &value);
    return value;
}

static size_t count(const cedar_store *s) { return cedar_len(cedar_store_dictionary(s)); }

/* Opens it again: the file's records are as many as were told. */
static void open_again(cedar_store *s, bool is_reduced) {
    CHECK(cedar_store_sync(s) == CEDAR_OK);
    size_t records = cedar_store_records(s);
    CHECK((is_reduced ? cedar_store_open_reduced : cedar_store_open)(s, path) == CEDAR_OK && cedar_store_records(s) == records);
}

static void write_file(const void *data, size_t length) {
    FILE *file = fopen(path, "wb");
    CHECK(file != NULL && fwrite(data, 1, length, file) == length && fclose(file) == 0);
}

static size_t read_file(uint8_t *data) {
    FILE *file = fopen(path, "rb");
    CHECK(file != NULL);
    size_t length = fread(data, 1, FILE_ROOM, file);
    fclose(file);
    return length;
}

static void open_new(cedar_store *s, bool is_reduced) {
    unlink(path);
    CHECK((is_reduced ? cedar_store_open_reduced : cedar_store_open)(s, path) == CEDAR_OK);
}

static void check_errors(void) {
    cedar_store s = CEDAR_STORE_CLOSED;
    size_t position = 99;
    bool held = true;
    CHECK(update(&s, "net", 7) == CEDAR_IS_CLOSED && erase(&s, "net") == CEDAR_IS_CLOSED && !cedar_store_failed(&s));
    CHECK(count(&s) == 0 && at(&s, "net") == -1 && cedar_store_records(&s) == 0);
    cedar_store_close(&s);
    open_new(&s, false);
    CHECK(update(&s, "", 7) == CEDAR_EMPTY_KEY && update(&s, "net", -1) == CEDAR_INVALID_VALUE);
    CHECK(cedar_store_update(&s, bytes("ne\0t"), 4, 7, &position) == CEDAR_NUL_BYTE && position == 2);
    CHECK(cedar_store_update(&s, bytes("ne\0t"), 4, -1, NULL) == CEDAR_NUL_BYTE);
    CHECK(cedar_store_erase(&s, bytes("ne\0t"), 4, &held) == CEDAR_OK && !held);
    CHECK(cedar_store_erase(&s, bytes(""), 0, NULL) == CEDAR_OK && count(&s) == 0 && cedar_store_records(&s) == 0);
    cedar_store_close(&s);
    CHECK(update(&s, "net", 7) == CEDAR_IS_CLOSED);
    cedar_store_close(&s);
}

/* The header of a file of version 1, and a closed gate. */
static const uint8_t PLAIN[] = "\1\x08\0\0\0CEDARJ\0\0";

/* A new store, or one whose file is of version 1. */
static void open_version(cedar_store *s, bool is_reduced, bool is_plain) {
    open_new(s, is_reduced);
    if (!is_plain) return;
    write_file(PLAIN, sizeof PLAIN);
    CHECK((is_reduced ? cedar_store_open_reduced : cedar_store_open)(s, path) == CEDAR_OK);
}

static void check_found(const uint8_t *wanted, size_t length) {
    static uint8_t found[FILE_ROOM];
    CHECK(read_file(found) == length && memcmp(found, wanted, length) == 0);
}

/* What is told of a change, and each byte of the file that it makes: docs/STORE.md. */
static void check_bytes(bool is_reduced, bool is_plain) {
    static const uint8_t wanted[] = "\1\x08\0\0\0CEDARJ\2\xfd"
                                    "\xff\x22\3\xac\x55\x08\0\0\0\1\7\0\0\0net"
                                    "\xff\x96\xb6\x2e\x8e\x08\0\0\0\1\xfd\xff\xff\x7fnet"
                                    "\xff\x47\x9c\x42\x09\4\0\0\0\0net"; /* and the closed gate, which ends the text */
    static const uint8_t plain[] = "\1\x08\0\0\0CEDARJ\0\0"
                                   "\1\x08\0\0\0\1\7\0\0\0net"
                                   "\1\x08\0\0\0\1\xfd\xff\xff\x7fnet"
                                   "\1\4\0\0\0\0net";
    cedar_store s = CEDAR_STORE_CLOSED;
    bool held = true;
    int32_t before = 5;
    open_version(&s, is_reduced, is_plain);
    CHECK(cedar_is_reduced(cedar_store_dictionary(&s)) == is_reduced);
    CHECK(cedar_store_insert(&s, bytes("net"), 3, 7, &held, &before, NULL) == CEDAR_OK && !held && before == 5);
    CHECK(cedar_store_insert(&s, bytes("net"), 3, CEDAR_MAX_VALUE, &held, &before, NULL) == CEDAR_OK && held && before == 7);
    CHECK(at(&s, "net") == CEDAR_MAX_VALUE && count(&s) == 1);
    CHECK(erase(&s, "ne") == CEDAR_OK && cedar_store_erase(&s, bytes("net"), 3, &held) == CEDAR_OK && held && count(&s) == 0);
    check_found(is_plain ? plain : wanted, is_plain ? sizeof plain : sizeof wanted);
    CHECK(cedar_store_records(&s) == 3);
    open_again(&s, is_reduced);
    cedar_store_close(&s);
}

/* Each bit of a small file of version 2, turned: the file is refused, and nothing is written to it, or it has the same keys. */
static void check_bits(bool is_group) {
    static uint8_t whole[FILE_ROOM];
    cedar_store s = CEDAR_STORE_CLOSED;
    open_new(&s, false);
    if (is_group) CHECK(cedar_store_sync_every(&s, 0) == CEDAR_OK);
    CHECK(update(&s, "net", 7) == CEDAR_OK && update(&s, "nets", 8) == CEDAR_OK && erase(&s, "net") == CEDAR_OK);
    cedar_store_close(&s);
    size_t length = read_file(whole), refused = 0;
    for (size_t bit = 0; bit < 8 * length; bit++) {
        whole[bit / 8] ^= (uint8_t)(1 << bit % 8);
        write_file(whole, length);
        uint32_t status = cedar_store_open(&s, path);
        CHECK(status == CEDAR_OK || status == CEDAR_STORE_FOREIGN || status == CEDAR_STORE_DAMAGED);
        CHECK(cedar_store_damaged_at(&s) <= bit / 8 && (cedar_store_damaged_at(&s) >= sizeof PLAIN - 1) == (status == CEDAR_STORE_DAMAGED));
        if (status == CEDAR_OK) CHECK(count(&s) == 1 && at(&s, "nets") == 8);
        else check_found(whole, length);
        refused += status != CEDAR_OK;
        cedar_store_close(&s);
        whole[bit / 8] ^= (uint8_t)(1 << bit % 8);
    }
    CHECK(refused > 7 * length);
}

/* A store goes on where it was, also in the other layout. */
static void check_again(void) {
    cedar_store s = CEDAR_STORE_CLOSED;
    open_new(&s, false);
    CHECK(update(&s, "net", 7) == CEDAR_OK && update(&s, "nets", 8) == CEDAR_OK && erase(&s, "net") == CEDAR_OK);
    CHECK(cedar_store_open_reduced(&s, path) == CEDAR_OK && cedar_is_reduced(cedar_store_dictionary(&s)));
    CHECK(count(&s) == 1 && at(&s, "nets") == 8);
    CHECK(update(&s, "ten", 9) == CEDAR_OK);
    cedar_store_close(&s);
    CHECK(cedar_store_open(&s, path) == CEDAR_OK && count(&s) == 2 && at(&s, "ten") == 9);
    cedar_store_close(&s);
}

static void check_refused(const void *data, size_t length, uint32_t status) {
    static uint8_t found[FILE_ROOM];
    cedar_store s = CEDAR_STORE_CLOSED, open = CEDAR_STORE_CLOSED;
    write_file(data, length);
    CHECK(cedar_store_open(&s, path) == status && s.file == NULL && count(&s) == 0);
    CHECK(read_file(found) == length && memcmp(found, data, length) == 0);
    /* One that was open is closed. */
    unlink(path);
    CHECK(cedar_store_open(&open, path) == CEDAR_OK && update(&open, "net", 7) == CEDAR_OK);
    unlink(path);
    write_file(data, length);
    CHECK(cedar_store_open(&open, path) == status && open.file == NULL && at(&open, "net") == -1 && update(&open, "net", 8) == CEDAR_IS_CLOSED);
}

static void check_files(const char *folder) {
    cedar_store s = CEDAR_STORE_CLOSED;
    char other[4096];
    check_refused("no store at all", 15, CEDAR_STORE_FOREIGN);
    check_refused("\1\3\0\0\0abc", 8, CEDAR_STORE_FOREIGN);
    check_refused("\1\x08\0\0\0CEDARJ\0\0\1\1\0\0\0\7", 19, CEDAR_STORE_CORRUPT);
    check_refused("\1\x08\0\0\0CEDARJ\0\0\1\x05\0\0\0\1\1\0\0\0", 23, CEDAR_STORE_CORRUPT);
    check_refused("\1\x08\0\0\0CEDARJ\0\0\1\x06\0\0\0\1\xff\xff\xff\xff.", 24, CEDAR_STORE_CORRUPT);
    check_refused("\1\x08\0\0\0CEDARJ\2\xfd\xff\x47\x9c\x42\x09\4\0\0\0\0nit", 26, CEDAR_STORE_DAMAGED);
    check_refused("\1\x08\0\0\0CEDARJ\2\xfd\xff\x47\x9c\x42\x09\4\0\0\0\0ne", 25, CEDAR_STORE_DAMAGED);
    CHECK(cedar_store_open(&s, path) == CEDAR_STORE_DAMAGED && cedar_store_damaged_at(&s) == 13);
    write_file("\1\x08\0\0\0CEDARJ\2\xfd\xff\x47\x9c\x42\x09\4\0\0\0\0net\xff\x22", 28);
    CHECK(cedar_store_open(&s, path) == CEDAR_STORE_DAMAGED && cedar_store_damaged_at(&s) == 26);
    /* What a crash may leave. */
    write_file("\0", 1);
    CHECK(cedar_store_open(&s, path) == CEDAR_OK && count(&s) == 0 && update(&s, "net", 7) == CEDAR_OK);
    write_file("\1\x08\0\0\0CEDARJ\0\0\1\x06\0\0\0\1\7\0\0\0.\1\x06\0\0", 28);
    CHECK(cedar_store_open(&s, path) == CEDAR_OK && count(&s) == 1 && at(&s, ".") == 7 && cedar_store_records(&s) == 1);
    CHECK(update(&s, "net", 8) == CEDAR_OK && cedar_store_records(&s) == 2);
    CHECK(cedar_store_open(&s, path) == CEDAR_OK && count(&s) == 2 && at(&s, "net") == 8 && cedar_store_records(&s) == 2);
    cedar_store_close(&s);
    /* Paths. */
    errno = 0;
    CHECK(cedar_store_open(&s, folder) == CEDAR_STORE_DEVICE && errno == EISDIR);
    CHECK(cedar_store_open(&s, "/dev/null") == CEDAR_STORE_DEVICE && errno == EINVAL);
    CHECK(snprintf(other, sizeof other, "%s/missing/file", folder) > 0);
    CHECK(cedar_store_open(&s, other) == CEDAR_STORE_DEVICE && errno == ENOENT);
    CHECK(snprintf(other, sizeof other, "%s/link.store", folder) > 0);
    unlink(other);
    CHECK(symlink(path, other) == 0 && cedar_store_open(&s, other) == CEDAR_OK && count(&s) == 2);
    CHECK(update(&s, "ten", 9) == CEDAR_OK && cedar_store_open(&s, path) == CEDAR_OK && at(&s, "ten") == 9);
    cedar_store_close(&s);
    unlink(other);
}

/* Changes of few keys, beside a list of what they hold. The file is opened again now and then. */
static void check_runs(bool is_reduced) {
    cedar_store s = CEDAR_STORE_CLOSED;
    int32_t held[NAMES], before;
    bool was;
    for (int i = 0; i < NAMES; i++) held[i] = -1;
    open_new(&s, is_reduced);
    for (int i = 0; i < CHANGES; i++) {
        int name = (int)(next_random() % NAMES);
        uint8_t key[2] = {(uint8_t)(1 + name % 7), (uint8_t)(200 + name / 7)};
        size_t length = name < 7 ? 1 : 2;
        if (next_random() % 3 != 0) {
            int32_t value = (int32_t)(next_random() % 1000);
            CHECK(cedar_store_insert(&s, key, length, value, &was, &before, NULL) == CEDAR_OK && was == (held[name] >= 0));
            CHECK(!was || before == held[name]);
            held[name] = value;
        } else {
            CHECK(cedar_store_erase(&s, key, length, &was) == CEDAR_OK && was == (held[name] >= 0));
            held[name] = -1;
        }
        if (next_random() % 20 == 0) CHECK(cedar_store_sync_every(&s, next_random() % 5) == CEDAR_OK && cedar_store_waiting(&s) == 0);
        if (next_random() % 40 != 0) continue;
        open_again(&s, next_random() % 2 == 0);
    }
    open_again(&s, false);
    size_t keys = 0;
    for (int name = 0; name < NAMES; name++) {
        uint8_t key[2] = {(uint8_t)(1 + name % 7), (uint8_t)(200 + name / 7)};
        int32_t value = -1;
        cedar_get(cedar_store_dictionary(&s), key, name < 7 ? 1 : 2, &value);
        CHECK(value == held[name]);
        keys += value >= 0;
    }
    CHECK(count(&s) == keys);
    cedar_store_close(&s);
}

/* Which calls a change makes, and an opening: one of a file at rest writes and cuts nothing. */
static void check_calls(void) {
    cedar_store s = CEDAR_STORE_CLOSED;
    unlink(path);
    begin(NONE, 0);
    CHECK(cedar_store_open(&s, path) == CEDAR_OK && strcmp(calls, "lSScswswsws") == 0);
    begin(NONE, 0);
    CHECK(update(&s, "net", 7) == CEDAR_OK && strcmp(calls, "wsws") == 0);
    begin(NONE, 0);
    CHECK(erase(&s, "ten") == CEDAR_OK && strcmp(calls, "") == 0 && erase(&s, "net") == CEDAR_OK && strcmp(calls, "wsws") == 0);
    begin(NONE, 0);
    CHECK(cedar_store_open(&s, path) == CEDAR_OK && strcmp(calls, "lSS") == 0);
    cedar_store_close(&s);
    write_file("\1\x08\0\0\0CEDARJ\0\0\1\x08\0\0\0\1\7\0\0\0net\0\x06\0\0", 30);
    begin(NONE, 0);
    CHECK(cedar_store_open(&s, path) == CEDAR_OK && strcmp(calls, "lSScsws") == 0);
    cedar_store_close(&s);
}

/* Changes that go to the disk together: which calls they make, what waits, and each byte of the file. Their own records have no sums. */
static void check_group(bool is_reduced, bool is_plain) {
    static const uint8_t wanted[] = "\1\x08\0\0\0CEDARJ\2\xfd"
                                    "\xff\x85\x86\x3f\x8f\x24\0\0\0\2\1\x08\0\0\0\1\7\0\0\0net"
                                    "\1\x08\0\0\0\1\xfd\xff\xff\x7fnet"
                                    "\1\4\0\0\0\0net"; /* and the closed gate, which ends the text */
    static const uint8_t plain[] = "\1\x08\0\0\0CEDARJ\0\0"
                                   "\1\x24\0\0\0\2\1\x08\0\0\0\1\7\0\0\0net"
                                   "\1\x08\0\0\0\1\xfd\xff\xff\x7fnet"
                                   "\1\4\0\0\0\0net";
    cedar_store s = CEDAR_STORE_CLOSED;
    bool held = true;
    CHECK(cedar_store_sync(&s) == CEDAR_IS_CLOSED && cedar_store_sync_every(&s, 3) == CEDAR_IS_CLOSED && cedar_store_waiting(&s) == 0);
    open_version(&s, is_reduced, is_plain);
    CHECK(cedar_store_sync_every(&s, 3) == CEDAR_OK);
    begin(NONE, 0);
    CHECK(update(&s, "net", 7) == CEDAR_OK && update(&s, "", 7) == CEDAR_EMPTY_KEY && erase(&s, "ten") == CEDAR_OK);
    CHECK(cedar_store_waiting(&s) == 1 && at(&s, "net") == 7);
    CHECK(update(&s, "net", CEDAR_MAX_VALUE) == CEDAR_OK && cedar_store_waiting(&s) == 2 && strcmp(calls, "") == 0);
    CHECK(cedar_store_erase(&s, bytes("net"), 3, &held) == CEDAR_OK && held && cedar_store_waiting(&s) == 0 && strcmp(calls, "wsws") == 0);
    check_found(is_plain ? plain : wanted, is_plain ? sizeof plain : sizeof wanted);
    begin(NONE, 0);
    CHECK(cedar_store_sync(&s) == CEDAR_OK && strcmp(calls, "") == 0);
    CHECK(update(&s, "net", 8) == CEDAR_OK && cedar_store_records(&s) == 1);
    CHECK(cedar_store_sync(&s) == CEDAR_OK && strcmp(calls, "wsws") == 0 && cedar_store_records(&s) == 2);
    /* Any number of them, until they are put on the disk: here by the one setting and the other, and by closing. */
    CHECK(cedar_store_sync_every(&s, 0) == CEDAR_OK);
    for (uint8_t i = 1; i < 200; i++) CHECK(cedar_store_update(&s, &i, 1, i, NULL) == CEDAR_OK);
    CHECK(cedar_store_waiting(&s) == 199 && cedar_store_records(&s) == 2);
    CHECK(cedar_store_sync_every(&s, 0) == CEDAR_OK && cedar_store_waiting(&s) == 0 && cedar_store_records(&s) == 3);
    CHECK(update(&s, "nets", 9) == CEDAR_OK && cedar_store_sync_every(&s, 1) == CEDAR_OK && cedar_store_waiting(&s) == 0);
    begin(NONE, 0);
    CHECK(update(&s, "nets", 10) == CEDAR_OK && strcmp(calls, "wsws") == 0);
    CHECK(cedar_store_sync_every(&s, 9) == CEDAR_OK && update(&s, "nets", 11) == CEDAR_OK && cedar_store_waiting(&s) == 1);
    cedar_store_close(&s);
    CHECK(cedar_store_open(&s, path) == CEDAR_OK && count(&s) == 201 && at(&s, "net") == 8 && at(&s, "nets") == 11 && at(&s, "\xc7") == 199);
    CHECK(cedar_store_records(&s) == 6);
    cedar_store_close(&s);
}

/* Three changes that go to the disk together, in whose course a call is met; or the process ends there. */
static bool check_group_change(enum fault which, long step) {
    cedar_store s = CEDAR_STORE_CLOSED;
    open_new(&s, false);
    CHECK(update(&s, "net", 7) == CEDAR_OK);
    cedar_store_close(&s);
    pid_t child = which == ENDS_THE_PROCESS ? fork() : 0;
    CHECK(child >= 0);
    uint32_t status = CEDAR_STORE_DEVICE;
    bool came = true, all = true;
    if (child == 0) {
        CHECK(cedar_store_open(&s, path) == CEDAR_OK && cedar_store_sync_every(&s, 0) == CEDAR_OK);
        begin(which, step);
        all = update(&s, "a", 1) == CEDAR_OK && erase(&s, "net") == CEDAR_OK && update(&s, "ab", 2) == CEDAR_OK;
        status = cedar_store_sync(&s);
        if (which == ENDS_THE_PROCESS) _exit(all && status == CEDAR_OK ? 0 : 1);
        came = end();
        CHECK(status == CEDAR_OK || (status == CEDAR_STORE_DEVICE && came && errno == EIO && cedar_store_failed(&s)));
        CHECK(which != IS_INTERRUPTED || (all && status == CEDAR_OK));
        CHECK(all || !cedar_store_failed(&s));
        if (status != CEDAR_OK) CHECK(update(&s, "b", 3) == CEDAR_STORE_FAILED && cedar_store_sync(&s) == CEDAR_STORE_FAILED && cedar_store_waiting(&s) == 0);
    } else {
        int how;
        CHECK(waitpid(child, &how, 0) == child && WIFEXITED(how));
        CHECK(WEXITSTATUS(how) == 0 || WEXITSTATUS(how) == 7);
        came = WEXITSTATUS(how) == 7;
        if (!came) status = CEDAR_OK;
    }
    cedar_store_close(&s);
    CHECK(cedar_store_open(&s, path) == CEDAR_OK);
    if (all) {
        bool has_them = at(&s, "a") == 1 && at(&s, "ab") == 2 && at(&s, "net") == -1 && count(&s) == 2;
        CHECK(has_them || (status != CEDAR_OK && at(&s, "net") == 7 && count(&s) == 1));
    }
    cedar_store_close(&s);
    return came;
}

/* The file stands for the keys from before a change or for those from behind it. */
static void check_either(uint32_t status, bool is_erasure, size_t keys) {
    cedar_store s = CEDAR_STORE_CLOSED;
    CHECK(cedar_store_open(&s, path) == CEDAR_OK && at(&s, "net") == 7);
    int32_t value = at(&s, "nets");
    CHECK(is_erasure ? value == 8 || value == -1 : value == 8 || value == 9);
    CHECK(status != CEDAR_OK || value == (is_erasure ? -1 : 9));
    CHECK(count(&s) == keys - (value == -1));
    cedar_store_close(&s);
}

/* A change in whose course a call is met. */
static bool check_change(enum fault which, long step, bool is_erasure) {
    cedar_store s = CEDAR_STORE_CLOSED;
    open_new(&s, false);
    CHECK(update(&s, "net", 7) == CEDAR_OK && update(&s, "nets", 8) == CEDAR_OK);
    begin(which, step);
    uint32_t status = is_erasure ? erase(&s, "nets") : update(&s, "nets", 9);
    bool came = end();
    CHECK(cedar_store_records(&s) == (status == CEDAR_OK ? 3 : 2));
    if (status == CEDAR_STORE_DEVICE) {
        CHECK(came && errno == EIO && cedar_store_failed(&s));
        CHECK(at(&s, "nets") == (is_erasure ? -1 : 9)); /* the dictionary has the change */
        CHECK(update(&s, "ten", 9) == CEDAR_STORE_FAILED && erase(&s, "net") == CEDAR_STORE_FAILED && at(&s, "net") == 7);
    } else if (status == CEDAR_MEMORY) {
        CHECK(came && !cedar_store_failed(&s) && at(&s, "nets") == 8 && update(&s, "nets", 8) == CEDAR_OK);
    } else {
        CHECK(status == CEDAR_OK && !cedar_store_failed(&s));
    }
    CHECK(which != IS_INTERRUPTED || status == CEDAR_OK);
    cedar_store_close(&s);
    check_either(status, is_erasure, 2);
    return came;
}

static bool check_opening(enum fault which, long step, bool is_new) {
    cedar_store s = CEDAR_STORE_CLOSED;
    if (is_new) unlink(path);
    else write_file("\1\x08\0\0\0CEDARJ\0\0\1\x08\0\0\0\1\7\0\0\0net\1\x06\0\0", 30);
    begin(which, step);
    uint32_t status = cedar_store_open(&s, path);
    bool came = end();
    CHECK(status == CEDAR_OK || (came && s.file == NULL && (status == CEDAR_MEMORY || (status == CEDAR_STORE_DEVICE && errno == EIO))));
    CHECK(which != IS_INTERRUPTED || status == CEDAR_OK);
    cedar_store_close(&s);
    CHECK(cedar_store_open(&s, path) == CEDAR_OK && count(&s) == (is_new ? 0 : 1) && at(&s, "net") == (is_new ? -1 : 7));
    cedar_store_close(&s);
    return came;
}

/* A process that ends in the course of an opening or a change. */
static bool check_end(long step, bool is_erasure) {
    cedar_store s = CEDAR_STORE_CLOSED;
    open_new(&s, false);
    CHECK(update(&s, "net", 7) == CEDAR_OK && update(&s, "nets", 8) == CEDAR_OK);
    cedar_store_close(&s);
    pid_t child = fork();
    CHECK(child >= 0);
    if (child == 0) {
        begin(ENDS_THE_PROCESS, step);
        if (cedar_store_open(&s, path) != CEDAR_OK) _exit(1);
        if ((is_erasure ? erase(&s, "nets") : update(&s, "nets", 9)) != CEDAR_OK) _exit(1);
        _exit(0);
    }
    int how;
    CHECK(waitpid(child, &how, 0) == child && WIFEXITED(how));
    CHECK(WEXITSTATUS(how) == 0 || WEXITSTATUS(how) == 7);
    check_either(WEXITSTATUS(how) == 0 ? CEDAR_OK : CEDAR_STORE_DEVICE, is_erasure, 2);
    return WEXITSTATUS(how) == 7;
}

int main(int argument_count, char **arguments) {
    CHECK(argument_count == 2 && snprintf(path, sizeof path, "%s/test.store", arguments[1]) > 0);
    check_errors();
    for (int kind = 0; kind < 4; kind++) check_bytes(kind % 2, kind / 2);
    for (int is_group = 0; is_group < 2; is_group++) check_bits(is_group);
    check_again();
    check_files(arguments[1]);
    for (int is_reduced = 0; is_reduced < 2; is_reduced++) check_runs(is_reduced);
    check_calls();
    for (int kind = 0; kind < 4; kind++) check_group(kind % 2, kind / 2);
    for (enum fault which = FAILS; which <= ENDS_THE_PROCESS; which++) {
        long step = 0;
        while (step < LAST_STEP && check_group_change(which, step)) step++;
        CHECK(step > 4 && step < LAST_STEP);
    }
    for (enum fault which = FAILS; which <= DOES_A_PART; which++) {
        for (int which_one = 0; which_one < 2; which_one++) {
            long step = 0;
            while (step < LAST_STEP && check_change(which, step, which_one)) step++;
            CHECK(step > 4 && step < LAST_STEP);
            for (step = 0; step < LAST_STEP && check_opening(which, step, which_one); step++) {}
            CHECK(step > 8 && step < LAST_STEP);
        }
    }
    for (int is_erasure = 0; is_erasure < 2; is_erasure++) {
        long step = 0;
        while (step < LAST_STEP && check_end(step, is_erasure)) step++;
        CHECK(step > 12 && step < LAST_STEP);
    }
    unlink(path);
    return 0;
}

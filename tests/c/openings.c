/* Stores that more than one opens: by two variables, by two processes, by a forked child, to read beside a writer; and what is at the path:
 * nothing, a file that is replaced or removed before it is locked, a link, a pipe. Argument: a folder to write in. Linked with
 * -Wl,--wrap=.. of the calls below that begin with __wrap_. */
#define _GNU_SOURCE /* mode_t */
#include "cedar.h"
#include "check.h"
#include <errno.h>
#include <fcntl.h>
#include <stdarg.h>
#include <string.h>
#include <sys/stat.h>
#include <sys/wait.h>
#include <unistd.h>

enum { FILE_ROOM = 1 << 16, ROUNDS = 40, WRITERS = 4, EACH_WRITES = 25, PAIRS = 300, MANY_TIMES = 1000, COUNTS = 10000 };

static char path[4096], other[4096];

/* What happens to the path before a file is locked, so many times. */
static enum { NOTHING, IS_REPLACED, IS_REMOVED, IS_WRITTEN, HAS_NO_LOCKS } event = NOTHING;
static int times;

static size_t writes;     /* how many calls have written, cut or synced */
static size_t changes;    /* how many have written or cut */
static int opened_flags;  /* those of the last opening of a file */

int __real_open(const char *name, int flags, mode_t mode);
int __real_flock(int file, int how);
ssize_t __real_pwrite(int file, const void *bytes, size_t length, off_t at);
int __real_ftruncate(int file, off_t length);
int __real_fsync(int file);
int __real_fdatasync(int file);

int __wrap_open(const char *name, int flags, ...) {
    va_list mode;
    va_start(mode, flags);
    if (!(flags & O_DIRECTORY)) opened_flags = flags;
    int file = __real_open(name, flags, va_arg(mode, mode_t));
    va_end(mode);
    return file;
}

/* Somebody else opens the file, writes to it and closes it. */
static void write_theirs(void) {
    cedar_store s = CEDAR_STORE_CLOSED;
    CHECK(cedar_store_open(&s, path) == CEDAR_OK && cedar_store_update(&s, (const uint8_t *)"theirs", 6, 1, NULL) == CEDAR_OK);
    cedar_store_close(&s);
}

int __wrap_flock(int file, int how) {
    if (event == HAS_NO_LOCKS) {
        errno = ENOLCK;
        return -1;
    }
    if (event != NOTHING && times > 0) {
        times--;
        if (event == IS_REMOVED) CHECK(unlink(path) == 0);
        if (event == IS_WRITTEN) write_theirs();
        if (event == IS_REPLACED) {
            CHECK(link(other, path) == -1 && errno == EEXIST && unlink(path) == 0 && link(other, path) == 0);
            /* and the next time by another one */
            char third[4200];
            CHECK(snprintf(third, sizeof third, "%s.3", other) > 0 && rename(other, third) == 0);
            FILE *from = fopen(third, "rb"), *to = fopen(other, "wb");
            CHECK(from != NULL && to != NULL);
            for (int byte; (byte = getc(from)) != EOF;) putc(byte, to);
            fclose(from);
            CHECK(fclose(to) == 0 && unlink(third) == 0);
        }
    }
    return __real_flock(file, how);
}

ssize_t __wrap_pwrite(int file, const void *bytes, size_t length, off_t at) {
    writes++;
    changes++;
    return __real_pwrite(file, bytes, length, at);
}
int __wrap_ftruncate(int file, off_t length) {
    writes++;
    changes++;
    return __real_ftruncate(file, length);
}
int __wrap_fsync(int file) {
    writes++;
    return __real_fsync(file);
}
int __wrap_fdatasync(int file) {
    writes++;
    return __real_fdatasync(file);
}

static const uint8_t *bytes(const char *text) { return (const uint8_t *)text; }

static uint32_t update(cedar_store *s, const char *key, int32_t value) {
    return cedar_store_update(s, bytes(key), strlen(key), value, NULL);
}

static int32_t at(const cedar_store *s, const char *key) {
    int32_t value = -1;
    cedar_get(cedar_store_dictionary(s), bytes(key), strlen(key), &value);
    return value;
}

static size_t count(const cedar_store *s) { return cedar_len(cedar_store_dictionary(s)); }

/* The file's bytes, which are compared. */
static size_t read_file(const char *name, uint8_t *found) {
    FILE *file = fopen(name, "rb");
    CHECK(file != NULL);
    size_t length = fread(found, 1, FILE_ROOM, file);
    fclose(file);
    return length;
}

static bool is_as_before(const char *name, const uint8_t *before, size_t length) {
    static uint8_t now[FILE_ROOM];
    return read_file(name, now) == length && memcmp(now, before, length) == 0;
}

static void open_new(cedar_store *s) {
    cedar_store_close(s);
    unlink(path);
    CHECK(cedar_store_open(s, path) == CEDAR_OK);
}

/* What a child answers, which runs a function. */
static int in_child(int (*run)(void)) {
    int how;
    fflush(NULL);
    pid_t child = fork();
    CHECK(child >= 0);
    if (child == 0) _exit(run());
    CHECK(waitpid(child, &how, 0) == child && WIFEXITED(how));
    return WEXITSTATUS(how);
}

static int open_and_tell(void) {
    cedar_store mine = CEDAR_STORE_CLOSED;
    uint32_t status = cedar_store_open(&mine, path);
    cedar_store_close(&mine);
    return (int)status;
}

/* A second opening writes nothing, in this process and in another one. */
static void check_two(void) {
    static uint8_t before[FILE_ROOM];
    cedar_store one = CEDAR_STORE_CLOSED, two = CEDAR_STORE_CLOSED;
    open_new(&one);
    CHECK(update(&one, "net", 7) == CEDAR_OK);
    size_t length = read_file(path, before);
    writes = 0;
    CHECK(cedar_store_open(&two, path) == CEDAR_STORE_LOCKED && two.file == NULL && writes == 0);
    CHECK(cedar_store_open_reduced(&two, path) == CEDAR_STORE_LOCKED && count(&two) == 0 && writes == 0);
    CHECK(in_child(open_and_tell) == CEDAR_STORE_LOCKED && is_as_before(path, before, length));
    CHECK(update(&one, "nets", 8) == CEDAR_OK);
    cedar_store_close(&one);
    CHECK(in_child(open_and_tell) == CEDAR_OK);
    CHECK(cedar_store_open(&two, path) == CEDAR_OK && count(&two) == 2 && at(&two, "nets") == 8);
    cedar_store_close(&two);
    event = HAS_NO_LOCKS;
    writes = 0;
    CHECK(cedar_store_open(&two, path) == CEDAR_STORE_DEVICE && errno == ENOLCK && writes == 0);
    event = NOTHING;
}

/* The opening of a file at rest writes and cuts nothing: its bytes and its time stay. One that ends in a torn record is mended. */
static void check_at_rest(void) {
    static uint8_t before[FILE_ROOM];
    static const struct timespec long_ago[2] = {{.tv_sec = 1000}, {.tv_sec = 1000}};
    struct stat found;
    cedar_store s = CEDAR_STORE_CLOSED;
    for (int is_torn = 0; is_torn < 2; is_torn++) {
        open_new(&s);
        CHECK(update(&s, "net", 7) == CEDAR_OK);
        cedar_store_close(&s);
        size_t length = read_file(path, before), rest = is_torn ? 4 : 0;
        FILE *file = fopen(path, "ab");
        CHECK(file != NULL && fwrite("rest", 1, rest, file) == rest && fclose(file) == 0);
        CHECK(utimensat(AT_FDCWD, path, long_ago, 0) == 0);
        changes = 0;
        CHECK(cedar_store_open(&s, path) == CEDAR_OK && count(&s) == 1 && (changes != 0) == is_torn && cedar_store_records(&s) == 1);
        CHECK(stat(path, &found) == 0 && (found.st_mtime != 1000) == is_torn && is_as_before(path, before, length));
        CHECK(update(&s, "nets", 8) == CEDAR_OK);
        cedar_store_close(&s);
        CHECK(cedar_store_open_to_read(&s, path) == CEDAR_OK && at(&s, "net") == 7 && at(&s, "nets") == 8);
        cedar_store_close(&s);
    }
}

static cedar_store shared = CEDAR_STORE_CLOSED;

static int change_inherited(void) {
    writes = 0;
    if (cedar_store_update(&shared, bytes("ten"), 3, 9, NULL) != CEDAR_OK) return 1; /* it would wait */
    if (cedar_store_sync(&shared) != CEDAR_STORE_LOCKED || cedar_store_sync_every(&shared, 1) != CEDAR_STORE_LOCKED) return 2;
    if (cedar_store_open(&shared, path) != CEDAR_STORE_LOCKED) return 3;
    cedar_store_close(&shared);
    if (cedar_store_open(&shared, path) != CEDAR_STORE_LOCKED) return 4;
    return writes == 0 ? 0 : 5;
}

static int change_inherited_at_once(void) {
    writes = 0;
    if (cedar_store_update(&shared, bytes("ten"), 3, 9, NULL) != CEDAR_STORE_LOCKED || at(&shared, "ten") != -1) return 1;
    if (cedar_store_erase(&shared, bytes("net"), 3, NULL) != CEDAR_STORE_LOCKED || at(&shared, "net") != 7) return 2;
    cedar_store_close(&shared);
    return writes == 0 ? 0 : 3;
}

/* A forked child writes nothing, what waits in its parent neither, and leaves the parent its lock. */
static void check_inherited(void) {
    cedar_store two = CEDAR_STORE_CLOSED;
    open_new(&shared);
    CHECK(update(&shared, "net", 7) == CEDAR_OK && in_child(change_inherited_at_once) == 0);
    CHECK(cedar_store_sync_every(&shared, 0) == CEDAR_OK && update(&shared, "nets", 8) == CEDAR_OK);
    CHECK(in_child(change_inherited) == 0);
    CHECK(cedar_store_waiting(&shared) == 1 && cedar_store_open(&two, path) == CEDAR_STORE_LOCKED);
    CHECK(cedar_store_sync(&shared) == CEDAR_OK);
    cedar_store_close(&shared);
    CHECK(cedar_store_open(&two, path) == CEDAR_OK && count(&two) == 2 && at(&two, "nets") == 8);
    cedar_store_close(&two);
}

static ino_t inode(void) {
    struct stat found;
    CHECK(stat(path, &found) == 0);
    return found.st_ino;
}

/* Makes a file that a compaction by the rule would make much shorter. */
static void make_due(void) {
    cedar_store s = CEDAR_STORE_CLOSED;
    open_new(&s);
    CHECK(cedar_store_compact_beyond(&s, 0, 0) == CEDAR_OK && cedar_store_sync_every(&s, 0) == CEDAR_OK);
    for (int32_t i = 0; i < COUNTS; i++) CHECK(update(&s, "counter", i) == CEDAR_OK);
    CHECK(cedar_store_sync(&s) == CEDAR_OK && cedar_store_file_len(&s) > COUNTS * 10);
    cedar_store_close(&s);
}

static int sync_inherited(void) {
    writes = 0;
    if (cedar_store_sync(&shared) != CEDAR_OK || cedar_store_last_compaction(&shared) != CEDAR_OK) return 1;
    if (cedar_store_compact(&shared) != CEDAR_STORE_LOCKED || update(&shared, "ten", 9) != CEDAR_STORE_LOCKED) return 2;
    if (cedar_store_sync_every(&shared, 2) != CEDAR_OK || update(&shared, "ten", 9) != CEDAR_OK) return 3; /* it waits */
    if (update(&shared, "tens", 9) != CEDAR_STORE_LOCKED || at(&shared, "tens") != 9 || cedar_store_waiting(&shared) != 2) return 4;
    if (cedar_store_sync(&shared) != CEDAR_STORE_LOCKED || cedar_store_last_compaction(&shared) != CEDAR_OK) return 5;
    cedar_store_close(&shared);
    return writes == 0 ? 0 : 6;
}

/* Where a file is to be made short, neither a reader nor a forked child does it. The parent's next change does. */
static void check_due(void) {
    cedar_store reader = CEDAR_STORE_CLOSED;
    make_due();
    ino_t before = inode();
    CHECK(cedar_store_open_to_read(&reader, path) == CEDAR_OK && cedar_store_open(&shared, path) == CEDAR_OK);
    writes = 0;
    CHECK(cedar_store_sync(&reader) == CEDAR_OK && cedar_store_last_compaction(&reader) == CEDAR_OK);
    cedar_store_close(&reader);
    CHECK(in_child(sync_inherited) == 0 && cedar_store_sync(&shared) == CEDAR_OK && writes == 0 && inode() == before);
    CHECK(update(&shared, "net", 7) == CEDAR_OK && cedar_store_file_len(&shared) < 100 && inode() != before);
    CHECK(cedar_store_last_compaction(&shared) == CEDAR_OK && update(&shared, "nets", 8) == CEDAR_OK);
    CHECK(cedar_store_open(&shared, path) == CEDAR_OK && count(&shared) == 3 && at(&shared, "counter") == COUNTS - 1);
    CHECK(at(&shared, "net") == 7 && at(&shared, "nets") == 8 && at(&shared, "ten") == -1);
    cedar_store_close(&shared);
}

/* A variable that is open is closed first: what waits is on the disk then, and is read again. */
static void check_again(void) {
    cedar_store s = CEDAR_STORE_CLOSED;
    open_new(&s);
    for (int round = 0; round < ROUNDS; round++) {
        char key[8];
        CHECK(snprintf(key, sizeof key, "k%d", round) > 0);
        CHECK(cedar_store_sync_every(&s, 0) == CEDAR_OK && update(&s, key, round) == CEDAR_OK && cedar_store_waiting(&s) == 1);
        CHECK((round % 2 ? cedar_store_open : cedar_store_open_reduced)(&s, path) == CEDAR_OK);
        CHECK(cedar_store_waiting(&s) == 0 && count(&s) == (size_t)round + 1 && at(&s, key) == round);
        CHECK(update(&s, key, round) == CEDAR_OK);
    }
    CHECK(cedar_store_open_with(&s, path, CEDAR_OPEN_NEW) == CEDAR_STORE_DEVICE && errno == EEXIST && s.file == NULL);
    CHECK(cedar_store_open(&s, path) == CEDAR_OK && count(&s) == ROUNDS);
    cedar_store_close(&s);
}

/* A file that is replaced or removed between its opening and its lock isn't the store. */
static void check_replaced(void) {
    cedar_store s = CEDAR_STORE_CLOSED;
    open_new(&s);
    CHECK(update(&s, "new", 1) == CEDAR_OK);
    cedar_store_close(&s);
    CHECK(rename(path, other) == 0);
    open_new(&s);
    CHECK(update(&s, "old", 2) == CEDAR_OK);
    cedar_store_close(&s);
    event = IS_REPLACED;
    times = 3;
    CHECK(cedar_store_open(&s, path) == CEDAR_OK && times == 0 && at(&s, "new") == 1 && at(&s, "old") == -1);
    times = MANY_TIMES;
    CHECK(cedar_store_open(&s, path) == CEDAR_STORE_LOCKED && times < MANY_TIMES);
    event = IS_REMOVED;
    times = 1;
    CHECK(cedar_store_open(&s, path) == CEDAR_OK && times == 0 && count(&s) == 0 && update(&s, "third", 3) == CEDAR_OK);
    cedar_store_close(&s);
    event = NOTHING;
    CHECK(cedar_store_open(&s, path) == CEDAR_OK && at(&s, "third") == 3);
    cedar_store_close(&s);
    event = IS_REMOVED;
    times = 1;
    CHECK(cedar_store_open_with(&s, path, CEDAR_OPEN_EXISTING) == CEDAR_STORE_DEVICE && errno == ENOENT);
    event = NOTHING;
    unlink(other);
}

/* What is opened to read is neither written nor locked, and sees what is on the disk by then. */
static void check_read(void) {
    static uint8_t before[FILE_ROOM];
    cedar_store writer = CEDAR_STORE_CLOSED, reader = CEDAR_STORE_CLOSED;
    open_new(&writer);
    CHECK(update(&writer, "net", 7) == CEDAR_OK);
    CHECK(cedar_store_sync_every(&writer, 0) == CEDAR_OK && update(&writer, "nets", 8) == CEDAR_OK);
    size_t length = read_file(path, before);
    writes = 0;
    CHECK(cedar_store_open_to_read(&reader, path) == CEDAR_OK && count(&reader) == 1 && at(&reader, "net") == 7);
    CHECK((opened_flags & O_ACCMODE) == O_RDONLY && !(opened_flags & O_CREAT) && !cedar_store_failed(&reader));
    CHECK(update(&reader, "x", 1) == CEDAR_STORE_READ_ONLY && cedar_store_erase(&reader, bytes("net"), 3, NULL) == CEDAR_STORE_READ_ONLY);
    CHECK(cedar_store_sync(&reader) == CEDAR_OK && cedar_store_waiting(&reader) == 0 && count(&reader) == 1);
    CHECK(writes == 0 && is_as_before(path, before, length));
    CHECK(cedar_store_sync(&writer) == CEDAR_OK && count(&reader) == 1);
    CHECK(cedar_store_records(&reader) == 1 && cedar_store_records(&writer) == 2);
    CHECK(cedar_store_open_with(&reader, path, CEDAR_OPEN_TO_READ | CEDAR_OPEN_REDUCED) == CEDAR_OK && at(&reader, "nets") == 8);
    CHECK(cedar_is_reduced(cedar_store_dictionary(&reader)) && cedar_store_records(&reader) == 2);
    cedar_store_close(&writer);
    /* A reader keeps nobody from writing. */
    CHECK(chmod(path, 0444) == 0 && cedar_store_open_to_read(&reader, path) == CEDAR_OK && chmod(path, 0644) == 0);
    CHECK(cedar_store_open(&writer, path) == CEDAR_OK && update(&writer, "ten", 9) == CEDAR_OK && at(&reader, "ten") == -1);
    cedar_store_close(&writer);
    cedar_store_close(&reader);
}

/* What a crash has left is read as an opening would leave it, and stays. Refused files are refused. */
static void check_read_files(void) {
    static const struct { const char *data; size_t length; uint32_t status; size_t keys; } files[] = {
        {"", 0, CEDAR_OK, 0},
        {"\0", 1, CEDAR_OK, 0},
        {"\1\x08\0\0\0CEDARJ\0\0\1\x06\0\0\0\1\7\0\0\0.\1\x06\0\0", 28, CEDAR_OK, 1},
        {"no store at all", 15, CEDAR_STORE_FOREIGN, 0},
        {"\1\x08\0\0\0CEDARJ\0\0\1\1\0\0\0\7", 19, CEDAR_STORE_CORRUPT, 0},
    };
    cedar_store s = CEDAR_STORE_CLOSED;
    for (size_t i = 0; i < sizeof files / sizeof *files; i++) {
        FILE *file = fopen(path, "wb");
        CHECK(file != NULL && fwrite(files[i].data, 1, files[i].length, file) == files[i].length && fclose(file) == 0);
        CHECK(cedar_store_open_to_read(&s, path) == files[i].status && count(&s) == files[i].keys && cedar_store_records(&s) == files[i].keys);
        CHECK(is_as_before(path, bytes(files[i].data), files[i].length));
    }
    cedar_store_close(&s);
}

/* What is at a path, and how it is opened. */
static void check_hows(const char *folder) {
    cedar_store s = CEDAR_STORE_CLOSED;
    unlink(path);
    CHECK(cedar_store_open_to_read(&s, path) == CEDAR_STORE_DEVICE && errno == ENOENT && access(path, F_OK) != 0);
    CHECK(cedar_store_open_with(&s, path, CEDAR_OPEN_EXISTING) == CEDAR_STORE_DEVICE && errno == ENOENT && access(path, F_OK) != 0);
    CHECK(symlink(other, path) == 0 && cedar_store_open_with(&s, path, CEDAR_OPEN_NEW) == CEDAR_STORE_DEVICE && errno == EEXIST);
    CHECK(unlink(path) == 0 && cedar_store_open_with(&s, path, CEDAR_OPEN_NEW | CEDAR_OPEN_REDUCED) == CEDAR_OK);
    CHECK(cedar_is_reduced(cedar_store_dictionary(&s)) && update(&s, "net", 7) == CEDAR_OK);
    /* Bits that say nothing leave it as it is. */
    CHECK(cedar_store_open_with(&s, path, 16) == CEDAR_STORE_DEVICE && errno == EINVAL && at(&s, "net") == 7);
    CHECK(cedar_store_open_with(&s, path, CEDAR_OPEN_NEW | CEDAR_OPEN_TO_READ) == CEDAR_STORE_DEVICE && errno == EINVAL);
    CHECK(cedar_store_open_with(&s, path, CEDAR_OPEN_NEW | CEDAR_OPEN_EXISTING) == CEDAR_STORE_DEVICE && errno == EINVAL);
    CHECK(at(&s, "net") == 7);
    CHECK(cedar_store_open_with(&s, path, CEDAR_OPEN_EXISTING) == CEDAR_OK && at(&s, "net") == 7);
    CHECK(cedar_store_open_with(&s, path, CEDAR_OPEN_EXISTING | CEDAR_OPEN_TO_READ) == CEDAR_OK && at(&s, "net") == 7);
    CHECK(cedar_store_open_to_read(&s, folder) == CEDAR_STORE_DEVICE && errno == EISDIR && s.file == NULL);
    /* A pipe isn't waited for. */
    CHECK(unlink(path) == 0 && mkfifo(path, 0600) == 0);
    CHECK(cedar_store_open_to_read(&s, path) == CEDAR_STORE_DEVICE && errno == EINVAL);
    CHECK(cedar_store_open(&s, path) == CEDAR_STORE_DEVICE && errno == EINVAL && unlink(path) == 0);
    /* Somebody else is faster to lock the new file: it is theirs. */
    event = IS_WRITTEN;
    times = 1;
    CHECK(cedar_store_open_with(&s, path, CEDAR_OPEN_NEW) == CEDAR_STORE_DEVICE && errno == EEXIST && times == 0 && s.file == NULL);
    event = NOTHING;
    CHECK(cedar_store_open(&s, path) == CEDAR_OK && count(&s) == 1 && at(&s, "theirs") == 1);
    cedar_store_close(&s);
}

static int writer_number;

/* Opens the store for each of its changes, again and again until it isn't locked. */
static int write_some(void) {
    cedar_store s = CEDAR_STORE_CLOSED;
    for (int i = 0; i < EACH_WRITES; i++) {
        uint32_t status;
        char key[16];
        CHECK(snprintf(key, sizeof key, "%d.%d", writer_number, i) > 0);
        do {
            status = cedar_store_open(&s, path);
            if (status == CEDAR_STORE_LOCKED) usleep(200);
        } while (status == CEDAR_STORE_LOCKED);
        if (status != CEDAR_OK || update(&s, key, i) != CEDAR_OK) return 1;
        cedar_store_close(&s);
        if (cedar_store_open_to_read(&s, path) != CEDAR_OK || at(&s, key) != i) return 2;
        cedar_store_close(&s);
    }
    return 0;
}

/* Several processes change a store at a time: each change that was acknowledged is there. */
static void check_many(void) {
    cedar_store s = CEDAR_STORE_CLOSED;
    pid_t children[WRITERS];
    int how;
    unlink(path);
    for (writer_number = 0; writer_number < WRITERS; writer_number++) {
        children[writer_number] = fork();
        CHECK(children[writer_number] >= 0);
        if (children[writer_number] == 0) _exit(write_some());
    }
    for (int i = 0; i < WRITERS; i++) CHECK(waitpid(children[i], &how, 0) == children[i] && WIFEXITED(how) && WEXITSTATUS(how) == 0);
    CHECK(cedar_store_open(&s, path) == CEDAR_OK && count(&s) == WRITERS * EACH_WRITES);
    cedar_store_close(&s);
}

/* Puts the same numbers at two keys, as one each time, in a file that is made short now and then. */
static int write_pairs(void) {
    cedar_store s = CEDAR_STORE_CLOSED;
    if (cedar_store_open(&s, path) != CEDAR_OK || cedar_store_compact_beyond(&s, 2, 300) != CEDAR_OK) return 1;
    for (int32_t i = 1; i <= PAIRS; i++) {
        cedar_change changes[] = {{bytes("one"), 3, i, false}, {bytes("other"), 5, i, false}};
        if (cedar_store_apply(&s, changes, 2, NULL, NULL) != CEDAR_OK) return 2;
    }
    bool was_compacted = cedar_store_file_len(&s) < PAIRS * 20 && cedar_store_last_compaction(&s) == CEDAR_OK;
    cedar_store_close(&s);
    return was_compacted ? 0 : 3;
}

/* A reader sees each of these as a whole, and none that is older than what it has seen. */
static void check_beside_a_writer(void) {
    cedar_store s = CEDAR_STORE_CLOSED;
    int32_t last = -1;
    int how;
    open_new(&s);
    cedar_store_close(&s);
    pid_t child = fork();
    CHECK(child >= 0);
    if (child == 0) _exit(write_pairs());
    for (pid_t ended = 0; ended == 0;) {
        ended = waitpid(child, &how, WNOHANG);
        CHECK(cedar_store_open_to_read(&s, path) == CEDAR_OK && at(&s, "one") == at(&s, "other") && at(&s, "one") >= last);
        last = at(&s, "one");
    }
    CHECK(WIFEXITED(how) && WEXITSTATUS(how) == 0 && last == PAIRS);
    cedar_store_close(&s);
}

int main(int argument_count, char **arguments) {
    CHECK(argument_count == 2 && snprintf(path, sizeof path, "%s/opened.store", arguments[1]) > 0);
    CHECK(snprintf(other, sizeof other, "%s/opened.other", arguments[1]) > 0);
    unlink(other);
    check_two();
    check_at_rest();
    check_inherited();
    check_due();
    check_again();
    check_replaced();
    check_read();
    check_read_files();
    check_hows(arguments[1]);
    check_many();
    check_beside_a_writer();
    unlink(path);
    return 0;
}

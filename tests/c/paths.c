/* Saves and loads by path: what stands there after each; each call to the system failing in turn, once or from then on, or ending the
 * process; links, pipes and devices. Argument: a folder to write in. Linked with -Wl,--wrap=.. of the calls below that begin with
 * __wrap_. */
#define _GNU_SOURCE /* mode_t, nftw */
#include "cedar.h"
#include "check.h"
#include <errno.h>
#include <fcntl.h>
#include <ftw.h>
#include <stdarg.h>
#include <string.h>
#include <sys/stat.h>
#include <sys/wait.h>
#include <unistd.h>

enum { FILE_ROOM = 1 << 20, FEW_KEYS = 500, MORE_KEYS = 900, LAST_STEP = 200 };

/* The calls to the system: each may fail by an error, alone or with all later ones, be interrupted once, do a part, or be the last one that
 * the process makes. */
enum fault { NONE, FAILS, FAILS_FROM_THEN_ON, IS_INTERRUPTED, DOES_A_PART, ENDS_THE_PROCESS };

static enum fault fault = NONE;
static long left; /* calls until the one that fails */
static char calls[64]; /* the first letter of each call on files that was made, in their order */
static char before[64]; /* those before the first call that failed */
static char failed; /* the letter of that one */
static int owner_error; /* what each call says that gives a file to an owner, or 0 */
static bool finds_a_pipe; /* whether each look at a path finds a pipe */

/* Whether the call that has come is one that is to fail. */
static bool is_due(char letter) {
    if (fault == NONE || fault == DOES_A_PART) return false;
    if (left-- == 0) {
        memcpy(before, calls, sizeof calls);
        failed = letter;
        return true;
    }
    return left < 0 && fault == FAILS_FROM_THEN_ON;
}

/* Whether a call is met. Its letter is 0 where it asks for memory or for what is there; some are tried again after an interruption. */
static bool is_met(char letter, bool is_tried_again) {
    size_t count = strlen(calls);
    if (is_due(letter)) {
        if (fault == ENDS_THE_PROCESS) _exit(7);
        errno = fault == IS_INTERRUPTED ? EINTR : ENOSPC;
        if (fault != IS_INTERRUPTED || is_tried_again) return false;
    }
    if (letter != 0 && count + 1 < sizeof calls) calls[count] = letter;
    return true;
}

static size_t part_of(size_t length) { return fault == DOES_A_PART && length > 1 ? (length + 2) / 3 : length; }

int __real_stat(const char *path, struct stat *found);
int __real_openat(int folder, const char *path, int flags, mode_t mode);
ssize_t __real_read(int file, void *bytes, size_t length);
ssize_t __real_write(int file, const void *bytes, size_t length);
int __real_fsync(int file);
int __real_fchown(int file, uid_t owner, gid_t group);
int __real_fchmod(int file, mode_t mode);
int __real_close(int file);
int __real_renameat(int from_folder, const char *from, int to_folder, const char *to);
int __real_unlinkat(int folder, const char *path, int flags);
void *__real_malloc(size_t size);
void *__real_calloc(size_t count, size_t size);
void *__real_realloc(void *block, size_t size);

int __wrap_stat(const char *path, struct stat *found) {
    if (!is_met(0, false)) return -1;
    if (!finds_a_pipe) return __real_stat(path, found);
    memset(found, 0, sizeof *found);
    found->st_mode = S_IFIFO | 0600;
    return 0;
}
int __wrap_openat(int folder, const char *path, int flags, ...) {
    va_list mode;
    va_start(mode, flags);
    int file = is_met('o', true) ? __real_openat(folder, path, flags, va_arg(mode, mode_t)) : -1;
    va_end(mode);
    return file;
}
ssize_t __wrap_read(int file, void *bytes, size_t length) {
    return is_met(0, true) ? __real_read(file, bytes, part_of(length)) : -1;
}
ssize_t __wrap_write(int file, const void *bytes, size_t length) {
    return is_met('w', true) ? __real_write(file, bytes, part_of(length)) : -1;
}
int __wrap_fsync(int file) { return is_met('s', true) ? __real_fsync(file) : -1; }
int __wrap_fchown(int file, uid_t owner, gid_t group) {
    if (!is_met('g', true)) return -1;
    if (owner_error == 0) return __real_fchown(file, owner, group);
    errno = owner_error;
    return -1;
}
int __wrap_fchmod(int file, mode_t mode) { return is_met('m', true) ? __real_fchmod(file, mode) : -1; }
int __wrap_close(int file) {
    bool is_closed = is_met('c', false); /* as the system does, it closes the file all the same */
    int number = errno, answer = __real_close(file);
    if (!is_closed) errno = number;
    return is_closed ? answer : -1;
}
int __wrap_renameat(int from_folder, const char *from, int to_folder, const char *to) {
    return is_met('r', false) ? __real_renameat(from_folder, from, to_folder, to) : -1;
}
int __wrap_unlinkat(int folder, const char *path, int flags) { return is_met('u', false) ? __real_unlinkat(folder, path, flags) : -1; }
void *__wrap_malloc(size_t size) { return is_met(0, false) ? __real_malloc(size) : NULL; }
void *__wrap_calloc(size_t count, size_t size) { return is_met(0, false) ? __real_calloc(count, size) : NULL; }
void *__wrap_realloc(void *block, size_t size) { return is_met(0, false) ? __real_realloc(block, size) : NULL; }

static void begin(enum fault which, long step) {
    memset(calls, 0, sizeof calls);
    memset(before, 0, sizeof before);
    fault = which;
    left = step;
}

/* Ends it, and says whether it came. */
static bool end(void) {
    bool came = fault == DOES_A_PART || left < 0;
    fault = NONE;
    return came;
}

static const char *path, *beside;

static void make(cedar *d, int32_t keys, bool is_reduced) {
    uint8_t key[12];
    size_t position;
    CHECK((is_reduced ? cedar_new_reduced(d, true, 1) : cedar_new(d)) == CEDAR_OK);
    for (int32_t i = 0; i < keys; i++) CHECK(cedar_update(d, key, (size_t)sprintf((char *)key, "k%d", (int)i), i, &position) == CEDAR_OK);
}

static size_t bytes_of(cedar *d, bool is_full, uint8_t *bytes) {
    size_t length;
    CHECK(cedar_save(d, is_full, bytes, FILE_ROOM, &length) == CEDAR_OK);
    return length;
}

/* Whether just the file of a dictionary stands at a path. */
static bool is_file_of(const char *name, cedar *d, bool is_full) {
    static uint8_t found[FILE_ROOM], wanted[FILE_ROOM];
    FILE *file = fopen(name, "rb");
    if (file == NULL) return false;
    size_t count = fread(found, 1, FILE_ROOM, file);
    fclose(file);
    return count == bytes_of(d, is_full, wanted) && memcmp(found, wanted, count) == 0;
}

static bool is_there(const char *name) { return access(name, F_OK) == 0; }

static mode_t mode_of(const char *name) {
    struct stat found;
    CHECK(lstat(name, &found) == 0);
    return found.st_mode;
}

/* Saved and loaded again, in both layouts and formats; what has the name beside stays there. */
static void saves_and_loads(cedar *old, cedar *d) {
    cedar loaded = CEDAR_CLOSED;
    for (int is_full = 0; is_full < 2; is_full++) {
        CHECK(cedar_save_file(old, is_full, beside) == CEDAR_OK && cedar_save_file(d, is_full, path) == CEDAR_OK);
        CHECK(is_file_of(path, d, is_full) && is_file_of(beside, old, is_full) && unlink(beside) == 0);
        CHECK(cedar_load_file(&loaded, path, CEDAR_LOAD_LIMIT) == CEDAR_OK && cedar_is_reduced(&loaded) == cedar_is_reduced(d));
        CHECK(is_file_of(path, &loaded, is_full));
        begin(NONE, 0);
        /* The folder is opened and the file made, written, synced and closed before it is renamed; and then the folder is synced. */
        CHECK(unlink(path) == 0 && cedar_save_file(d, is_full, path) == CEDAR_OK && strcmp(calls, "oowscrsc") == 0);
        begin(NONE, 0);
        /* What an old file has is given once the bytes are written, the group and the owner before the mode. */
        CHECK(cedar_save_file(d, is_full, path) == CEDAR_OK && strcmp(calls, "oowgmscrsc") == 0);
        begin(DOES_A_PART, 0);
        uint32_t saved = cedar_save_file(d, is_full, path), status = cedar_load_file(&loaded, path, SIZE_MAX);
        CHECK(end() && saved == CEDAR_OK && status == CEDAR_OK && is_file_of(path, &loaded, is_full));
    }
    cedar_free(&loaded);
}

/* Whether the new file was made, and has its new name, before the call that failed. */
static bool was_made(void) { return strncmp(before, "oo", 2) == 0; }
static bool was_renamed(void) { return strchr(before, 'r') != NULL; }

/* What a save has left in whose course a call came that failed, or that was interrupted and then met: after an error the old file, and the
 * new one beside it only if it couldn't be removed. Only where the folder wasn't synced has the new file its place all the same. */
static void check_save(enum fault which, bool came, cedar *old, cedar *d, uint32_t status) {
    bool is_met = !came || which == IS_INTERRUPTED, is_renamed = is_met || was_renamed();
    bool is_left = which == FAILS_FROM_THEN_ON && !is_renamed && was_made();
    CHECK(is_file_of(path, is_renamed ? d : old, false));
    CHECK((status == CEDAR_OK) == (is_met || (is_renamed && failed != 's')));
    CHECK(is_there(beside) == is_left && (!is_left || unlink(beside) == 0));
}

/* Each call fails, or is interrupted, in turn. */
static int failing_saves(cedar *old, cedar *d) {
    int errors = 0;
    for (enum fault which = FAILS; which <= IS_INTERRUPTED; which++) {
        bool came = true;
        for (long step = 0; came; step++) {
            CHECK(step < LAST_STEP && cedar_save_file(old, false, path) == CEDAR_OK);
            begin(which, step);
            errno = 0;
            uint32_t status = cedar_save_file(d, false, path);
            CHECK(status == CEDAR_OK || status == CEDAR_MEMORY || (status == CEDAR_FILE_UNREAD && errno == ENOSPC));
            came = end();
            check_save(which, came, old, d, status);
            errors += status != CEDAR_OK;
        }
    }
    return errors;
}

/* Whether a new file was left; it is taken away. It is nobody else's to read until it is whole. */
static bool take_left(cedar *d) {
    if (!is_there(beside)) return false;
    CHECK(mode_of(beside) == (S_IFREG | 0600) || (mode_of(beside) == (S_IFREG | 0604) && is_file_of(beside, d, false)));
    CHECK(unlink(beside) == 0);
    return true;
}

/* The process ends at each call in turn: the old file is there whole, or the new one. */
static void ended_saves(cedar *old, cedar *d) {
    bool was_old = false, was_new = false, was_left = false;
    for (long step = 0;; step++) {
        CHECK(step < LAST_STEP && cedar_save_file(old, false, path) == CEDAR_OK && chmod(path, 0604) == 0);
        pid_t child = fork();
        CHECK(child >= 0);
        if (child == 0) {
            begin(ENDS_THE_PROCESS, step);
            uint32_t status = cedar_save_file(d, false, path);
            _exit(status == CEDAR_OK ? 0 : 1);
        }
        int how;
        CHECK(waitpid(child, &how, 0) == child && WIFEXITED(how) && (WEXITSTATUS(how) == 7 || WEXITSTATUS(how) == 0));
        bool is_old = is_file_of(path, old, false);
        CHECK(is_old || is_file_of(path, d, false));
        was_old |= is_old;
        was_new |= !is_old && WEXITSTATUS(how) == 7;
        was_left |= take_left(d);
        if (WEXITSTATUS(how) == 0) break;
    }
    CHECK(was_old && was_new && was_left);
}

/* Each call fails, or is interrupted, in turn: after an error the dictionary is as it was. */
static int failing_loads(cedar *old, cedar *d) {
    int errors = 0;
    CHECK(cedar_save_file(d, true, path) == CEDAR_OK);
    for (enum fault which = FAILS; which <= IS_INTERRUPTED; which++) {
        for (long step = 0;; step++) {
            cedar loaded = CEDAR_CLOSED;
            CHECK(step < LAST_STEP);
            make(&loaded, FEW_KEYS, false);
            begin(which, step);
            errno = 0;
            uint32_t status = cedar_load_file(&loaded, path, CEDAR_LOAD_LIMIT);
            int number = errno;
            bool came = end();
            bool is_refused = status == CEDAR_MEMORY || (status == CEDAR_FILE_UNREAD && number == ENOSPC);
            CHECK(status == CEDAR_OK || (which != IS_INTERRUPTED && is_refused));
            CHECK(cedar_len(&loaded) == cedar_len(status == CEDAR_OK ? d : old));
            errors += status != CEDAR_OK;
            cedar_free(&loaded);
            if (!came) break;
        }
    }
    return errors;
}

static void refused_loads(const char *folder) {
    cedar d = CEDAR_CLOSED;
    make(&d, FEW_KEYS, false);
    CHECK(cedar_save_file(&d, false, path) == CEDAR_OK);
    CHECK(cedar_load_file(&d, path, 100) == CEDAR_FILE_MEMORY_LIMIT && cedar_load_file(&d, "/dev/null", SIZE_MAX) == CEDAR_FILE_TRUNCATED);
    CHECK(cedar_load_file(&d, "/dev/zero", 100000) == CEDAR_FILE_MAGIC);
    CHECK(cedar_load_file(&d, beside, SIZE_MAX) == CEDAR_FILE_UNREAD && errno == ENOENT);
    CHECK(cedar_load_file(&d, folder, SIZE_MAX) == CEDAR_FILE_UNREAD && errno == EISDIR);
    /* Bytes behind the table, of which only the first are read. */
    CHECK(truncate(path, 1 << 26) == 0 && cedar_load_file(&d, path, 100000) == CEDAR_FILE_TRAILING && cedar_len(&d) == FEW_KEYS);
    cedar_free(&d);
    CHECK(cedar_save_file(&d, false, path) == CEDAR_IS_CLOSED && is_there(path) && unlink(path) == 0);
}

/* A link is replaced by the file, and what it led to stays; the mode of an old file stays. */
static void links_and_modes(cedar *old, cedar *d, const char *other) {
    mode_t mask = umask(027);
    CHECK(cedar_save_file(old, false, other) == CEDAR_OK && mode_of(other) == (S_IFREG | 0640));
    CHECK(symlink(other, path) == 0 && cedar_save_file(d, false, path) == CEDAR_OK);
    CHECK(S_ISREG(mode_of(path)) && is_file_of(path, d, false) && is_file_of(other, old, false));
    CHECK(chmod(path, 0604) == 0 && cedar_save_file(old, false, path) == CEDAR_OK && mode_of(path) == (S_IFREG | 0604));
    /* A link that has the new file's name stays, and isn't followed, wherever it leads. */
    for (int is_followed = 0; is_followed < 2; is_followed++) {
        CHECK(symlink(is_followed ? "other" : "nowhere", beside) == 0 && cedar_save_file(d, false, path) == CEDAR_OK);
        CHECK(is_file_of(other, old, false) && is_file_of(path, d, false) && S_ISLNK(mode_of(beside)) && is_there(beside) == is_followed);
        CHECK(unlink(beside) == 0);
    }
    /* A link that leads nowhere is replaced too. */
    CHECK(unlink(path) == 0 && unlink(other) == 0 && symlink(other, path) == 0 && cedar_save_file(d, false, path) == CEDAR_OK);
    CHECK(S_ISREG(mode_of(path)) && !is_there(other) && unlink(path) == 0);
    CHECK(symlink("words", path) == 0 && cedar_save_file(d, false, path) == CEDAR_OK && S_ISREG(mode_of(path)) && unlink(path) == 0);
    umask(mask);
}

/* Where the system keeps no owner, the file has the mode without the bits that are of owners; after other errors the old file stays. */
static void refused_owners(cedar *old, cedar *d) {
    static const int some[] = {EPERM, EINVAL, ENOSYS, ENOTSUP, EIO};
    for (size_t i = 0; i < sizeof some / sizeof *some; i++) {
        bool is_told = some[i] == EIO;
        CHECK(cedar_save_file(old, false, path) == CEDAR_OK && chmod(path, 06711) == 0);
        owner_error = some[i];
        uint32_t status = cedar_save_file(d, false, path);
        CHECK(is_told ? status == CEDAR_FILE_UNREAD && errno == EIO : status == CEDAR_OK);
        owner_error = 0;
        CHECK(is_file_of(path, is_told ? old : d, false) && mode_of(path) == (S_IFREG | (is_told ? 06711 : 0711)) && !is_there(beside));
    }
    CHECK(unlink(path) == 0);
}

/* Pipes and devices are written to as they are; folders are refused. */
static void specials(cedar *d, const char *folder) {
    cedar loaded = CEDAR_CLOSED;
    CHECK(mkfifo(path, 0600) == 0);
    pid_t child = fork();
    CHECK(child >= 0);
    if (child == 0) _exit(cedar_save_file(d, false, path) == CEDAR_OK ? 0 : 1);
    int how;
    CHECK(cedar_load_file(&loaded, path, CEDAR_LOAD_LIMIT) == CEDAR_OK && cedar_len(&loaded) == cedar_len(d));
    CHECK(waitpid(child, &how, 0) == child && how == 0 && S_ISFIFO(mode_of(path)) && !is_there(beside) && unlink(path) == 0);
    CHECK(cedar_save_file(d, false, "/dev/null") == CEDAR_OK && S_ISCHR(mode_of("/dev/null")));
    CHECK(cedar_save_file(d, false, "/dev/full") == CEDAR_FILE_UNREAD && errno == ENOSPC);
    CHECK(cedar_save_file(d, false, folder) == CEDAR_FILE_UNREAD && errno == EISDIR);
    CHECK(mkdir(beside, 0700) == 0 && cedar_save_file(d, false, path) == CEDAR_OK && is_file_of(path, d, false));
    CHECK(rmdir(beside) == 0 && cedar_save_file(d, false, "none/file") == CEDAR_FILE_UNREAD && errno == ENOENT);
    CHECK(cedar_save_file(d, false, "") == CEDAR_FILE_UNREAD && errno == ENOENT && unlink(path) == 0);
    cedar_free(&loaded);
}

/* Where a pipe was found, and a file is by the time that it is opened, that stays as it is. Where nothing is then, nothing is made. */
static void files_in_place_of_pipes(cedar *old, cedar *d) {
    CHECK(cedar_save_file(old, false, path) == CEDAR_OK);
    finds_a_pipe = true;
    begin(NONE, 0);
    CHECK(cedar_save_file(d, false, path) == CEDAR_FILE_UNREAD && errno == ENOTSUP && strcmp(calls, "oc") == 0);
    CHECK(is_file_of(path, old, false) && !is_there(beside) && unlink(path) == 0);
    CHECK(cedar_save_file(d, false, path) == CEDAR_FILE_UNREAD && errno == ENOENT && !is_there(path) && !is_there(beside));
    finds_a_pipe = false;
}

static int remove_one(const char *name, const struct stat *found, int kind, struct FTW *where) {
    (void)found, (void)kind, (void)where;
    return remove(name);
}

int main(int count, char **arguments) {
    CHECK(count == 2 && strcmp(cedar_version(), CEDAR_VERSION) == 0);
    CHECK(chdir(arguments[1]) == 0);
    char folder[] = "paths.XXXXXX";
    CHECK(mkdtemp(folder) != NULL);
    char paths[3][64];
    for (int i = 0; i < 3; i++) sprintf(paths[i], "%s/%s", folder, i == 0 ? "words" : i == 1 ? "words.new" : "other");
    path = paths[0];
    beside = paths[1];
    int errors = 0;
    for (int is_reduced = 0; is_reduced < 2; is_reduced++) {
        cedar old = CEDAR_CLOSED, d = CEDAR_CLOSED;
        make(&old, FEW_KEYS, is_reduced);
        make(&d, MORE_KEYS, is_reduced);
        saves_and_loads(&old, &d);
        errors += failing_saves(&old, &d);
        ended_saves(&old, &d);
        errors += failing_loads(&old, &d);
        refused_loads(folder);
        links_and_modes(&old, &d, paths[2]);
        refused_owners(&old, &d);
        specials(&d, folder);
        files_in_place_of_pipes(&old, &d);
        cedar_free(&old);
        cedar_free(&d);
    }
    /* In the working folder, which the path doesn't name. */
    cedar d = CEDAR_CLOSED;
    CHECK(chdir(folder) == 0 && cedar_new(&d) == CEDAR_OK && cedar_save_file(&d, false, "words") == CEDAR_OK && is_file_of("words", &d, false));
    cedar_free(&d);
    CHECK(chdir("..") == 0 && nftw(folder, remove_one, 8, FTW_DEPTH | FTW_PHYS) == 0);
    printf("%d calls by path failed as they should\nok\n", errors);
    return 0;
}

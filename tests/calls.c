/* Stands between a program and the C library where it asks for files: notes each call on the files of one folder, makes one of them fail,
   and leaves out syncs. tests/calls.py builds it, loads it into a program of this repository, and reads its notes.

   CALLS_FOLDER  the folder, by its whole path. Calls on it and on what lies right in it are counted from 0 on
   CALLS_NOTES   where the notes are written: a struct note for each call, and the bytes behind it
   CALLS_FAIL    NUMBER ERROR MANY: so many calls from that number on fail with this error; at 0 a write takes half of its bytes
   CALLS_SYNC    0: no sync is asked of the system */
#define _GNU_SOURCE
#include <errno.h>
#include <fcntl.h>
#include <stdarg.h>
#include <stdint.h>
#include <stdio.h>
#include <stdlib.h>
#include <string.h>
#include <sys/syscall.h>
#include <unistd.h>

/* A call: its letter (o opens a file, f the folder, w writes, c cuts, s syncs, r renames, u removes, t tells on standard output), its
   number, the file it was made on, where or how long, what it answered (an error below 0), and how many bytes follow. */
struct __attribute__((packed)) note {
    char kind;
    int64_t number;
    int32_t file;
    int64_t at;
    int64_t answer;
    uint32_t length;
};

enum { FILES = 1024, PATH = 4096, WHOLE = 2 * PATH };

/* 0, or that it is a file in the folder, or the folder. */
enum { NEITHER, A_FILE, THE_FOLDER };
static char watched_as[FILES];
static char folder[PATH];
static int notes = -1, syncs = 1, fault, begun;
static long calls, first = -1, many;

static void begin(void) {
    const char *name;
    if (begun) return;
    begun = 1;
    if ((name = getenv("CALLS_FOLDER"))) snprintf(folder, sizeof folder, "%s", name);
    if ((name = getenv("CALLS_NOTES"))) notes = (int)syscall(SYS_openat, AT_FDCWD, name, O_WRONLY | O_CREAT | O_APPEND | O_CLOEXEC, 0600);
    if ((name = getenv("CALLS_SYNC"))) syncs = atoi(name);
    if ((name = getenv("CALLS_FAIL")) && sscanf(name, "%ld %d %ld", &first, &fault, &many) != 3) abort();
}

static int watched(int file) { return file >= 0 && file < FILES ? watched_as[file] : NEITHER; }

/* What a path leads to, which goes on from the folder `at` unless it is a whole one: its whole path is written to a room of WHOLE bytes. */
static int led_to(int at, const char *path, char *whole) {
    size_t length;
    const char *rest;
    begin();
    if (path[0] == '/') snprintf(whole, WHOLE, "%s", path);
    else if (watched(at) == THE_FOLDER) snprintf(whole, WHOLE, "%s/%s", folder, path);
    else return NEITHER;
    length = strlen(folder);
    if (length == 0 || strncmp(whole, folder, length) != 0) return NEITHER;
    rest = whole + length;
    if (rest[0] == 0 || strcmp(rest, "/") == 0) return THE_FOLDER;
    return rest[0] == '/' && strchr(rest + 1, '/') == NULL ? A_FILE : NEITHER;
}

/* Notes a call. What can't be noted ends the program: nothing may be missing. */
static void note(char kind, int file, int64_t at, int64_t answer, const void *bytes, size_t length) {
    struct note made = {kind, calls - 1, file, at, answer < 0 ? -errno : answer, (uint32_t)length};
    int error = errno;
    if (notes < 0) return;
    if (syscall(SYS_write, notes, &made, sizeof made) != (long)sizeof made) abort();
    if (length != 0 && syscall(SYS_write, notes, bytes, length) != (long)length) abort();
    errno = error;
}

/* Whether the next call fails; then its error is set. */
static int fails(void) {
    long number = calls++;
    if (first < 0 || number < first || number - first >= many || fault == 0) return 0;
    errno = fault;
    return 1;
}

static int opened(int at, const char *path, int flags, mode_t mode) {
    char whole[WHOLE];
    int file, kind = led_to(at, path, whole);
    if (kind == NEITHER) return (int)syscall(SYS_openat, at, path, flags, mode);
    file = fails() ? -1 : (int)syscall(SYS_openat, at, path, flags, mode);
    if (file >= FILES) abort();
    if (file >= 0) watched_as[file] = (char)kind;
    note(kind == THE_FOLDER ? 'f' : 'o', file, flags, file, whole, strlen(whole));
    return file;
}

static mode_t mode_in(int flags, va_list rest) { return flags & (O_CREAT | O_TMPFILE) ? va_arg(rest, mode_t) : 0; }

int open(const char *path, int flags, ...) {
    va_list rest;
    int file;
    va_start(rest, flags);
    file = opened(AT_FDCWD, path, flags, mode_in(flags, rest));
    va_end(rest);
    return file;
}

int openat(int at, const char *path, int flags, ...) {
    va_list rest;
    int file;
    va_start(rest, flags);
    file = opened(at, path, flags, mode_in(flags, rest));
    va_end(rest);
    return file;
}

int close(int file) {
    if (watched(file)) watched_as[file] = NEITHER;
    return (int)syscall(SYS_close, file);
}

ssize_t read(int file, void *bytes, size_t length) {
    if (watched(file) && fails()) return -1;
    return syscall(SYS_read, file, bytes, length);
}

ssize_t write(int file, const void *bytes, size_t length) {
    ssize_t count;
    off_t at;
    begin();
    if (file == 1) {
        count = syscall(SYS_write, file, bytes, length);
        note('t', file, 0, count, bytes, count < 0 ? 0 : (size_t)count);
        return count;
    }
    if (!watched(file)) return syscall(SYS_write, file, bytes, length);
    at = syscall(SYS_lseek, file, 0, SEEK_CUR);
    if (first == calls && fault == 0 && length > 1) length /= 2;
    count = fails() ? -1 : syscall(SYS_write, file, bytes, length);
    note('w', file, at, count, bytes, count < 0 ? 0 : (size_t)count);
    return count;
}

ssize_t pwrite(int file, const void *bytes, size_t length, off_t at) {
    ssize_t count;
    if (!watched(file)) return syscall(SYS_pwrite64, file, bytes, length, at);
    if (first == calls && fault == 0 && length > 1) length /= 2;
    count = fails() ? -1 : syscall(SYS_pwrite64, file, bytes, length, at);
    note('w', file, at, count, bytes, count < 0 ? 0 : (size_t)count);
    return count;
}

off_t lseek(int file, off_t at, int whence) {
    if (watched(file) && fails()) return -1;
    return syscall(SYS_lseek, file, at, whence);
}

int ftruncate(int file, off_t length) {
    int answer;
    if (!watched(file)) return (int)syscall(SYS_ftruncate, file, length);
    answer = fails() ? -1 : (int)syscall(SYS_ftruncate, file, length);
    note('c', file, length, answer, NULL, 0);
    return answer;
}

static int synced(int file, long call) {
    int answer;
    begin();
    if (!watched(file)) return syncs ? (int)syscall(call, file) : 0;
    answer = fails() ? -1 : syncs ? (int)syscall(call, file) : 0;
    note('s', file, 0, answer, NULL, 0);
    return answer;
}

int fsync(int file) { return synced(file, SYS_fsync); }

int fdatasync(int file) { return synced(file, SYS_fdatasync); }

static int renamed(int from, const char *old, int to, const char *new) {
    char both[2 * WHOLE], whole[WHOLE];
    int answer;
    if (led_to(from, old, both) != A_FILE || led_to(to, new, whole) != A_FILE) return (int)syscall(SYS_renameat, from, old, to, new);
    answer = fails() ? -1 : (int)syscall(SYS_renameat, from, old, to, new);
    strcat(strcat(both, "\n"), whole);
    note('r', -1, 0, answer, both, strlen(both));
    return answer;
}

int rename(const char *old, const char *new) { return renamed(AT_FDCWD, old, AT_FDCWD, new); }

int renameat(int from, const char *old, int to, const char *new) { return renamed(from, old, to, new); }

static int removed(int at, const char *path, int flags) {
    char whole[WHOLE];
    int answer;
    if (led_to(at, path, whole) != A_FILE) return (int)syscall(SYS_unlinkat, at, path, flags);
    answer = fails() ? -1 : (int)syscall(SYS_unlinkat, at, path, flags);
    note('u', -1, 0, answer, whole, strlen(whole));
    return answer;
}

int unlink(const char *path) { return removed(AT_FDCWD, path, 0); }

int unlinkat(int at, const char *path, int flags) { return removed(at, path, flags); }

/* The same calls by other names. */
int open64(const char *, int, ...) __attribute__((alias("open"), nonnull(1)));
ssize_t __write(int, const void *, size_t) __attribute__((alias("write")));
ssize_t pwrite64(int, const void *, size_t, off_t) __attribute__((alias("pwrite")));
off_t lseek64(int, off_t, int) __attribute__((alias("lseek")));
int ftruncate64(int, off_t) __attribute__((alias("ftruncate")));

/* Loaded before all else: refuses one request for memory of the thread that asks for it, the count-th one from now on; and of the calls on
 * files that a save by path makes, the count-th one and perhaps all later ones. */
#define _GNU_SOURCE
#include <dlfcn.h>
#include <errno.h>
#include <fcntl.h>
#include <stdarg.h>
#include <stddef.h>
#include <sys/stat.h>
#include <sys/types.h>

static __thread long left, calls_left;
static __thread int is_for_good;

/* The next requests pass but the count-th. 0: all do. Returns how many of the last count were left. */
long refuse(long count) {
    long before = left;
    left = count;
    return before;
}

/* The same of calls on files, which fail with ENOSPC: then it returns -1. If it is for good, all behind it fail too. */
long refuse_calls(long count, int for_good) {
    long before = calls_left;
    calls_left = count;
    is_for_good = for_good;
    return before;
}

static int is_refused(void) {
    return left > 0 && --left == 0;
}

static int call_fails(void) {
    if (calls_left == 0 || (calls_left < 0 && !is_for_good)) return 0;
    if (calls_left > 0 && --calls_left > 0) return 0;
    calls_left = -1;
    errno = ENOSPC;
    return 1;
}

void *malloc(size_t size) {
    static void *(*next)(size_t);
    if (!next) next = dlsym(RTLD_NEXT, "malloc");
    return is_refused() ? NULL : next(size);
}

void *realloc(void *memory, size_t size) {
    static void *(*next)(void *, size_t);
    if (!next) next = dlsym(RTLD_NEXT, "realloc");
    return is_refused() ? NULL : next(memory, size);
}

int stat(const char *path, struct stat *found) {
    static int (*next)(const char *, struct stat *);
    if (!next) next = dlsym(RTLD_NEXT, "stat");
    return call_fails() ? -1 : next(path, found);
}

int openat(int folder, const char *path, int flags, ...) {
    static int (*next)(int, const char *, int, mode_t);
    va_list mode;
    va_start(mode, flags);
    if (!next) next = dlsym(RTLD_NEXT, "openat");
    int file = call_fails() ? -1 : next(folder, path, flags, flags & O_CREAT ? va_arg(mode, mode_t) : 0);
    va_end(mode);
    return file;
}

ssize_t write(int file, const void *bytes, size_t length) {
    static ssize_t (*next)(int, const void *, size_t);
    if (!next) next = dlsym(RTLD_NEXT, "write");
    return call_fails() ? -1 : next(file, bytes, length);
}

int fchown(int file, uid_t owner, gid_t group) {
    static int (*next)(int, uid_t, gid_t);
    if (!next) next = dlsym(RTLD_NEXT, "fchown");
    return call_fails() ? -1 : next(file, owner, group);
}

int fchmod(int file, mode_t mode) {
    static int (*next)(int, mode_t);
    if (!next) next = dlsym(RTLD_NEXT, "fchmod");
    return call_fails() ? -1 : next(file, mode);
}

int fsync(int file) {
    static int (*next)(int);
    if (!next) next = dlsym(RTLD_NEXT, "fsync");
    return call_fails() ? -1 : next(file);
}

/* As the system does, it closes the file all the same. */
int close(int file) {
    static int (*next)(int);
    if (!next) next = dlsym(RTLD_NEXT, "close");
    int is_failure = call_fails(), number = errno, answer = next(file);
    if (is_failure) errno = number;
    return is_failure ? -1 : answer;
}

int renameat(int from_folder, const char *from, int to_folder, const char *to) {
    static int (*next)(int, const char *, int, const char *);
    if (!next) next = dlsym(RTLD_NEXT, "renameat");
    return call_fails() ? -1 : next(from_folder, from, to_folder, to);
}

int unlinkat(int folder, const char *path, int flags) {
    static int (*next)(int, const char *, int);
    if (!next) next = dlsym(RTLD_NEXT, "unlinkat");
    return call_fails() ? -1 : next(folder, path, flags);
}

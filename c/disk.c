/* The file of a store on the disk: it is opened and locked, read, cut and written. This part is tested (tests/c/openings.c,
 * tests/c/store.c, tests/c/kept.c) and not proved. */
#define _DEFAULT_SOURCE /* flock */
#include "disk.h"
#include "cedar.h"
#include "paths.h"

#include <errno.h>
#include <fcntl.h>
#include <stdio.h>
#include <stdlib.h>
#include <string.h>
#include <sys/file.h>
#include <sys/stat.h>
#include <unistd.h>

/* How often a path is opened whose file is replaced meanwhile, and how many names are tried for a file that is kept. */
enum { FIRST_ROOM = 1 << 16, TRIED_OPENINGS = 100, TRIED_NAMES = 100 };

/* How many bytes a name has at most, and what stands behind that of a file in its replacement's. */
enum { LONGEST_NAME = 255 };
static const char BESIDE[] = ".cedar-compaction";

/* ---- the calls of the system, each again where a signal has interrupted it */

static int open_at(const char *path, int flags) {
    int number;
    do {
        /* What isn't a file isn't waited for, and doesn't become the process's terminal. */
        number = open(path, flags | O_CLOEXEC | O_NONBLOCK | O_NOCTTY, 0666);
    } while (number < 0 && errno == EINTR);
    return number;
}

static bool lock(int number) {
    int done;
    do {
        done = flock(number, LOCK_EX | LOCK_NB);
    } while (done != 0 && errno == EINTR);
    return done == 0;
}

static bool sync_data(int number) {
    int done;
    do {
        done = fdatasync(number);
    } while (done != 0 && errno == EINTR);
    return done == 0;
}

static bool sync_all(int number) {
    int done;
    do {
        done = fsync(number);
    } while (done != 0 && errno == EINTR);
    return done == 0;
}

bool disk_cut(const disk_file *file, size_t length) {
    int done;
    do {
        done = ftruncate(file->number, (off_t)length);
    } while (done != 0 && errno == EINTR);
    return done == 0 && sync_data(file->number);
}

/* Whether there was no room: on the disk, in what its owner may have of it, or in what the process may write. */
static bool is_want_of_room(int cause) {
    return cause == ENOSPC || cause == EDQUOT || cause == EFBIG;
}

bool disk_write(const disk_file *file, size_t at, const uint8_t *bytes, size_t length, bool *is_full) {
    while (length > 0) {
        ssize_t count = pwrite(file->number, bytes, length, (off_t)at);
        if (count < 0 && errno == EINTR) continue;
        if (count <= 0) {
            /* A call that takes none of some bytes has failed: they would be tried for ever. */
            if (count == 0) errno = EIO;
            *is_full = is_want_of_room(errno);
            return false;
        }
        at += (size_t)count;
        bytes += count;
        length -= (size_t)count;
    }
    return sync_data(file->number);
}

uint32_t disk_read(const disk_file *file, uint8_t **bytes, size_t *length) {
    size_t room = 0;
    for (;;) {
        if (*length == room) {
            if (room > PTRDIFF_MAX / 2) return CEDAR_MEMORY;
            room = room == 0 ? FIRST_ROOM : 2 * room;
            uint8_t *grown = realloc(*bytes, room);
            if (grown == NULL) return CEDAR_MEMORY;
            *bytes = grown;
        }
        ssize_t count = read(file->number, *bytes + *length, room - *length);
        if (count < 0 && errno == EINTR) continue;
        if (count < 0) return CEDAR_STORE_DEVICE;
        if (count == 0) return CEDAR_OK;
        *length += (size_t)count;
    }
}

/* ---- a file that is opened */

/* Closes what is open, and frees the path. */
void disk_close(disk_file *file) {
    int cause = errno;
    if (file->number >= 0) close(file->number);
    if (file->folder >= 0) close(file->folder);
    free(file->path);
    *file = (disk_file)DISK_CLOSED;
    errno = cause;
}

bool disk_is_inherited(const disk_file *file) {
    return !forks_is_this(&file->process);
}

/* Opens a path as it is: the file that is there, in whatever folder. */
static uint32_t open_number(disk_file *file, const char *path, int flags) {
    struct stat about;
    file->number = open_at(path, flags);
    if (file->number < 0 || fstat(file->number, &about) != 0) return CEDAR_STORE_DEVICE;
    if (S_ISREG(about.st_mode)) return CEDAR_OK;
    errno = S_ISDIR(about.st_mode) ? EISDIR : EINVAL;
    return CEDAR_STORE_DEVICE;
}

/* Opens the folder where the links of a path lead to, and keeps the path and the name there. */
static uint32_t open_folder(disk_file *file, const char *path) {
    file->path = realpath(path, NULL);
    if (file->path == NULL) return errno == ENOMEM ? CEDAR_MEMORY : CEDAR_STORE_DEVICE;
    char *name = strrchr(file->path, '/') + 1, kept = *name;
    *name = '\0';
    file->folder = open_at(file->path, O_RDONLY | O_DIRECTORY);
    *name = kept;
    file->name = name;
    return file->folder < 0 ? CEDAR_STORE_DEVICE : CEDAR_OK;
}

/* Whether the file that is open has its name still: nobody has removed it, or put another one there, before it was locked. */
static uint32_t look_again(const disk_file *file, bool *is_it) {
    struct stat open, named;
    if (fstat(file->number, &open) != 0) return CEDAR_STORE_DEVICE;
    if (fstatat(file->folder, file->name, &named, AT_SYMLINK_NOFOLLOW) != 0) return CEDAR_STORE_DEVICE;
    *is_it = open.st_dev == named.st_dev && open.st_ino == named.st_ino;
    return CEDAR_OK;
}

/* Opens a path and locks the file. *is_it says whether that is still the file of the path. */
static uint32_t open_locked(disk_file *file, const char *path, int flags, bool *is_it) {
    uint32_t status = open_number(file, path, flags);
    if (status != CEDAR_OK) return status;
    if (!lock(file->number)) return errno == EWOULDBLOCK ? CEDAR_STORE_LOCKED : CEDAR_STORE_DEVICE;
    status = open_folder(file, path);
    if (status == CEDAR_OK) status = look_again(file, is_it);
    /* Then the path leads nowhere by now. */
    return status == CEDAR_STORE_DEVICE && errno == ENOENT ? CEDAR_OK : status;
}

/* ---- a file beside it */

/* Names a file beside one: by its path, with this behind it. */
static bool name_beside(const disk_file *file, const char *suffix, disk_file *beside) {
    size_t length = strlen(file->path), more = strlen(suffix);
    if (strlen(file->name) + more > LONGEST_NAME) {
        errno = ENAMETOOLONG;
        return false;
    }
    beside->path = malloc(length + more + 1);
    if (beside->path == NULL) {
        errno = ENOMEM;
        return false;
    }
    memcpy(beside->path, file->path, length);
    memcpy(beside->path + length, suffix, more + 1);
    beside->name = beside->path + (file->name - file->path);
    return true;
}

/* Makes a file beside one, which nobody else has: its name is new, and it isn't readable for others. */
static bool make_beside(const disk_file *file, const char *suffix, disk_file *beside) {
    *beside = (disk_file)DISK_CLOSED;
    if (!name_beside(file, suffix, beside)) return false;
    do {
        beside->number = openat(file->folder, beside->name, O_RDWR | O_CREAT | O_EXCL | O_NOFOLLOW | O_CLOEXEC, 0600);
    } while (beside->number < 0 && errno == EINTR);
    return beside->number >= 0;
}

/* Gives a file beside the owner and the mode. */
static bool take_rights(const disk_file *file, const disk_file *beside) {
    struct stat old;
    return fstat(file->number, &old) == 0 && paths_take_rights(beside->number, &old);
}

void disk_give_up(const disk_file *file, disk_file *beside) {
    int cause = errno;
    if (beside->number >= 0) unlinkat(file->folder, beside->name, 0);
    errno = cause;
    disk_close(beside);
}

/* ---- a file that is replaced */

/* Removes what a crash has left of a replacement: the lock says that nobody is at it. What isn't a file stays. */
static void remove_leftover(const disk_file *file) {
    struct stat left;
    disk_file beside = DISK_CLOSED;
    if (!name_beside(file, BESIDE, &beside)) return;
    if (fstatat(file->folder, beside.name, &left, AT_SYMLINK_NOFOLLOW) == 0 && S_ISREG(left.st_mode)) unlinkat(file->folder, beside.name, 0);
    disk_close(&beside);
}

bool disk_make_beside(const disk_file *file, disk_file *beside) {
    bool is_it = false;
    *beside = (disk_file)DISK_CLOSED;
    if (look_again(file, &is_it) != CEDAR_OK) return false;
    if (!is_it) {
        errno = ESTALE;
        return false;
    }
    if (make_beside(file, BESIDE, beside) && lock(beside->number) && take_rights(file, beside)) return true;
    disk_give_up(file, beside);
    return false;
}

bool disk_take_place(disk_file *file, disk_file *beside, bool *is_unsure) {
    bool is_synced = sync_all(beside->number);
    if (!is_synced || renameat(file->folder, beside->name, file->folder, file->name) != 0) {
        *is_unsure = is_synced;
        disk_give_up(file, beside);
        return false;
    }
    close(file->number);
    file->number = beside->number;
    beside->number = -1;
    disk_close(beside);
    *is_unsure = !sync_all(file->folder);
    return !*is_unsure;
}

/* ---- a file that is kept */

/* What is kept of the file of a store: its first bytes, and those from a place on. */
struct cut {
    const uint8_t *bytes;
    size_t first, from, length;
};

/* Whether a file has these bytes from a place on. */
static bool has_bytes(int number, size_t at, const uint8_t *bytes, size_t length) {
    uint8_t found[4096];
    while (length > 0) {
        ssize_t count = pread(number, found, length < sizeof found ? length : sizeof found, (off_t)at);
        if (count < 0 && errno == EINTR) continue;
        if (count <= 0 || memcmp(found, bytes, (size_t)count) != 0) return false;
        at += (size_t)count;
        bytes += count;
        length -= (size_t)count;
    }
    return true;
}

/* Opens what has a name beside a file. It is on the disk then, if it is a file of exactly these bytes: an earlier opening has kept them. */
static bool open_same(const disk_file *file, const struct cut *cut, disk_file *kept) {
    struct stat about;
    size_t rest = cut->length - cut->from;
    kept->number = openat(file->folder, kept->name, O_RDONLY | O_NOFOLLOW | O_NONBLOCK | O_NOCTTY | O_CLOEXEC);
    return kept->number >= 0 && fstat(kept->number, &about) == 0 && S_ISREG(about.st_mode) && (size_t)about.st_size == cut->first + rest
        && has_bytes(kept->number, 0, cut->bytes, cut->first) && has_bytes(kept->number, cut->first, cut->bytes + cut->from, rest)
        && sync_all(kept->number) && sync_all(file->folder);
}

/* Makes a file beside one, of the first name that nothing has; or opens one in front of that which has the bytes already. */
static bool make_kept(const disk_file *file, const struct cut *cut, disk_file *kept, bool *is_same) {
    char suffix[32] = ".cut";
    *is_same = false;
    for (int number = 1; !make_beside(file, suffix, kept); number++) {
        if (errno != EEXIST) return false;
        *is_same = open_same(file, cut, kept);
        if (*is_same) return true;
        disk_close(kept);
        errno = EEXIST;
        if (number == TRIED_NAMES) return false;
        snprintf(suffix, sizeof suffix, ".%d.cut", number);
    }
    return true;
}

/* Writes the bytes to the new file. They are on the disk then, and its name. */
static bool fill_kept(const disk_file *file, const struct cut *cut, const disk_file *kept) {
    bool is_full;
    return take_rights(file, kept) && disk_write(kept, 0, cut->bytes, cut->first, &is_full)
        && disk_write(kept, cut->first, cut->bytes + cut->from, cut->length - cut->from, &is_full) && sync_all(kept->number)
        && sync_all(file->folder);
}

uint32_t disk_keep(const disk_file *file, const uint8_t *bytes, size_t first, size_t from, size_t length, char **path) {
    disk_file kept;
    bool is_same;
    const struct cut cut = {bytes, first, from, length};
    if (make_kept(file, &cut, &kept, &is_same) && (is_same || fill_kept(file, &cut, &kept))) {
        *path = kept.path;
        kept.path = NULL;
        disk_close(&kept);
        return CEDAR_OK;
    }
    uint32_t status = errno == ENOMEM ? CEDAR_MEMORY : CEDAR_STORE_DEVICE;
    disk_give_up(file, &kept);
    return status;
}

/* ---- an opening */

/* The flags by which a file is opened that changes may be written to. */
static int flags_of(uint32_t how) {
    if (how & CEDAR_OPEN_EXISTING) return O_RDWR;
    return how & CEDAR_OPEN_NEW ? O_RDWR | O_CREAT | O_EXCL : O_RDWR | O_CREAT;
}

/* Whether a file that this opening has created is empty still. Between its creation and its lock another program may have opened it, and
 * written to it. */
static bool is_empty(const disk_file *file) {
    struct stat about;
    if (fstat(file->number, &about) != 0) return false;
    if (about.st_size > 0) errno = EEXIST;
    return about.st_size == 0;
}

uint32_t disk_open(disk_file *file, const char *path, uint32_t how) {
    *file = (disk_file)DISK_CLOSED;
    if (how & CEDAR_OPEN_TO_READ) return open_number(file, path, O_RDONLY);
    forks_process process;
    bool is_it = false;
    if (!forks_this(&process)) return CEDAR_MEMORY;
    for (int tried = 0; !is_it; tried++) {
        disk_close(file);
        if (tried == TRIED_OPENINGS) return CEDAR_STORE_LOCKED;
        uint32_t status = open_locked(file, path, flags_of(how), &is_it);
        if (status != CEDAR_OK) return status;
    }
    file->process = process;
    remove_leftover(file);
    if ((how & CEDAR_OPEN_NEW) && !is_empty(file)) return CEDAR_STORE_DEVICE;
    return sync_all(file->number) && sync_all(file->folder) ? CEDAR_OK : CEDAR_STORE_DEVICE;
}

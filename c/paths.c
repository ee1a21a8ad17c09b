/* Files by their paths, over the proved library. This part is tested (tests/c/paths.c) and not proved. cedar.h says what the calls do. */
#define _POSIX_C_SOURCE 200809L
#include "paths.h"
#include "cedar.h"

#include <errno.h>
#include <fcntl.h>
#include <stdio.h>
#include <stdlib.h>
#include <string.h>
#include <sys/stat.h>
#include <unistd.h>

/* A load within its limit of memory takes fewer bytes than the limit and a header: so one byte more tells that a file isn't such. */
enum { HEADER_LENGTH = 88, FIRST_ROOM = 1 << 16 };

/* How many bytes a name has at most, what is kept of one that has no room for a suffix, how many names are tried for a new file, and how
 * many bytes the system takes of a path, with its byte 0. */
enum { LONGEST_NAME = 255, KEPT_NAME = 247, TRIED_NAMES = 100, PATH_ROOM = 4096 };

const char *cedar_version(void) {
    return CEDAR_VERSION;
}

/* ---- calls of the system, each again where a signal has interrupted it */

/* Opens a path, which is looked for in a folder if it doesn't begin with a slash. */
static int open_file(int folder, const char *path, int flags, mode_t mode) {
    int file;
    do {
        file = openat(folder, path, flags | O_CLOEXEC, mode);
    } while (file < 0 && errno == EINTR);
    return file;
}

static bool sync_file(int file) {
    int done;
    do {
        done = fsync(file);
    } while (done != 0 && errno == EINTR);
    return done == 0;
}

static bool set_mode(int file, mode_t mode) {
    int done;
    do {
        done = fchmod(file, mode);
    } while (done != 0 && errno == EINTR);
    return done == 0;
}

static bool set_owner(int file, uid_t owner, gid_t group) {
    int done;
    do {
        done = fchown(file, owner, group);
    } while (done != 0 && errno == EINTR);
    return done == 0;
}

/* ---- loads */

/* Reads a file to its end, or until it has `most` bytes, into memory that the caller frees, also after an error. */
static uint32_t read_file(int file, size_t most, uint8_t **bytes, size_t *length) {
    size_t room = 0;
    for (;;) {
        if (*length == room) {
            room = room == 0 ? FIRST_ROOM : 2 * room;
            if (room > most) room = most;
            uint8_t *grown = realloc(*bytes, room);
            if (grown == NULL) return CEDAR_MEMORY;
            *bytes = grown;
        }
        ssize_t count = read(file, *bytes + *length, room - *length);
        if (count < 0 && errno == EINTR) continue;
        if (count < 0) return CEDAR_FILE_UNREAD;
        *length += (size_t)count;
        if (count == 0 || *length == most) return CEDAR_OK;
    }
}

uint32_t cedar_load_file(cedar_dictionary *d, const char *path, size_t memory_limit) {
    const size_t beyond = HEADER_LENGTH + 1;
    const size_t most = memory_limit < PTRDIFF_MAX - beyond ? memory_limit + beyond : PTRDIFF_MAX;
    uint8_t *bytes = NULL;
    size_t length = 0;
    int file = open_file(AT_FDCWD, path, O_RDONLY, 0);
    if (file < 0) return CEDAR_FILE_UNREAD;
    uint32_t status = read_file(file, most, &bytes, &length);
    int number = errno;
    close(file);
    if (status == CEDAR_OK) status = cedar_load_any(d, bytes, length, memory_limit);
    free(bytes);
    errno = number;
    return status;
}

/* ---- files that are replaced */

static bool write_bytes(int file, const uint8_t *bytes, size_t length) {
    while (length > 0) {
        ssize_t count = write(file, bytes, length);
        if (count < 0 && errno == EINTR) continue;
        if (count <= 0) {
            /* A call that takes none of some bytes has failed: they would be tried for ever. */
            if (count == 0) errno = EIO;
            return false;
        }
        bytes += count;
        length -= (size_t)count;
    }
    return true;
}

/* Closes a file that was written to, and says whether it was written well. errno is that of the first failure. */
static bool close_written(int file, bool is_written) {
    int number = errno;
    if (close(file) == 0 || !is_written) errno = number;
    else is_written = false;
    return is_written;
}

/* Writes to a pipe, a device or the like as it is. A file that has come to the path meanwhile isn't one: it stays as it is. */
static bool write_special(const char *path, const uint8_t *bytes, size_t length) {
    int file = open_file(AT_FDCWD, path, O_WRONLY, 0);
    if (file < 0) return false;
    struct stat found;
    bool is_special = fstat(file, &found) == 0 && !S_ISREG(found.st_mode);
    if (!is_special) errno = ENOTSUP;
    return close_written(file, is_special && write_bytes(file, bytes, length));
}

/* Opens the folder of a path, and finds the path's last name. */
static int open_folder(const char *path, const char **name) {
    char folder[PATH_ROOM] = ".";
    const char *slash = strrchr(path, '/');
    *name = slash == NULL ? path : slash + 1;
    size_t length = (size_t)(*name - path);
    if (length >= sizeof folder) {
        errno = ENAMETOOLONG;
        return -1;
    }
    if (length > 0) {
        memcpy(folder, path, length);
        folder[length] = '\0';
    }
    return open_file(AT_FDCWD, folder, O_RDONLY | O_DIRECTORY, 0);
}

/* How many bytes of a name are kept before a suffix of so many: all, or if they are too many, some that end where a character of UTF-8
 * does. */
static size_t kept_length(const char *name, size_t suffix_length) {
    size_t kept = strlen(name);
    if (kept + suffix_length <= LONGEST_NAME) return kept;
    for (kept = KEPT_NAME; kept > KEPT_NAME - 3 && ((unsigned char)name[kept] & 0xC0) == 0x80; kept--) {}
    return kept;
}

/* The name of a new file beside the one of this name, of those that are tried. */
static void name_beside(const char *name, int number, char beside[LONGEST_NAME + 1]) {
    char suffix[32] = ".new";
    if (number > 0) snprintf(suffix, sizeof suffix, ".%d.new", number);
    size_t length = strlen(suffix), kept = kept_length(name, length);
    memcpy(beside, name, kept);
    memcpy(beside + kept, suffix, length + 1);
}

/* Makes a file of a name that nothing has had, so that nobody else has opened it, and tells the name. */
static int make_beside(int folder, const char *name, mode_t mode, char beside[LONGEST_NAME + 1]) {
    int file = -1;
    errno = EEXIST;
    for (int number = 0; file < 0 && errno == EEXIST && number < TRIED_NAMES; number++) {
        name_beside(name, number, beside);
        /* One that was cut may be the old file's. */
        if (strcmp(beside, name) != 0) file = open_file(folder, beside, O_WRONLY | O_CREAT | O_EXCL | O_NOFOLLOW, mode);
    }
    return file;
}

/* Whether the system doesn't allow an owner, doesn't know it where the process runs, or keeps none in this folder. */
static bool is_refused_owner(int number) {
    return number == EPERM || number == EINVAL || number == ENOSYS || number == ENOTSUP;
}

bool paths_take_rights(int file, const struct stat *old) {
    mode_t mode = old->st_mode & 07777;
    if (!set_owner(file, old->st_uid, old->st_gid)) {
        if (!is_refused_owner(errno)) return false;
        mode &= ~(mode_t)(S_ISUID | S_ISGID);
        if (!set_owner(file, (uid_t)-1, old->st_gid) && !is_refused_owner(errno)) return false;
    }
    return set_mode(file, mode);
}

/* Writes a file that was made, and waits until the disk has it. Others can't read it before it is whole, unless there was no old file. */
static bool fill_file(int file, const struct stat *old, const uint8_t *bytes, size_t length) {
    bool is_written = write_bytes(file, bytes, length) && (old == NULL || paths_take_rights(file, old)) && sync_file(file);
    return close_written(file, is_written);
}

/* Writes a file beside the one of this name, and puts it in that one's place once it is whole. */
static bool replace_in(int folder, const char *name, const struct stat *old, const uint8_t *bytes, size_t length) {
    char beside[LONGEST_NAME + 1];
    /* The system takes the umask's bits off where there is no mode to keep. */
    int file = make_beside(folder, name, old == NULL ? 0666 : 0600, beside);
    if (file < 0) return false;
    if (fill_file(file, old, bytes, length) && renameat(folder, beside, folder, name) == 0) return sync_file(folder);
    int number = errno;
    unlinkat(folder, beside, 0);
    errno = number;
    return false;
}

/* Whether a path that can't be looked at, with this error, leads nowhere or to where the process may not look: if a file can be made there,
 * there is nothing to keep. After any other error it isn't known what there is. */
static bool leads_nowhere(int number) {
    return number == ENOENT || number == ENOTDIR || number == ELOOP || number == EACCES;
}

/* Replaces the file at a path by one of these bytes, or writes to what isn't a file. errno has the reason if it fails. */
static bool replace_whole(const char *path, const uint8_t *bytes, size_t length) {
    struct stat old;
    const char *name;
    bool is_there = stat(path, &old) == 0;
    if (!is_there && !leads_nowhere(errno)) return false;
    if (is_there && !S_ISREG(old.st_mode)) return write_special(path, bytes, length);
    int folder = open_folder(path, &name);
    if (folder < 0) return false;
    bool is_replaced = replace_in(folder, name, is_there ? &old : NULL, bytes, length);
    int number = errno;
    close(folder);
    errno = number;
    return is_replaced;
}

uint32_t cedar_replace_file(const char *path, const uint8_t *bytes, size_t length) {
    return replace_whole(path, bytes, length) ? CEDAR_OK : CEDAR_FILE_UNREAD;
}

/* ---- saves */

/* The bytes of the dictionary's file, in memory that the caller frees, also after an error. */
static uint32_t save_bytes(const cedar_dictionary *d, bool is_full, uint8_t **bytes, size_t *length) {
    uint8_t none = 0;
    uint32_t status = cedar_save(d, is_full, &none, 0, length);
    if (status != CEDAR_NO_ROOM) return status;
    *bytes = malloc(*length);
    return *bytes == NULL ? CEDAR_MEMORY : cedar_save(d, is_full, *bytes, *length, length);
}

uint32_t cedar_save_file(const cedar_dictionary *d, bool is_full, const char *path) {
    uint8_t *bytes = NULL;
    size_t length = 0;
    uint32_t status = save_bytes(d, is_full, &bytes, &length);
    if (status == CEDAR_OK) status = cedar_replace_file(path, bytes, length);
    int number = errno;
    free(bytes);
    errno = number;
    return status;
}

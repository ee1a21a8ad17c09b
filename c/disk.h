/* The file of a store on the disk: what c/store.c asks of the system. No program sees these calls: build-c keeps them inside. */
#ifndef ROSKVIDH_DISK_H
#define ROSKVIDH_DISK_H

#include "forks.h"

#include <stdbool.h>
#include <stddef.h>
#include <stdint.h>

/* A file that is open. It is locked for this process, unless it was opened to read. */
typedef struct disk_file {
    int number;            /* -1: none */
    int folder;            /* the folder that it is in, behind all links, or -1 */
    char *path;            /* where it is, behind all links, or NULL */
    const char *name;      /* its name in the folder: the path's end */
    forks_process process; /* which has opened it: a forked child writes nothing */
} disk_file;

#define DISK_CLOSED { -1, -1, NULL, NULL, FORKS_NOBODY }

/* Opens the file at a path, and locks it before anything is written, by the bits of cedar_store_open_with. It and its name are on the disk
 * then. Returns a status of cedar.h. After an error the caller closes it too. */
uint32_t disk_open(disk_file *file, const char *path, uint32_t how);

/* Reads a file that was just opened to its end, into memory that the caller frees, also after an error. */
uint32_t disk_read(const disk_file *file, uint8_t **bytes, size_t *length);

/* Cuts the file, or writes to it, and waits until the disk has that. Returns false if a call failed: errno has the reason. *is_full is set
 * if there was no room for all of the bytes: then the first ones may be there, and nothing else has failed. */
bool disk_cut(const disk_file *file, size_t length);
bool disk_write(const disk_file *file, size_t at, const uint8_t *bytes, size_t length, bool *is_full);

/* Makes an empty file beside one that is open for changes, to replace it: of the name with .cedar-compaction behind it, which nothing has,
 * with its owner and mode, and locked. Returns false if that can't be done, also if the file that is open has lost its name (ESTALE). */
bool disk_make_beside(const disk_file *file, disk_file *beside);

/* Puts the file beside it on the disk, gives it the name, and goes on with it. Returns false if a call failed: the file beside is removed
 * then, if it hasn't the name. *is_unsure is set where it isn't known which of both has the name, or would have it behind a crash. */
bool disk_take_place(disk_file *file, disk_file *beside, bool *is_unsure);

/* Keeps bytes of a file that is open for changes, its first ones and those from `from` on, in a new file beside it, which is on the disk
 * then: of the name with .cut behind it, or .1.cut to .99.cut where something has that name, and with its owner and mode. A file on the way
 * that has exactly these bytes is taken in its place. Returns a status of cedar.h, and that file's path in memory that the caller frees.
 * After an error the new file is removed. */
uint32_t disk_keep(const disk_file *file, const uint8_t *bytes, size_t first, size_t from, size_t length, char **path);

/* Removes the file beside, and closes it. errno stays. */
void disk_give_up(const disk_file *file, disk_file *beside);

/* Whether another process has opened it, of which this one was forked. */
bool disk_is_inherited(const disk_file *file);

/* Closes it, which ends the lock. errno stays. */
void disk_close(disk_file *file);

#endif

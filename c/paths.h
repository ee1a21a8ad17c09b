/* What c/paths.c has for the other files of C. No program sees it: build-c keeps it inside. */
#ifndef ROSKVIDH_PATHS_H
#define ROSKVIDH_PATHS_H

#include <stdbool.h>
#include <sys/stat.h>

/* Gives a new file the old one's owner, group and mode. Where it can't have both owner and group, it gets the group if it can have that,
 * and doesn't get the bits by which others run it as these two. Returns false if a call failed: errno has the reason. */
bool paths_take_rights(int file, const struct stat *old);

#endif

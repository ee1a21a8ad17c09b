/* Reads a list of words, one in each line: a word of at most 99 bytes, a tab, and a number. Empty lines are passed over. */
#ifndef WORD_LIST_H
#define WORD_LIST_H

#include "cedar.h"
#include <errno.h>
#include <stdio.h>
#include <stdlib.h>
#include <string.h>

enum { WORD_ROOM = 100, LINE_ROOM = WORD_ROOM + 24 };

static inline const uint8_t *bytes_of(const char *text) { return (const uint8_t *)text; }

/* Says why a list isn't read: in a line, or in the whole of it if that is 0. */
static inline bool refuse_list(const char *path, long line, const char *why) {
    if (line > 0) fprintf(stderr, "%s: line %ld: %s\n", path, line, why);
    else fprintf(stderr, "%s: %s\n", path, why);
    return false;
}

/* The same of a call that has refused a pair. */
static inline bool refuse_pair(const char *path, long line, uint32_t status) {
    char why[100] = {0};
    cedar_status_text(status, (uint8_t *)why, sizeof why - 1);
    return refuse_list(path, line, why);
}

/* Stores the pair of a line. What isn't a value of the dictionary is handed to it as -1, which it refuses by name. */
static inline bool read_line(cedar *d, char *line, const char *path, long number) {
    char *tab = strchr(line, '\t'), *end = NULL;
    if (tab == NULL || tab - line >= WORD_ROOM) return refuse_list(path, number, "not a word of at most 99 bytes, a tab and a number");
    long long value = strtoll(tab + 1, &end, 10);
    if (end == tab + 1 || end[strspn(end, " \r\n")] != '\0') return refuse_list(path, number, "no number is behind the tab");
    bool is_value = value >= CEDAR_MIN_VALUE && value <= CEDAR_MAX_VALUE;
    uint32_t status = cedar_update(d, bytes_of(line), (size_t)(tab - line), is_value ? (int32_t)value : -1, NULL);
    return status == CEDAR_OK || refuse_pair(path, number, status);
}

static inline bool read_lines(cedar *d, FILE *file, const char *path) {
    char line[LINE_ROOM];
    for (long number = 1; fgets(line, sizeof line, file) != NULL; number++) {
        size_t length = strlen(line);
        bool is_whole = length + 1 < sizeof line || line[length - 1] == '\n' || feof(file);
        if (!is_whole) return refuse_list(path, number, "the line is too long");
        if (line[strspn(line, "\r\n")] != '\0' && !read_line(d, line, path, number)) return false;
    }
    return !ferror(file) || refuse_list(path, 0, strerror(errno));
}

/* Reads the words of a file, or says on standard error why not, and where. */
static inline bool read_words(cedar *d, const char *path) {
    uint32_t status = cedar_new(d);
    if (status != CEDAR_OK) return refuse_pair(path, 0, status);
    FILE *file = fopen(path, "r");
    if (file == NULL) return refuse_list(path, 0, strerror(errno));
    bool is_read = read_lines(d, file, path);
    fclose(file);
    return is_read;
}

#endif

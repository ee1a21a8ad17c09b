/* Completes the beginnings of words: complete WORDS BEGINNING.. prints the first ten words of a file that begin with each, with their
 * numbers, and a line `..` if there are more. If none does, it prints those that begin with something one edit away, behind a `~`. Each
 * line of the file is a word of at most 99 bytes, a tab, and a number: if one isn't, it says which, and ends with status 1. */
#include "word_list.h"
#include <inttypes.h>

enum { MOST_SHOWN = 10 };

/* The words that begin with something one edit away from what was typed: each call goes on behind the word before. */
static void suggest(const cedar *d, const char *typed) {
    uint8_t word[WORD_ROOM], behind[WORD_ROOM];
    size_t length = 0, needed = 0;
    int32_t number = 0;
    for (int shown = 0; shown < MOST_SHOWN; shown++) {
        uint32_t status = cedar_next_near(d, bytes_of(typed), strlen(typed), false, true, behind, length, word, sizeof word, &number, &needed);
        if (status != CEDAR_OK || needed == 0) return;
        printf("  ~%.*s %" PRId32 "\n", (int)needed, (const char *)word, number);
        memcpy(behind, word, needed);
        length = needed;
    }
}

/* A page costs what it has, however many words there are, and says whether there are more. */
static void complete(const cedar *d, const char *beginning) {
    cedar_found found[MOST_SHOWN];
    uint8_t keys[MOST_SHOWN * WORD_ROOM];
    size_t count = 0, needed = 0;
    printf("%s:\n", beginning);
    uint32_t status = cedar_entries_below(d, bytes_of(beginning), strlen(beginning), NULL, 0, found, MOST_SHOWN, keys, sizeof keys, &count,
                                          &needed);
    for (size_t i = 0; status == CEDAR_OK && i < count; i++) {
        printf("  %.*s %" PRId32 "\n", (int)found[i].length, (const char *)keys + found[i].place, found[i].value);
    }
    if (status == CEDAR_OK && needed > 0) printf("  ..\n");
    /* Of fewer bytes too many words are one edit away. */
    if (status == CEDAR_OK && count == 0 && strlen(beginning) > 2) suggest(d, beginning);
}

int main(int count, char **arguments) {
    cedar d = CEDAR_CLOSED;
    if (count < 2) {
        fprintf(stderr, "usage: complete WORDS BEGINNING..\n");
        return 2;
    }
    bool is_read = read_words(&d, arguments[1]);
    for (int i = 2; is_read && i < count; i++) complete(&d, arguments[i]);
    cedar_free(&d);
    return is_read ? 0 : 1;
}

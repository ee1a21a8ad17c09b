/* Marks the words of a file in a text: highlight WORDS < TEXT prints the text with brackets around each, the longest at its place.
 * Each line of the file is a word of at most 99 bytes, a tab, and a number: if one isn't, it says which, and ends with status 1. */
#include "word_list.h"

enum { PIECE = 256 };

static void highlight(cedar *d, const uint8_t *text, size_t length) {
    cedar_found found[PIECE] = {{0, 0, 0}};
    for (size_t next = 0; next < length;) {
        size_t count = cedar_segment(d, text, length, &next, found, PIECE);
        for (size_t i = 0; i < count; i++) {
            const char *form = found[i].value < 0 ? "%.*s" : "[%.*s]";
            printf(form, (int)found[i].length, (const char *)text + found[i].place);
        }
    }
}

int main(int count, char **arguments) {
    static uint8_t line[1 << 16];
    cedar d = CEDAR_CLOSED;
    if (count != 2) {
        fprintf(stderr, "usage: highlight WORDS < TEXT\n");
        return 2;
    }
    bool is_read = read_words(&d, arguments[1]);
    while (is_read && fgets((char *)line, sizeof line, stdin) != NULL) highlight(&d, line, strlen((char *)line));
    cedar_free(&d);
    return is_read ? 0 : 1;
}

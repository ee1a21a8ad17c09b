/* A dictionary of words: looks some up, and lists those that a text begins with and those that begin with a text. */
#include "cedar.h"
#include <inttypes.h>
#include <stdio.h>
#include <string.h>

static const char *const words[] = {"net", "network", "networks", "new", "work"};
enum { WORDS = sizeof words / sizeof *words };

static const uint8_t *bytes_of(const char *text) { return (const uint8_t *)text; }

static void look_up(const cedar *d, const char *word) {
    int32_t value;
    if (cedar_get(d, bytes_of(word), strlen(word), &value)) {
        printf("%s: word %" PRId32 "\n", word, value);
    } else {
        printf("%s: no word\n", word);
    }
}

int main(void) {
    const char *text = "networking";
    cedar d = CEDAR_CLOSED;
    cedar_match found[WORDS]; /* a text begins with no more words than there are */
    size_t count;

    uint32_t status = cedar_new(&d);
    for (int32_t i = 0; status == CEDAR_OK && i < WORDS; i++) status = cedar_update(&d, bytes_of(words[i]), strlen(words[i]), i, NULL);
    if (status == CEDAR_OK) {
        look_up(&d, "network");
        look_up(&d, "netw");
        count = cedar_prefixes(&d, bytes_of(text), strlen(text), found, WORDS);
        for (size_t i = 0; i < count; i++) printf("%s begins with %.*s\n", text, (int)found[i].length, text);
        count = cedar_predictions(&d, bytes_of("net"), 3, found, WORDS);
        for (size_t i = 0; i < count; i++) printf("net begins %s\n", words[found[i].value]);
    }
    cedar_free(&d);
    return status == CEDAR_OK ? 0 : 1;
}

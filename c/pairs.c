/* Which of many pairs has a fault, beside the proved library. This part is tested (tests/c/calls.c) and not proved. cedar.h says what the
 * call does. */
#include "cedar.h"

#include <string.h>

static bool is_faulty(const cedar_pair *pair) {
    bool is_key = pair->length > 0 && memchr(pair->key, 0, pair->length) == NULL;
    return !is_key || pair->value < CEDAR_MIN_VALUE || pair->value > CEDAR_MAX_VALUE;
}

size_t cedar_faulty_pair(const cedar_pair *pairs, size_t count) {
    size_t index = 0;
    while (index < count && !is_faulty(&pairs[index])) index++;
    return index;
}

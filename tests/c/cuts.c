/* Keywords and cuts of least cost: at values made by hand, and beside plain ones, which are each cut of short texts, and a table of costs
 * for long ones. */
#include "cedar.h"
#include "check.h"
#include <string.h>

enum { LETTERS = 4, LONGEST = 6, CODES = 4096, SHORT = 9, LONG = 100000 };

/* Two bytes of characters of their own, one that begins a character, and one that goes on with it. */
static const uint8_t letters[LETTERS] = {'a', 'b', 0xE7, 0xBD};

/* The value of each key by its length and by its letters as a number of base 4, or -1. */
static int32_t held[LONGEST + 1][CODES];

static uint8_t text[LONG];
static size_t code[LONG + LONGEST];
static cedar_found found[LONG], expected[LONG];
static uint64_t costs[LONG + 1];

/* A text of a length; `code` has its letters from each place on, as many as the longest key has. */
static void write_text(size_t length) {
    memset(code, 0, sizeof code);
    for (size_t place = length; place-- > 0;) {
        size_t letter = next_random() % LETTERS;
        text[place] = letters[letter];
        code[place] = letter + LETTERS * code[place + 1] % CODES;
    }
}

/* The value of the key of so many bytes at a place, or -1. */
static int32_t key_at(size_t place, size_t length) {
    return held[length][code[place] % ((size_t)1 << (2 * length))];
}

static uint64_t byte_price(size_t place, uint32_t unknown, bool by_characters) {
    return by_characters && text[place] >= 128 && text[place] < 192 ? 0 : unknown;
}

/* A dictionary of random keys with small values, so that many cuts cost the same. */
static void fill(cedar *d, bool reduced, size_t keys) {
    memset(held, -1, sizeof held);
    CHECK((reduced ? cedar_new_reduced : cedar_new_with)(d, true, 1) == CEDAR_OK);
    for (; keys > 0; keys--) {
        size_t length = 1 + next_random() % LONGEST, number = next_random() % ((size_t)1 << (2 * length));
        uint8_t key[LONGEST];
        for (size_t i = 0; i < length; i++) key[i] = letters[(number >> (2 * i)) % LETTERS];
        held[length][number] = (int32_t)(next_random() % 12);
        CHECK(cedar_update(d, key, length, held[length][number], NULL) == CEDAR_OK);
    }
}

/* A cut of a short text. */
typedef struct Cut {
    cedar_found tokens[SHORT];
    size_t count;
    uint64_t cost;
} Cut;

/* Whether a cut costs less, or as much and has the longer token, or else a key, where the two first differ. */
static bool is_before(const Cut *one, const Cut *other) {
    if (one->cost != other->cost) return one->cost < other->cost;
    for (size_t i = 0; i < one->count && i < other->count; i++) {
        const cedar_found *a = &one->tokens[i], *b = &other->tokens[i];
        if (a->length != b->length) return a->length > b->length;
        if (a->value != b->value) return a->value > b->value;
    }
    return false;
}

/* Goes on with a cut in each way, and keeps the best one. */
static void try_all(size_t length, uint32_t unknown, bool by_characters, Cut cut, Cut *best) {
    size_t place = 0;
    for (size_t i = 0; i < cut.count; i++) place += cut.tokens[i].length;
    if (place == length && (best->count == SIZE_MAX || is_before(&cut, best))) *best = cut;
    for (size_t n = 0; n <= LONGEST && place < length; n++) {
        size_t size = n == 0 ? 1 : n;
        int32_t value = n == 0 || place + n > length ? -1 : key_at(place, n);
        if (n > 0 && value < 0) continue;
        Cut longer = cut;
        longer.tokens[longer.count++] = (cedar_found){place, size, value};
        longer.cost += n == 0 ? byte_price(place, unknown, by_characters) : (uint64_t)value;
        try_all(length, unknown, by_characters, longer, best);
    }
}

static size_t best_of_all(size_t length, uint32_t unknown, bool by_characters) {
    Cut none = {.count = 0}, best = {.count = SIZE_MAX};
    try_all(length, unknown, by_characters, none, &best);
    memcpy(expected, best.tokens, sizeof best.tokens);
    return best.count;
}

/* The same by what the bytes behind each place cost. */
static size_t best_by_table(size_t length, uint32_t unknown, bool by_characters) {
    static cedar_found first[LONG];
    costs[length] = 0;
    for (size_t place = length; place-- > 0;) {
        costs[place] = costs[place + 1] + byte_price(place, unknown, by_characters);
        first[place] = (cedar_found){place, 1, -1};
        for (size_t n = 1; n <= LONGEST && place + n <= length; n++) {
            int32_t value = key_at(place, n);
            if (value < 0 || (uint64_t)value + costs[place + n] > costs[place]) continue;
            costs[place] = (uint64_t)value + costs[place + n];
            first[place] = (cedar_found){place, n, value};
        }
    }
    size_t count = 0;
    for (size_t place = 0; place < length; place += first[place].length) expected[count++] = first[place];
    return count;
}

/* Of the keys that begin first the longest, and so on from its end. */
static size_t plain_keywords(size_t length) {
    size_t count = 0;
    for (size_t place = 0, step; place < length; place += step) {
        step = 1;
        for (size_t n = 1; n <= LONGEST && place + n <= length; n++) {
            int32_t value = key_at(place, n);
            if (value < 0) continue;
            expected[count] = (cedar_found){place, n, value};
            step = n;
        }
        count += key_at(place, step) >= 0;
    }
    return count;
}

static bool are_expected(size_t count) {
    for (size_t i = 0; i < count; i++) {
        const cedar_found *a = &found[i], *b = &expected[i];
        if (a->place != b->place || a->length != b->length || a->value != b->value) return false;
    }
    return true;
}

/* The expected cut, with too few places, with just enough, and with one more. */
static void check_cut(const cedar *d, size_t length, uint32_t unknown, bool by_characters, size_t count) {
    size_t needed = 77;
    memset(found, 0x55, sizeof *found * (count + 1));
    cedar_found before = found[0];
    for (int half = 0; half < 2 && count > 0; half++) {
        size_t room = half ? count - 1 : 0;
        CHECK(cedar_cheapest(d, text, length, unknown, by_characters, found, room, &needed) == CEDAR_NO_ROOM && needed == count);
        for (size_t i = 0; i <= count; i++) CHECK(memcmp(&found[i], &before, sizeof before) == 0);
    }
    for (size_t room = count; room < count + 2; room++) {
        CHECK(cedar_cheapest(d, text, length, unknown, by_characters, found, room, &needed) == CEDAR_OK && needed == count);
        CHECK(are_expected(count) && memcmp(&found[count], &before, sizeof before) == 0);
    }
}

/* The expected keywords, in pieces of so many places. */
static void check_keywords(const cedar *d, size_t length, size_t room, size_t count) {
    size_t next = 0, written = 0;
    while (next < length) {
        size_t more = cedar_keywords(d, text, length, &next, found + written, room);
        CHECK(more <= room && (more == room || next == length));
        written += more;
        CHECK(written <= count);
    }
    CHECK(written == count && next == length && are_expected(count));
}

static void beside_plain_ones(bool reduced) {
    static const uint32_t prices[] = {0, 3, 11, 1000, UINT32_MAX};
    for (int turn = 0; turn < 300; turn++) {
        cedar d = CEDAR_CLOSED;
        fill(&d, reduced, next_random() % 40);
        for (size_t length = 0; length <= SHORT; length++) {
            uint32_t unknown = prices[next_random() % 5];
            write_text(length);
            for (int by = 0; by < 2; by++) check_cut(&d, length, unknown, by, best_of_all(length, unknown, by));
            check_keywords(&d, length, 1 + next_random() % 3, plain_keywords(length));
        }
        cedar_free(&d);
    }
    for (int turn = 0; turn < 10; turn++) {
        cedar d = CEDAR_CLOSED;
        fill(&d, reduced, 5 + 60 * (size_t)turn);
        write_text(LONG - 1);
        for (int by = 0; by < 2; by++) check_cut(&d, LONG - 1, prices[turn % 5], by, best_by_table(LONG - 1, prices[turn % 5], by));
        size_t count = plain_keywords(LONG - 1);
        check_keywords(&d, LONG - 1, 1000, count);
        check_keywords(&d, LONG - 1, LONG, count);
        cedar_free(&d);
    }
}

static const uint8_t *bytes_of(const char *chars) { return (const uint8_t *)chars; }

static void store(cedar *d, const char *key, int32_t value) {
    CHECK(cedar_update(d, bytes_of(key), strlen(key), value, NULL) == CEDAR_OK);
}

static bool is_token(size_t at, size_t place, size_t length, int32_t value) {
    return found[at].place == place && found[at].length == length && found[at].value == value;
}

static void by_hand(void) {
    cedar d = CEDAR_CLOSED;
    size_t next = 0, needed = 77;
    CHECK(cedar_keywords(&d, bytes_of("abc"), 3, &next, found, LONG) == 0 && next == 3);
    CHECK(cedar_cheapest(&d, bytes_of("abc"), 3, 1, false, found, LONG, &needed) == CEDAR_IS_CLOSED && needed == 77);
    CHECK(cedar_new(&d) == CEDAR_OK);
    CHECK(cedar_cheapest(&d, NULL, 0, 1, false, NULL, 0, &needed) == CEDAR_OK && needed == 0);
    CHECK(cedar_cheapest(&d, bytes_of("abc"), 3, 1, false, NULL, 0, NULL) == CEDAR_NO_ROOM);
    static const char *const words[] = {"event", "he", "out", "the", "they", "vent", "you", "youth"};
    static const int32_t costs_of_words[] = {6517, 1999, 3011, 485, 2451, 11305, 2200, 6923};
    for (int i = 0; i < 8; i++) store(&d, words[i], costs_of_words[i]);
    CHECK(cedar_cheapest(&d, bytes_of("theyouthevent"), 13, 20000, false, found, LONG, &needed) == CEDAR_OK && needed == 3);
    CHECK(is_token(0, 0, 3, 485) && is_token(1, 3, 5, 6923) && is_token(2, 8, 5, 6517));
    next = 0;
    CHECK(cedar_keywords(&d, bytes_of("theyouthevent"), 13, &next, found, LONG) == 4 && next == 13);
    CHECK(is_token(0, 0, 4, 2451) && is_token(1, 4, 3, 3011) && is_token(2, 7, 2, 1999) && is_token(3, 9, 4, 11305));
    next = 0;
    CHECK(cedar_keywords(&d, bytes_of("the"), 3, &next, NULL, 0) == 0 && next == 0);
    next = 9;
    CHECK(cedar_keywords(&d, bytes_of("the"), 3, &next, found, LONG) == 0 && next == 9);
    store(&d, "\xE7\xBD\x91", 25);
    CHECK(cedar_cheapest(&d, bytes_of("\xE7\xBD\x91"), 3, 10, false, found, LONG, &needed) == CEDAR_OK && needed == 1 && is_token(0, 0, 3, 25));
    CHECK(cedar_cheapest(&d, bytes_of("\xE7\xBD\x91"), 3, 10, true, found, LONG, &needed) == CEDAR_OK && needed == 3 && is_token(1, 1, 1, -1));
    cedar_free(&d);
}

/* Values are ids, whose costs stand in a table. Letters are of one kind, digits of another; other characters are runs by themselves. */
static void by_costs(bool reduced) {
    static const uint32_t costs[] = {1, 9, 1};
    static const cedar_range kinds[] = {{'0', '9', 1}, {'a', 'z', 2}, {'A', 'Z', 2}, {'0', 'z', 3}};
    const uint8_t *letters = bytes_of("herox12\xE7\xBD\x91+Ab");
    cedar d = CEDAR_CLOSED;
    size_t needed = 77;
    CHECK(cedar_cheapest_by(&d, letters, 7, costs, 3, 5, kinds, 4, 20, 24, true, found, LONG, &needed) == CEDAR_IS_CLOSED && needed == 77);
    CHECK((reduced ? cedar_new_reduced(&d, true, 1) : cedar_new(&d)) == CEDAR_OK);
    CHECK(cedar_cheapest_by(&d, NULL, 0, NULL, 0, 0, NULL, 0, 0, 0, true, NULL, 0, &needed) == CEDAR_OK && needed == 0);
    store(&d, "he", 0);
    store(&d, "hero", 1);
    store(&d, "ro", 2);
    store(&d, "x", 3);
    CHECK(cedar_cheapest_by(&d, letters, 13, costs, 3, 5, kinds, 4, 20, 24, false, NULL, 0, NULL) == CEDAR_NO_ROOM);
    CHECK(cedar_cheapest_by(&d, letters, 13, costs, 3, 5, kinds, 4, 20, 24, false, found, LONG, &needed) == CEDAR_OK && needed == 7);
    CHECK(is_token(0, 0, 2, 0) && is_token(1, 2, 2, 2) && is_token(2, 4, 1, 3) && is_token(3, 5, 2, -1) && is_token(4, 7, 3, -1));
    CHECK(is_token(5, 10, 1, -1) && is_token(6, 11, 2, -1));
    /* Beside keys a run of five letters costs less than he, ro and x. With one character at most it doesn't. */
    CHECK(cedar_cheapest_by(&d, letters, 7, costs, 3, 5, kinds, 4, 3, 24, true, found, LONG, &needed) == CEDAR_OK && needed == 2);
    CHECK(is_token(0, 0, 5, -1) && is_token(1, 5, 2, -1));
    CHECK(cedar_cheapest_by(&d, letters, 7, costs, 3, 5, kinds, 4, 3, 0, true, found, LONG, &needed) == CEDAR_OK && needed == 5);
    CHECK(is_token(0, 0, 2, 0) && is_token(1, 2, 2, 2) && is_token(2, 4, 1, -1) && is_token(3, 5, 1, -1) && is_token(4, 6, 1, -1));
    /* Without ranges each character is a run. */
    CHECK(cedar_cheapest_by(&d, letters + 5, 5, costs, 3, 5, NULL, 0, 3, 24, true, found, 3, &needed) == CEDAR_OK && needed == 3);
    CHECK(is_token(0, 0, 1, -1) && is_token(1, 1, 1, -1) && is_token(2, 2, 3, -1));
    cedar_free(&d);
}

int main(void) {
    by_hand();
    for (int reduced = 0; reduced < 2; reduced++) {
        by_costs(reduced);
        beside_plain_ones(reduced);
    }
    puts("ok");
    return 0;
}

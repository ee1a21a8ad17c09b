/* A mutable dictionary from byte strings to whole numbers, for C and C++. cedar.hpp has a class over it.
 *
 * A key is a nonempty byte string without byte 0. A value is a whole number from 0 to 2147483645, in both layouts. The library is proved:
 * for every caller that keeps the rules below, each call does what its comment says, touches no memory but what is named here, and returns.
 *
 * The rules for the caller. Nothing checks them, and breaking one is undefined behaviour, as with any C library:
 *
 * - Each pointer points to what its type says: a key to `length` bytes that can be read; matches, found and buffers to `room` elements;
 *   pairs and keys to `count` of them, whose bytes are such. Each has at most PTRDIFF_MAX bytes. Memory that is only written to needn't be
 *   initialised.
 * - What two parameters point to doesn't overlap, except where both are only read. During the call nobody else writes it, and nobody else
 *   reads what the call may write.
 * - A pointer may be null where its length, room or count is 0. position, held, before, needed and erased may be null where the caller
 *   doesn't want them. No other pointer may be null. The proofs are about pointers that aren't null, and about elements that are
 *   initialised; that the calls do the same with others is tested.
 * - A `cedar_dictionary` is initialised with CEDAR_CLOSED or cedar_closed(), and only these calls change it. It may be moved. Its fields
 *   are neither read nor written by the program.
 * - A call that takes a const dictionary only reads it. Any number of threads may make such calls at the same time, each with its own copy
 *   of the variable, made before (`cedar mine = *d;`). Meanwhile no call may change or free the dictionary. After a call that changes it
 *   only the variable that this call was given is used: older copies are forgotten, and not freed.
 * - A call that changes or frees a dictionary happens before or after each other call on it: a lock, a thread's start or join, or a
 *   sequentially consistent atomic orders them. Different dictionaries share nothing.
 * - No call is made from a signal handler, or from the forked child of a process with threads.
 * - malloc, realloc and free belong to one allocator, and align a block as C requires.
 *
 * A call detects by itself, and reports: a closed dictionary (also one that was freed, once or twice, by this very variable), a bad key or
 * value, and memory that runs out. It can't detect: a wild pointer, a null one where none is allowed, a wrong length, a second copy of a
 * variable after the first was freed.
 */
#ifndef ROSKVIDH_CEDAR_H
#define ROSKVIDH_CEDAR_H

#include <stdbool.h>
#include <stddef.h>
#include <stdint.h>

#ifdef __cplusplus
extern "C" {
#endif

typedef struct cedar_dictionary {
    void *held;
    uint32_t is_open;
} cedar_dictionary;

/* The short name, in C only: a C++ program may use another library whose namespace is cedar. */
#ifndef __cplusplus
typedef cedar_dictionary cedar;
#endif

/* In C a function that only this header defines is compiled into each file that includes it. */
#ifdef __cplusplus
#define CEDAR_INLINE inline
#else
#define CEDAR_INLINE static inline
#endif

/* A closed dictionary: CEDAR_CLOSED initialises a variable, cedar_closed() is assigned to one. */
#define CEDAR_CLOSED { NULL, 0 }
CEDAR_INLINE cedar_dictionary cedar_closed(void) {
    cedar_dictionary closed = CEDAR_CLOSED;
    return closed;
}

#define CEDAR_MIN_VALUE 0
#define CEDAR_MAX_VALUE 2147483645
#define CEDAR_LOAD_LIMIT 536870912

/* The status that a call returns. */
enum {
    CEDAR_OK = 0,
    CEDAR_IS_CLOSED = 1,
    CEDAR_MEMORY = 2,        /* a request for memory was refused */
    CEDAR_SLOT_LIMIT = 3,    /* all 2^30 slots are in use */
    CEDAR_EMPTY_KEY = 4,
    CEDAR_NUL_BYTE = 5,      /* the key has a byte 0: see *position */
    CEDAR_INVALID_VALUE = 6, /* below 0 or above 2147483645 */
    CEDAR_INVALID_MAX_TRIAL = 7,
    CEDAR_DUPLICATE_KEY = 8,   /* in sorted pairs: see *position */
    CEDAR_KEYS_NOT_SORTED = 9, /* in sorted pairs: see *position */
    CEDAR_NO_ROOM = 11,      /* the buffer is too short */
    CEDAR_NOT_ASCENDING = 12, /* labels do not ascend, so an iteration can't go on after a key */
    CEDAR_PATTERN_TOO_LONG = 13, /* the pattern has more than 63 bytes */
    CEDAR_UNKNOWN_SEARCH = 14, /* no search has the number */
    CEDAR_QUERY_NOT_UTF8 = 15, /* what is looked for by characters isn't UTF-8 */
    /* of a file: the first thing that is wrong with it */
    CEDAR_FILE_TRUNCATED = 20,
    CEDAR_FILE_MAGIC = 21,         /* not a file of this format */
    CEDAR_FILE_VERSION = 22,       /* another version than 1.0 and 1.1 */
    CEDAR_FILE_BYTE_ORDER = 23,
    CEDAR_FILE_LAYOUT = 24,        /* a table of the other layout */
    CEDAR_FILE_HEADER = 25,        /* a number of the header is out of its rule */
    CEDAR_FILE_MEMORY_LIMIT = 26,  /* it needs more than the limit that was given */
    CEDAR_FILE_CORRUPT = 27,       /* the table is not well-formed */
    CEDAR_FILE_TRAILING = 28,      /* there are bytes after the table */
    CEDAR_FILE_UNREAD = 29,        /* a call on a file failed: only cedar_load_file, cedar_save_file and cedar_replace_file return it */
    /* of a store */
    CEDAR_STORE_FOREIGN = 40,  /* the file is not a store */
    CEDAR_STORE_CORRUPT = 41,  /* one of its records is not a change */
    CEDAR_STORE_DEVICE = 42,   /* a call on the file failed: see errno */
    CEDAR_STORE_FAILED = 43,   /* a call failed in an earlier change: cedar_store_compact is the way on */
    CEDAR_STORE_TOO_LONG = 44, /* the key has 2^32 - 5 bytes or more */
    CEDAR_STORE_FULL = 45,     /* the file's records end after 2^60 bytes */
    CEDAR_STORE_DAMAGED = 46,  /* one of its records was changed by somebody else: see cedar_store_damaged_at */
    CEDAR_STORE_LOCKED = 47,   /* another program, or another variable, has the store open */
    CEDAR_STORE_READ_ONLY = 48, /* the store was opened to read */
    CEDAR_STORE_KEPT = 49,     /* the file wasn't replaced by a shorter one: see errno */
    CEDAR_STORE_NO_ROOM = 50   /* there is no room for the change's record: see errno */
};

/* Opens *d with an empty dictionary. If *d is open, the new dictionary replaces the old one. Returns CEDAR_OK, or CEDAR_MEMORY; then *d is
 * as it was. */
uint32_t cedar_new(cedar_dictionary *d);

/* As cedar_new, with settings. `ordered`: the labels of each node ascend, so that iterations go in the order of bytes; otherwise a new
 * label goes before the others. `max_trial`, 1 or more: after so many failed searches for a place a block of slots is closed. Also returns
 * CEDAR_INVALID_MAX_TRIAL. */
uint32_t cedar_new_with(cedar_dictionary *d, bool ordered, int32_t max_trial);

/* As cedar_new_with, in the reduced layout: a value is kept in the last node of its key as long as no longer key has been stored below it,
 * and takes no slot of its own. All calls below take a dictionary of either layout, and return the same for both except for the number of
 * held slots. The layout is chosen when the dictionary is made. */
uint32_t cedar_new_reduced(cedar_dictionary *d, bool ordered, int32_t max_trial);

/* Returns whether *d has the reduced layout. False if closed. */
bool cedar_is_reduced(const cedar_dictionary *d);

/* Opens *d with the dictionary in the bytes of a file, as `save_to_writer` and the programs write it. If *d is open, the new dictionary
 * replaces the old one. It allocates at most memory_limit bytes, for example CEDAR_LOAD_LIMIT. Returns CEDAR_OK exactly if the bytes are
 * those of a well-formed table. Otherwise it returns the status of the first refusal, or CEDAR_MEMORY, and *d is as it was. */
uint32_t cedar_load(cedar_dictionary *d, const uint8_t *bytes, size_t length, size_t memory_limit);

/* As cedar_load, for a file of the reduced layout. Each of the two refuses files of the other layout with CEDAR_FILE_LAYOUT, before it
 * allocates. */
uint32_t cedar_load_reduced(cedar_dictionary *d, const uint8_t *bytes, size_t length, size_t memory_limit);

/* As cedar_load_reduced if the file's layout byte names the reduced layout, and otherwise as cedar_load. So one call loads a file of either
 * layout. A file that names neither fails with CEDAR_FILE_LAYOUT, unless something before that byte is wrong. */
uint32_t cedar_load_any(cedar_dictionary *d, const uint8_t *bytes, size_t length, size_t memory_limit);

/* Writes the file of *d to the beginning of a buffer, and its number of bytes to *needed; the other elements keep their content. The file
 * lists the slots and blocks in use, or all of them if is_full, as format 1.0 does. Returns CEDAR_OK; CEDAR_IS_CLOSED; or CEDAR_NO_ROOM if
 * the file has more than room bytes: a call with room 0 says how many, and looks at no slot. It allocates nothing. After an error the
 * buffer is as it was. */
uint32_t cedar_save(const cedar_dictionary *d, bool is_full, uint8_t *buffer, size_t room, size_t *needed);

/* Writes the text of a status to the beginning of a buffer, as far as there is room, and returns how many bytes the text has. It writes no
 * byte 0 after the text. */
size_t cedar_status_text(uint32_t status, uint8_t *text, size_t room);

/* Frees the memory of *d. *d is closed then. Does nothing if *d is closed. */
void cedar_free(cedar_dictionary *d);

/* Opens *copy with a copy of *d. If *copy is open, the copy replaces its dictionary. Both are then dictionaries of their own, and each is
 * freed. Returns CEDAR_OK, CEDAR_IS_CLOSED if *d is closed, or CEDAR_MEMORY. After an error *copy is as it was. */
uint32_t cedar_clone(const cedar_dictionary *d, cedar_dictionary *copy);

/* Stores a value at a key. If the key holds a value, the new one replaces it. Returns CEDAR_OK; CEDAR_IS_CLOSED; the first fault of the
 * pair: CEDAR_EMPTY_KEY, CEDAR_NUL_BYTE (*position is then the index of the first byte 0, counted from 0; otherwise *position isn't
 * written) or CEDAR_INVALID_VALUE; or, only if the key isn't held, CEDAR_MEMORY or CEDAR_SLOT_LIMIT. After an error the dictionary holds
 * what it held. */
uint32_t cedar_update(cedar_dictionary *d, const uint8_t *key, size_t length, int32_t value, size_t *position);

/* As cedar_update. After CEDAR_OK *held says whether the key held a value before, and if so *before is that value. */
uint32_t cedar_insert(cedar_dictionary *d, const uint8_t *key, size_t length, int32_t value, bool *held, int32_t *before, size_t *position);

/* A key to store and its value. */
typedef struct cedar_pair {
    const uint8_t *key;
    size_t length;
    int32_t value;
} cedar_pair;

/* Stores some pairs, one after another: the last value of a key counts. All pairs are tested first. With a faulty pair the first fault is
 * returned as by cedar_update, and nothing has changed; cedar_faulty_pair finds the pair. Otherwise it may fail with CEDAR_MEMORY or
 * CEDAR_SLOT_LIMIT: then the first of the pairs, as many as there was room for, are stored. It also allocates a list of the pairs. */
uint32_t cedar_update_all(cedar_dictionary *d, const cedar_pair *pairs, size_t count, size_t *position);

/* Opens *d with a dictionary of exactly these pairs, whose keys ascend by bytes, compared as unsigned numbers. If *d is open, the new
 * dictionary replaces the old one. Settings are as for cedar_new_with. All pairs are tested first. Returns:
 *
 * - CEDAR_OK.
 * - CEDAR_INVALID_MAX_TRIAL.
 * - The first fault of the input: for each pair its own, as of cedar_update, and then CEDAR_DUPLICATE_KEY if its key equals the one before
 *   it, or CEDAR_KEYS_NOT_SORTED if it is below that one. For these two *position is the index of the pair, counted from 0.
 * - CEDAR_MEMORY, also before a fault is found, since it allocates a list of the pairs.
 * - CEDAR_SLOT_LIMIT.
 *
 * After an error *d is as it was. *position is written only with an error that has a position. */
uint32_t cedar_build(cedar_dictionary *d, bool ordered, int32_t max_trial, const cedar_pair *pairs, size_t count, size_t *position);

/* As cedar_build, in the reduced layout. */
uint32_t cedar_build_reduced(cedar_dictionary *d, bool ordered, int32_t max_trial, const cedar_pair *pairs, size_t count, size_t *position);

/* Opens *d with a dictionary of some pairs in any order; the last value of a key counts. If *d is open, the new dictionary replaces the old
 * one. The pairs are sorted, and the dictionary is built at once, faster than by cedar_update_all of keys in no order. Settings as of
 * cedar_new_with. All pairs are tested first. Returns CEDAR_OK; CEDAR_INVALID_MAX_TRIAL; the fault of the first pair that has one, as of
 * cedar_update; CEDAR_MEMORY, also before a fault is found, since it allocates a list of the pairs, and two lists more to sort them; or
 * CEDAR_SLOT_LIMIT. After an error *d is as it was. */
uint32_t cedar_build_unsorted(cedar_dictionary *d, bool ordered, int32_t max_trial, const cedar_pair *pairs, size_t count, size_t *position);

/* As cedar_build_unsorted, of the reduced layout. */
uint32_t cedar_build_unsorted_reduced(cedar_dictionary *d, bool ordered, int32_t max_trial, const cedar_pair *pairs, size_t count,
                                      size_t *position);

/* Removes a key, and returns whether it was held. It allocates nothing. */
bool cedar_erase(cedar_dictionary *d, const uint8_t *key, size_t length);

/* A key to remove. */
typedef struct cedar_key {
    const uint8_t *key;
    size_t length;
} cedar_key;

/* Removes some keys, one after another, and returns how many of them were held. held[i] becomes whether keys[i] was held, as cedar_erase
 * would return it: of a key that is listed twice only the first one was. If `room` is below `count`, only that of the first `room` keys is
 * written, and none with room 0; elements behind the last key stay. It is faster than as many calls of cedar_erase if the table is large
 * and the keys come in no order. It allocates nothing. Returns 0 if *d is closed, and then all elements stay. */
size_t cedar_erase_all(cedar_dictionary *d, const cedar_key *keys, size_t count, bool *held, size_t room);

/* Removes each key that begins with a prefix, and writes their number to *erased. The empty prefix removes all keys. It neither allocates
 * nor frees memory. Returns CEDAR_OK, or CEDAR_IS_CLOSED; then *erased isn't written. */
uint32_t cedar_erase_prefix(cedar_dictionary *d, const uint8_t *prefix, size_t length, size_t *erased);

/* Removes all keys, and keeps slots and settings. It neither allocates nor frees memory. Does nothing if *d is closed. */
void cedar_clear(cedar_dictionary *d);

/* Returns whether a key is held, and if so writes its value to *value. It allocates nothing. */
bool cedar_get(const cedar_dictionary *d, const uint8_t *key, size_t length, int32_t *value);

/* Returns whether a key is held. It allocates nothing. */
bool cedar_contains(const cedar_dictionary *d, const uint8_t *key, size_t length);

/* The number of keys; the number of held slots; the number of slots there are; and the number of blocks of 256 slots that can come into use
 * before memory is allocated. The root, each distinct nonempty prefix of the keys, and each value with a slot of its own hold one slot
 * each; every value has one, except in the reduced layout. All four are 0 if closed. */
size_t cedar_len(const cedar_dictionary *d);
size_t cedar_used_slots(const cedar_dictionary *d);
size_t cedar_capacity(const cedar_dictionary *d);
size_t cedar_spare_blocks(const cedar_dictionary *d);

/* Returns how many keys begin with a prefix. It looks the prefix up and then visits each node below its own: so cedar_len, which says the
 * same of the empty prefix, is far less work. It allocates nothing. Returns 0 if closed. */
size_t cedar_count_prefix(const cedar_dictionary *d, const uint8_t *prefix, size_t length);

/* Allocates ahead for so many blocks of 256 slots more than are in use, so that updates that take no more of them need no memory: an update
 * takes at most one for each byte of its key. If so many are spare already (cedar_spare_blocks), nothing changes; otherwise the slots
 * double until they are. Returns CEDAR_OK; CEDAR_IS_CLOSED; CEDAR_SLOT_LIMIT if there can't be so many blocks (2^22 in all), or else
 * CEDAR_MEMORY. After an error nothing has changed. */
uint32_t cedar_reserve(cedar_dictionary *d, size_t blocks);

/* Frees memory that growth and erasures have left unused: all keys are put into a new dictionary, which replaces the present one unless it
 * has more slots. Keys, values, their order, layout and settings stay. While it runs, both dictionaries exist, and a list of 24 bytes for
 * each key. Returns CEDAR_OK; CEDAR_IS_CLOSED; CEDAR_MEMORY; or CEDAR_SLOT_LIMIT if the limit of slots allows the new dictionary no further
 * block. After an error nothing has changed. */
uint32_t cedar_shrink(cedar_dictionary *d);

/* Lets one search for places try so many blocks of slots at most; a search that has failed in so many puts a new block into use. At first
 * nothing bounds a search (SIZE_MAX), and an update after many erasures may take milliseconds, since it tries each block that they opened.
 * With a bound it doesn't, and may take some more slots. No result depends on it unless memory or slots run out. A copy has the same bound,
 * and cedar_shrink keeps it; no file has it. cedar_build and its kin search without a bound. Does nothing if *d is closed. */
void cedar_set_search_limit(cedar_dictionary *d, size_t blocks);

/* Returns how many blocks of slots one search for places tries at most. 0 if closed. */
size_t cedar_search_limit(const cedar_dictionary *d);

/* A key that was found: its value, and the number of bytes of the whole key. */
typedef struct cedar_match {
    int32_t value;
    size_t length;
} cedar_match;

/* Finds the keys that are prefixes of a text, shortest first. The first `room` of them, or all if there are fewer, are written to
 * matches[0] and on; the other elements keep their content. Returns how many there are, never more than the text has bytes: if that is
 * above room, call again with more room. It goes along the text once, and allocates nothing. Returns 0 if closed. */
size_t cedar_prefixes(const cedar_dictionary *d, const uint8_t *text, size_t length, cedar_match *matches, size_t room);

/* Writes the longest key that is a prefix of a text to *found, and returns whether there is one; if not, *found isn't written. It goes
 * along the text once, and allocates nothing. */
bool cedar_longest_prefix(const cedar_dictionary *d, const uint8_t *text, size_t length, cedar_match *found);

/* Finds the keys that begin with a text, in iteration order. The first `length` bytes of each are the text, and match.length - length bytes
 * follow it. There are never more than there are keys. Otherwise as cedar_prefixes: since it returns how many there are, it goes over all
 * of them, also where there is room for a few or for none. For the first few call cedar_first_predictions, or cedar_entries_below for
 * their keys too: these stop where the room ends. */
size_t cedar_predictions(const cedar_dictionary *d, const uint8_t *text, size_t length, cedar_match *matches, size_t room);

/* Finds the first keys that begin with a text, as cedar_predictions does: as many as there is room for, and it goes over no others. Returns
 * how many it wrote; a result below room means that nothing is left. cedar_predictions_from goes on. */
size_t cedar_first_predictions(const cedar_dictionary *d, const uint8_t *text, size_t length, cedar_match *matches, size_t room);

/* As cedar_prefixes and cedar_predictions, without the first *next keys, in pieces: as many as are left, and there is room for, are written
 * to matches[0] and on; the other elements keep their content. They return how many were written, and add it to *next, so that the same
 * call goes on. Begin with *next 0; a result below room means that nothing is left. Don't change the dictionary between two pieces, or they
 * may not belong together. Each call walks past the first *next again, and no further than what it writes; it allocates nothing. They
 * return 0 if closed. */
size_t cedar_prefixes_from(const cedar_dictionary *d, const uint8_t *text, size_t length, size_t *next, cedar_match *matches, size_t room);
size_t cedar_predictions_from(const cedar_dictionary *d, const uint8_t *text, size_t length, size_t *next, cedar_match *matches,
                              size_t room);

/* Writes the bytes of all keys to the beginning of a buffer, one key after another in iteration order, and their number of bytes to
 * *needed; the other elements keep their content. cedar_predictions with the empty text finds the value and the length of each key in the
 * same order. Returns CEDAR_OK; CEDAR_IS_CLOSED; CEDAR_NO_ROOM if the keys have more than room bytes; or CEDAR_MEMORY, since it allocates a
 * copy of them. After an error the buffer is as it was. */
uint32_t cedar_keys(const cedar_dictionary *d, uint8_t *buffer, size_t room, size_t *needed);

/* A key or token in a text: where it begins, how many bytes it has, and its value. */
typedef struct cedar_found {
    size_t place;
    size_t length;
    int32_t value;
} cedar_found;

/* Writes a page of entries with their keys: of the keys that begin with a prefix, those that come after `behind` in iteration order. If
 * `behind` has no byte, the page begins with the first entry. To go on, copy the last key of a page and pass it as `behind`. It begins with
 * the prefix, and needn't be held any more; after a key without the prefix the page ends at the first key without it.
 *
 * found[0] and on say where each key begins among the bytes, how many bytes it has, and its value; the other elements keep their content.
 * The keys are written to bytes[0] and on, one after another, and the other bytes may be written to as well. *count is the number of
 * entries written: as many as there was room for. With an element or more, 0 says that no key with the prefix comes next: if `behind` has
 * no byte, or begins with the prefix, none is left then. A page costs a look-up or two and its own entries, and allocates nothing. The
 * dictionary may be changed between two pages.
 *
 * Returns CEDAR_OK; CEDAR_IS_CLOSED; CEDAR_NOT_ASCENDING if `behind` has a byte and labels don't ascend; or CEDAR_NO_ROOM if there is an
 * element and the next key has more than `room` bytes: then *needed is how many. That next key may be one without the prefix, behind the
 * last one with it or before the first: so CEDAR_NO_ROOM may come where nothing that is wanted is left, which it doesn't of
 * cedar_entries_below. After an error nothing else is written. */
uint32_t cedar_entries_from(const cedar_dictionary *d, const uint8_t *prefix, size_t prefix_length, const uint8_t *behind,
                            size_t behind_length, cedar_found *found, size_t places, uint8_t *bytes, size_t room, size_t *count,
                            size_t *needed);

/* Writes a page of entries with their keys, as cedar_entries_from does, of the keys that begin with a prefix and come after `behind`; if
 * `behind` has no byte, from the first one on. The page ends at the prefix, and *needed says what comes: after CEDAR_OK it is how many
 * bytes the next key with the prefix has, or 0 if none is left. So a loop of pages needs no further call to learn that it is through:
 *
 *     size_t length = 0, count, needed;
 *     do {
 *         status = cedar_entries_below(&d, prefix, prefix_length, last, length, found, 64, bytes, sizeof bytes, &count, &needed);
 *         ... if status is CEDAR_OK, the page has `count` entries; copy its last key to last[0] and on, its length to `length`
 *     } while (status == CEDAR_OK && needed > 0);
 *
 * `behind` needn't be held any more. A page costs a look-up or two of `behind`, its own entries, and the length of the next key, and no key
 * before it or with another prefix is gone over. It allocates nothing if `behind` is held or has no byte, or if there is room for the next
 * key of all; otherwise that key's bytes.
 *
 * Returns CEDAR_OK; CEDAR_IS_CLOSED; CEDAR_NOT_ASCENDING if `behind` has a byte and labels don't ascend; CEDAR_NO_ROOM if there is an
 * element and the next key with the prefix has more than `room` bytes: then *needed is how many; or CEDAR_MEMORY. After an error nothing
 * else is written. With no element a call returns CEDAR_OK and says in *needed what comes. */
uint32_t cedar_entries_below(const cedar_dictionary *d, const uint8_t *prefix, size_t prefix_length, const uint8_t *behind,
                             size_t behind_length, cedar_found *found, size_t places, uint8_t *bytes, size_t room, size_t *count,
                             size_t *needed);

/* Writes the best of the entries whose keys begin with a prefix, `places` at the most: by value, the highest first, or if lowest_first the
 * lowest, and those with the same value by the bytes of their keys. found[0] and on say where each key begins among the bytes, how many
 * bytes it has, and its value; the keys are written to bytes[0] and on, one after another. The other elements and bytes keep their content.
 * *count is how many entries these are, *needed how many bytes their keys have together. It goes over all entries with the prefix, and
 * allocates for `places` of them, one more and a copy of their keys. Returns CEDAR_OK; CEDAR_IS_CLOSED; CEDAR_NO_ROOM if their keys have
 * more than `room` bytes: then *needed is how many, and a further call goes over all again; or CEDAR_MEMORY. After an error nothing else is
 * written. */
uint32_t cedar_best(const cedar_dictionary *d, const uint8_t *prefix, size_t length, bool lowest_first, cedar_found *found, size_t places,
                    uint8_t *bytes, size_t room, size_t *count, size_t *needed);

/* cedar_floor writes the last entry before a key, or at it if `included`; cedar_ceiling the first entry behind a key, or at it if
 * `included`. If `key` has no byte, these are the last and the first entry of all. The found key is written to the beginning of a buffer,
 * its value to *value, and how many bytes it has to *needed: 0 says that there is no such entry. So a loop goes backwards whose `key` is
 * the one that was found last, with included false. cedar_ceiling looks the key up once; cedar_floor makes about as many look-ups as the
 * key that it finds has bytes. Both allocate for the key. They return CEDAR_OK; CEDAR_IS_CLOSED; CEDAR_NOT_ASCENDING if labels don't
 * ascend; CEDAR_NO_ROOM if the found key has more than `room` bytes: then *needed is how many; or CEDAR_MEMORY. After an error nothing else
 * is written, and *value isn't if there is no entry. */
uint32_t cedar_floor(const cedar_dictionary *d, const uint8_t *key, size_t length, bool included, uint8_t *buffer, size_t room,
                     int32_t *value, size_t *needed);
uint32_t cedar_ceiling(const cedar_dictionary *d, const uint8_t *key, size_t length, bool included, uint8_t *buffer, size_t room,
                       int32_t *value, size_t *needed);

/* cedar_next_near writes the first entry behind a key whose own key is near a query: one edit away at most, or two if two_edits; or if
 * is_beginning it begins with what is, so it completes what was typed with an error. An edit puts in, takes out or changes a byte: a letter
 * beyond ASCII has two to four. cedar_next_near_text does the same by characters of UTF-8: an edit puts in, takes out or changes a
 * character, and a key, or what it begins with, is near only if it is UTF-8. cedar_next_fitting writes the first entry behind a key whose
 * own key fits a pattern, in which ? stands for any byte, * for any bytes, also none, and each other byte for itself. If `behind` has no
 * byte, these are the first ones of all. To go on, copy the key that was found and pass it as `behind`. The entry is written as
 * cedar_ceiling writes one, and *needed 0 says that none is left. A call makes a look-up for each entry that it comes to, and one for each
 * place where no key that goes on so is wanted: all keys below it are left out. It allocates for a key or two, and cedar_next_near_text
 * for the characters of its query. They return what cedar_ceiling returns; cedar_next_near_text CEDAR_QUERY_NOT_UTF8 if the query isn't
 * UTF-8; and cedar_next_fitting CEDAR_PATTERN_TOO_LONG if the pattern has more than 63 bytes. */
uint32_t cedar_next_near(const cedar_dictionary *d, const uint8_t *query, size_t length, bool two_edits, bool is_beginning,
                         const uint8_t *behind, size_t behind_length, uint8_t *buffer, size_t room, int32_t *value, size_t *needed);
uint32_t cedar_next_near_text(const cedar_dictionary *d, const uint8_t *query, size_t length, bool two_edits, bool is_beginning,
                              const uint8_t *behind, size_t behind_length, uint8_t *buffer, size_t room, int32_t *value, size_t *needed);
uint32_t cedar_next_fitting(const cedar_dictionary *d, const uint8_t *pattern, size_t length, const uint8_t *behind, size_t behind_length,
                            uint8_t *buffer, size_t room, int32_t *value, size_t *needed);

/* Finds all keys in a text, from the position *next on: position after position, and at each the shortest first. It writes them to found[0]
 * and on, and returns how many it wrote; the other elements may be written to as well. The keys of a position are returned by the same
 * call: if there is no room left for them, the call ends and *next is this position, so that calling again with this *next goes on. If it
 * then returns 0, the position has more keys than room; it never has more than the longest key has bytes. At the end *next is the text's
 * length. It allocates nothing. It finds nothing in a closed dictionary. Begin with *next 0, and go on while *next is below length. */
size_t cedar_scan(const cedar_dictionary *d, const uint8_t *text, size_t length, size_t *next, cedar_found *found, size_t room);

/* Cuts a text into tokens, from the position *next on, where a token begins: at each the longest key that begins there, or otherwise one
 * byte, with the value -1. With room 1 or more each call goes on. Otherwise as cedar_scan. */
size_t cedar_segment(const cedar_dictionary *d, const uint8_t *text, size_t length, size_t *next, cedar_found *found, size_t room);

/* Finds the keywords of a text, leftmost longest, from the position *next on, where a token begins: of the keys that begin first the
 * longest, then the same from its end on, so that none overlap. The bytes between them aren't reported. Otherwise as cedar_segment. */
size_t cedar_keywords(const cedar_dictionary *d, const uint8_t *text, size_t length, size_t *next, cedar_found *found, size_t room);

/* Cuts a whole text into keys and single bytes whose costs have the least sum. It writes these tokens to found[0] and on, and their number
 * to *needed; the other elements keep their content. A key costs its value. A byte without a key has the value -1 and costs `unknown`; if
 * by_characters, a byte from 128 to 191, which continues a character of UTF-8, costs nothing. Of cuts with the same cost it picks the one
 * with the longer token where they first differ, and with a key rather than a byte. A sum above 2^64 - 1 counts as 2^64 - 1, which no least
 * sum of a text of fewer than 2^32 bytes reaches; if every cut costs 2^64 or more, it is one of them. There are never more tokens than
 * bytes. Returns CEDAR_OK; CEDAR_IS_CLOSED; CEDAR_NO_ROOM if there are more than room tokens (a call with room 0 says how many, and costs
 * as much); or CEDAR_MEMORY: it allocates 9 bytes for each byte of the text, and a list of the tokens. After an error the elements are as
 * they were. */
uint32_t cedar_cheapest(const cedar_dictionary *d, const uint8_t *text, size_t length, uint32_t unknown, bool by_characters,
                        cedar_found *found, size_t room, size_t *needed);

/* The characters of one kind with the numbers from first to last in Unicode. */
typedef struct cedar_range {
    uint32_t first;
    uint32_t last;
    uint32_t kind;
} cedar_range;

/* Cuts a whole text into keys and runs of unknown characters whose costs have the least sum, by costs beside the values: so a value may be
 * an id. It writes these tokens as cedar_cheapest does. A key costs costs[value], and `beyond` if its value isn't below `count`. A run has
 * the value -1 and costs `unknown`. It is the character of UTF-8 at its position and those behind it that are of the same kind, `most` in
 * all at most. The kind of a character is that of the first range that has its number; one that no range has is a run by itself, and so is
 * each with `ranges` 0. With beside_keys a run may begin where a key begins too; without it only where none does. Of cuts with the same
 * cost it picks the one with the longer token where they first differ, and with a key rather than a run of as many bytes. A sum above
 * 2^64 - 1 counts as 2^64 - 1, for what is left from each token on. Returns what cedar_cheapest returns. It allocates 16 bytes for each
 * byte of the text, and a list of the tokens; at each position it looks at `most` characters, and for each at the ranges up to its own. */
uint32_t cedar_cheapest_by(const cedar_dictionary *d, const uint8_t *text, size_t length, const uint32_t *costs, size_t count,
                           uint32_t beyond, const cedar_range *kinds, size_t ranges, uint32_t unknown, size_t most, bool beside_keys,
                           cedar_found *found, size_t room, size_t *needed);

/* A scanner: an automaton of a dictionary, which finds its keys in a text in linear time, whatever keys and text are. It is initialised
 * with CEDAR_SCANNER_CLOSED, and only these calls change it. It may be moved. Its fields are neither read nor written by the program.
 *
 * It has a copy of the dictionary, so that the dictionary may be changed or freed while the scanner lives; what the scanner finds stays
 * as it is. Any number of threads may search by one scanner at the same time, each with its own copy of the variable, made before
 * (`cedar_scanner mine = *s;`). Meanwhile no call may replace or free it. */
typedef struct cedar_scanner {
    void *held;
    uint32_t is_open;
} cedar_scanner;

#define CEDAR_SCANNER_CLOSED { NULL, 0 }

/* What a scanner finds. */
enum {
    CEDAR_OVERLAPPING = 0,      /* all keys, by their ends: at each end the longest first */
    CEDAR_EARLIEST = 1,         /* keys that don't overlap: of those that end first the longest, and so on from its end */
    CEDAR_LEFTMOST_LONGEST = 2, /* keys that don't overlap: of those that begin first the longest, and so on from its end: the keywords */
    CEDAR_LEFTMOST_FIRST = 3    /* the same, of those that begin first the one with the least value, and of several with it the shortest */
};

/* Opens *s with a scanner of *d for one of these searches. If *s is open, the new scanner replaces the old one. It takes about 20
 * bytes for each node of the dictionary and 12 for each key, or 36 for each node for leftmost keys, and never more than the 20 or 36 for
 * each of the dictionary's slots up to that of its last node, besides the copy of the dictionary. For leftmost keys it also takes 12 bytes
 * for each key that a path of the dictionary gives where it can't go on: a few in most dictionaries, and 6 m^2 bytes at most for a key of
 * m bytes. While it is made it takes two lists of 24 bytes for each node, lists of at most 28 bytes for each slot of the dictionary, and
 * what sorts of the nodes need. A list that grows may have room for twice as many.
 * Returns CEDAR_OK; CEDAR_IS_CLOSED if *d is closed; CEDAR_UNKNOWN_SEARCH; or CEDAR_MEMORY, for leftmost keys also if the paths would give
 * 2^32 keys, whatever memory there is. After an error *s is as it was. */
uint32_t cedar_scanner_new(const cedar_dictionary *d, uint32_t search, cedar_scanner *s);

/* Writes what a scanner finds in a text, from the position *next on, to found[0] and on, and returns how many it wrote; the other
 * elements may be written to as well. If there is no room for more, *next is such that calling again with it goes on; at the end *next
 * is the text's length. Begin with *next 0, and go on while *next is below length.
 *
 * - CEDAR_OVERLAPPING: keys that end behind *next. Those that end at one byte are returned by the same call. If it returns 0 and *next is
 *   below length, more keys than room end at the next byte; never more than the longest key has bytes.
 * - The other searches: from *next on, where the text begins or the last key ended. With room 1 or more each call goes on.
 *
 * It allocates nothing, and takes two steps at most for each byte that it reads, and one for each key that it finds. A call for
 * overlapping keys first reads the bytes before *next again, as many as the longest key has at most, and one for leftmost keys may read
 * as many behind the last key that it returns: so let the room be some hundred elements. It finds nothing with a closed scanner.
 *
 * A text that comes in pieces: for CEDAR_OVERLAPPING keep the last bytes, one fewer than cedar_scanner_longest, in front of the next
 * piece, and begin with *next at the end of these. Then just those keys are found that end in the piece. */
size_t cedar_scanner_find(const cedar_scanner *s, const uint8_t *text, size_t length, size_t *next, cedar_found *found, size_t room);

/* Returns how many bytes the longest key of a scanner has. 0 if it has no key, or if it is closed. */
size_t cedar_scanner_longest(const cedar_scanner *s);

/* Frees the memory of *s. *s is closed then. Does nothing if *s is closed. */
void cedar_scanner_free(cedar_scanner *s);

/* The library's own functions take no null for position, held, before, needed and erased. In a program these functions take their names,
 * and pass a variable of their own where the caller passes null. They cost nothing where the compiler sees that a pointer isn't null.
 * Another language, which calls the library without this header, passes no null for these five. */
CEDAR_INLINE uint32_t cedar_nullable_save(const cedar_dictionary *d, bool is_full, uint8_t *buffer, size_t room, size_t *needed) {
    size_t unwanted = 0;
    return cedar_save(d, is_full, buffer, room, needed ? needed : &unwanted);
}
CEDAR_INLINE uint32_t cedar_nullable_update(cedar_dictionary *d, const uint8_t *key, size_t length, int32_t value, size_t *position) {
    size_t unwanted = 0;
    return cedar_update(d, key, length, value, position ? position : &unwanted);
}
CEDAR_INLINE uint32_t cedar_nullable_insert(cedar_dictionary *d, const uint8_t *key, size_t length, int32_t value, bool *held,
                                            int32_t *before, size_t *position) {
    bool unwanted_held = false;
    int32_t unwanted_before = 0;
    size_t unwanted = 0;
    return cedar_insert(d, key, length, value, held ? held : &unwanted_held, before ? before : &unwanted_before,
                        position ? position : &unwanted);
}
CEDAR_INLINE uint32_t cedar_nullable_update_all(cedar_dictionary *d, const cedar_pair *pairs, size_t count, size_t *position) {
    size_t unwanted = 0;
    return cedar_update_all(d, pairs, count, position ? position : &unwanted);
}
CEDAR_INLINE uint32_t cedar_nullable_build(cedar_dictionary *d, bool ordered, int32_t max_trial, const cedar_pair *pairs, size_t count,
                                           size_t *position) {
    size_t unwanted = 0;
    return cedar_build(d, ordered, max_trial, pairs, count, position ? position : &unwanted);
}
CEDAR_INLINE uint32_t cedar_nullable_build_reduced(cedar_dictionary *d, bool ordered, int32_t max_trial, const cedar_pair *pairs,
                                                   size_t count, size_t *position) {
    size_t unwanted = 0;
    return cedar_build_reduced(d, ordered, max_trial, pairs, count, position ? position : &unwanted);
}
CEDAR_INLINE uint32_t cedar_nullable_build_unsorted(cedar_dictionary *d, bool ordered, int32_t max_trial, const cedar_pair *pairs,
                                                    size_t count, size_t *position) {
    size_t unwanted = 0;
    return cedar_build_unsorted(d, ordered, max_trial, pairs, count, position ? position : &unwanted);
}
CEDAR_INLINE uint32_t cedar_nullable_build_unsorted_reduced(cedar_dictionary *d, bool ordered, int32_t max_trial, const cedar_pair *pairs,
                                                            size_t count, size_t *position) {
    size_t unwanted = 0;
    return cedar_build_unsorted_reduced(d, ordered, max_trial, pairs, count, position ? position : &unwanted);
}
CEDAR_INLINE uint32_t cedar_nullable_keys(const cedar_dictionary *d, uint8_t *buffer, size_t room, size_t *needed) {
    size_t unwanted = 0;
    return cedar_keys(d, buffer, room, needed ? needed : &unwanted);
}
CEDAR_INLINE uint32_t cedar_nullable_cheapest(const cedar_dictionary *d, const uint8_t *text, size_t length, uint32_t unknown,
                                              bool by_characters, cedar_found *found, size_t room, size_t *needed) {
    size_t unwanted = 0;
    return cedar_cheapest(d, text, length, unknown, by_characters, found, room, needed ? needed : &unwanted);
}
CEDAR_INLINE uint32_t cedar_nullable_cheapest_by(const cedar_dictionary *d, const uint8_t *text, size_t length, const uint32_t *costs,
                                                 size_t count, uint32_t beyond, const cedar_range *kinds, size_t ranges, uint32_t unknown,
                                                 size_t most, bool beside_keys, cedar_found *found, size_t room, size_t *needed) {
    size_t unwanted = 0;
    return cedar_cheapest_by(d, text, length, costs, count, beyond, kinds, ranges, unknown, most, beside_keys, found, room,
                             needed ? needed : &unwanted);
}
CEDAR_INLINE uint32_t cedar_nullable_erase_prefix(cedar_dictionary *d, const uint8_t *prefix, size_t length, size_t *erased) {
    size_t unwanted = 0;
    return cedar_erase_prefix(d, prefix, length, erased ? erased : &unwanted);
}
CEDAR_INLINE uint32_t cedar_nullable_entries_from(const cedar_dictionary *d, const uint8_t *prefix, size_t prefix_length,
                                                  const uint8_t *behind, size_t behind_length, cedar_found *found, size_t places,
                                                  uint8_t *bytes, size_t room, size_t *count, size_t *needed) {
    size_t unwanted = 0;
    return cedar_entries_from(d, prefix, prefix_length, behind, behind_length, found, places, bytes, room, count,
                              needed ? needed : &unwanted);
}
CEDAR_INLINE uint32_t cedar_nullable_entries_below(const cedar_dictionary *d, const uint8_t *prefix, size_t prefix_length,
                                                   const uint8_t *behind, size_t behind_length, cedar_found *found, size_t places,
                                                   uint8_t *bytes, size_t room, size_t *count, size_t *needed) {
    size_t unwanted = 0;
    return cedar_entries_below(d, prefix, prefix_length, behind, behind_length, found, places, bytes, room, count,
                               needed ? needed : &unwanted);
}
CEDAR_INLINE uint32_t cedar_nullable_best(const cedar_dictionary *d, const uint8_t *prefix, size_t length, bool lowest_first,
                                          cedar_found *found, size_t places, uint8_t *bytes, size_t room, size_t *count, size_t *needed) {
    size_t unwanted = 0;
    return cedar_best(d, prefix, length, lowest_first, found, places, bytes, room, count, needed ? needed : &unwanted);
}
CEDAR_INLINE uint32_t cedar_nullable_floor(const cedar_dictionary *d, const uint8_t *key, size_t length, bool included, uint8_t *buffer,
                                           size_t room, int32_t *value, size_t *needed) {
    size_t unwanted = 0;
    return cedar_floor(d, key, length, included, buffer, room, value, needed ? needed : &unwanted);
}
CEDAR_INLINE uint32_t cedar_nullable_ceiling(const cedar_dictionary *d, const uint8_t *key, size_t length, bool included, uint8_t *buffer,
                                             size_t room, int32_t *value, size_t *needed) {
    size_t unwanted = 0;
    return cedar_ceiling(d, key, length, included, buffer, room, value, needed ? needed : &unwanted);
}
CEDAR_INLINE uint32_t cedar_nullable_next_near(const cedar_dictionary *d, const uint8_t *query, size_t length, bool two_edits,
                                               bool is_beginning, const uint8_t *behind, size_t behind_length, uint8_t *buffer,
                                               size_t room, int32_t *value, size_t *needed) {
    size_t unwanted = 0;
    return cedar_next_near(d, query, length, two_edits, is_beginning, behind, behind_length, buffer, room, value,
                           needed ? needed : &unwanted);
}
CEDAR_INLINE uint32_t cedar_nullable_next_near_text(const cedar_dictionary *d, const uint8_t *query, size_t length, bool two_edits,
                                                    bool is_beginning, const uint8_t *behind, size_t behind_length, uint8_t *buffer,
                                                    size_t room, int32_t *value, size_t *needed) {
    size_t unwanted = 0;
    return cedar_next_near_text(d, query, length, two_edits, is_beginning, behind, behind_length, buffer, room, value,
                                needed ? needed : &unwanted);
}
CEDAR_INLINE uint32_t cedar_nullable_next_fitting(const cedar_dictionary *d, const uint8_t *pattern, size_t length, const uint8_t *behind,
                                                  size_t behind_length, uint8_t *buffer, size_t room, int32_t *value, size_t *needed) {
    size_t unwanted = 0;
    return cedar_next_fitting(d, pattern, length, behind, behind_length, buffer, room, value, needed ? needed : &unwanted);
}
#define cedar_entries_from cedar_nullable_entries_from
#define cedar_next_near cedar_nullable_next_near
#define cedar_next_near_text cedar_nullable_next_near_text
#define cedar_next_fitting cedar_nullable_next_fitting
#define cedar_best cedar_nullable_best
#define cedar_floor cedar_nullable_floor
#define cedar_ceiling cedar_nullable_ceiling
#define cedar_entries_below cedar_nullable_entries_below
#define cedar_save cedar_nullable_save
#define cedar_update cedar_nullable_update
#define cedar_insert cedar_nullable_insert
#define cedar_update_all cedar_nullable_update_all
#define cedar_build cedar_nullable_build
#define cedar_build_reduced cedar_nullable_build_reduced
#define cedar_build_unsorted cedar_nullable_build_unsorted
#define cedar_build_unsorted_reduced cedar_nullable_build_unsorted_reduced
#define cedar_keys cedar_nullable_keys
#define cedar_cheapest cedar_nullable_cheapest
#define cedar_cheapest_by cedar_nullable_cheapest_by
#define cedar_erase_prefix cedar_nullable_erase_prefix

/* Faulty pairs, files by their paths, and the version. These calls are C beside the proved library: tested, and not proved. */

/* Returns the index of the first pair that has a fault of its own: an empty key, a byte 0 in the key, or a value out of range. If there is
 * none, it returns `count`. Once cedar_update_all or a build has returned CEDAR_EMPTY_KEY, CEDAR_NUL_BYTE or CEDAR_INVALID_VALUE, this is
 * the pair that it speaks of. */
size_t cedar_faulty_pair(const cedar_pair *pairs, size_t count);

/* The version of this header, and that of the library. A program may compare the two. */
#define CEDAR_VERSION_MAJOR 0
#define CEDAR_VERSION_MINOR 1
#define CEDAR_VERSION_PATCH 0
#define CEDAR_VERSION "0.1.0"
const char *cedar_version(void);

/* As cedar_load_any, for the file at a path, which ends with a byte 0. It reads at most 89 bytes more than memory_limit, so that a file
 * that doesn't end is refused. Also returns CEDAR_FILE_UNREAD if a call on the file failed; errno has the reason. It also allocates the
 * file's bytes. */
uint32_t cedar_load_file(cedar_dictionary *d, const char *path, size_t memory_limit);

/* Replaces the file at a path with the file of *d, as cedar_save makes it. How that is done, and what is at the path after an error, is
 * said at cedar_replace_file. Returns CEDAR_OK, CEDAR_IS_CLOSED, CEDAR_MEMORY, or CEDAR_FILE_UNREAD if a call on a file failed; errno has
 * the reason. */
uint32_t cedar_save_file(const cedar_dictionary *d, bool is_full, const char *path);

/* Replaces the file at a path, which ends with a byte 0, with a file of these bytes. They are written to a new file in the same folder.
 * Once that is whole and on the disk, it is renamed to the path, and then the folder is put on the disk too. So a crash of the process or
 * the machine at any moment leaves the old file or the new one at the path, and after CEDAR_OK the new one.
 *
 * - The new file's name is that of the path with `.new` behind it, or with `.1.new` to `.99.new` if something has that name already. What
 *   has such a name stays as it is, and a link isn't followed. If all of them are taken, errno is EEXIST. Where the name would have more
 *   than 255 bytes, its first 247 come before the suffix, or up to 3 fewer, so that no character of UTF-8 is cut.
 * - It gets the mode of the old file, and its owner and group. If the system doesn't allow both, or keeps no owner (EPERM, EINVAL, ENOSYS
 *   or ENOTSUP), it gets the group alone, or neither, and not the bits set-user-ID and set-group-ID. Any other error of these calls is one
 *   of this call. Access lists and other attributes aren't kept. Until it is whole, only the user who writes it may read it. If there is no
 *   old file, the mode is 0666 without the bits of the umask from the beginning.
 * - A symbolic link at the path is replaced by the file, and what it leads to stays. The mode and the owner are of what it leads to, or
 *   where that isn't there or may not be looked at, those of a new file.
 * - A pipe, a device, or what else isn't a file is written to directly. If a file has come to the path meanwhile, it stays as it is, and
 *   errno is ENOTSUP.
 * - Any number of processes and threads may replace the same file at the same time. Then it is the whole file of one of them.
 *
 * Returns CEDAR_OK, or CEDAR_FILE_UNREAD if a call on a file failed; errno has the reason. Then the old file is as it was, and the new one
 * is removed if that is possible. If only the last step failed, to put the folder on the disk, the new file is at the path, and a crash of
 * the machine may bring the old one back. A crash in the course of the call may leave the new file under its first name. The folder has to
 * be readable, since it is opened before anything is written. */
uint32_t cedar_replace_file(const char *path, const uint8_t *bytes, size_t length);

/* Stores: dictionaries whose changes are in a file before they are acknowledged. The proved library decides what is written to the file,
 * and in which order; the calls of the system are C beside it, tested and not proved. No crash of the process or the machine takes an
 * acknowledged change away, if the disk keeps what it has acknowledged, and no program writes to the file but by a store. docs/STORE.md
 * describes the file.
 *
 * A store is locked as long as it is open (flock), against every program that opens it by this library, by the crates, or by ./roskvidh.
 * After a fork the child writes nothing to the file, and doesn't compact it. What would write returns CEDAR_STORE_LOCKED: a change that
 * doesn't wait, cedar_store_apply, cedar_store_compact, and any call but cedar_store_close that would put changes that wait on the disk.
 * Those wait on, and so does the call's own change, if it makes one: the dictionary has it. A change that only waits returns CEDAR_OK, and
 * never comes to the disk. So it is in each child of the child, and whatever numbers these processes have: the system wipes a mark of the
 * opener in each child (MADV_WIPEONFORK), by which they are told. Before Linux 4.14 a handler of pthread_atfork does so, which the bare
 * call of the system passes by. The lock ends once the parent has closed the store, or has ended, and each such child has closed it,
 * started another program, or ended. The mark is a page of memory, which all stores of a process share; the first opening takes it, but
 * for one to read, and the process keeps it to its end. */

/* A store. It is initialised with CEDAR_STORE_CLOSED, and only these calls change it. It may be moved. */
typedef struct cedar_store {
    cedar_dictionary dictionary;
    struct cedar_store_file *file;
    size_t damaged_at;
} cedar_store;

#define CEDAR_STORE_CLOSED { CEDAR_CLOSED, NULL, 0 }

/* Opens *s with the store of the file at a path. A missing file is created. All changes in the file are made again, which takes their time,
 * and memory for the file's bytes. What a crash has left of a change that wasn't acknowledged is cut off. If whole records may be in
 * that, it is kept beside the file: see cedar_store_kept. Returns:
 *
 * - CEDAR_OK.
 * - CEDAR_STORE_LOCKED if the store is open already, in another program or by another variable. Nothing was written.
 * - CEDAR_STORE_FOREIGN, CEDAR_STORE_CORRUPT, CEDAR_MEMORY or CEDAR_SLOT_LIMIT: nothing was written. CEDAR_MEMORY is also returned if
 *   there is none for the mark of this process.
 * - CEDAR_STORE_DAMAGED if a record isn't whole, or has another sum, which no crash leaves. Nothing was written. cedar_store_damaged_at
 *   says where in the file it begins. Records of a file of version 1 have no sums (docs/STORE.md).
 * - CEDAR_STORE_DEVICE if a call on the file failed, or if the path has something other than a file (EINVAL): errno has the reason, and the
 *   file still has the same dictionary. Once it is open again, compact it before anything else: after a sync that failed, the system may
 *   show of the file what the disk hasn't got.
 *
 * If *s is open it is closed first, as cedar_store_close does. But if it has changes that wait and these can't be put on the disk, this is
 * what the call returns, with the statuses of cedar_store_sync, and it opens nothing. After any other error *s is closed. */
uint32_t cedar_store_open(cedar_store *s, const char *path);

/* As cedar_store_open, with a dictionary of the reduced layout. The file itself has no layout. */
uint32_t cedar_store_open_reduced(cedar_store *s, const char *path);

/* Opens a store to look at it. It takes no lock, and nothing is created or written: the file, its folder and its disk may be such as can
 * only be read. It works beside a program that changes the store. *s then has the changes that were acknowledged before the call, and of
 * those that are made in the course of it the first ones. Later ones it doesn't see. Each change of *s returns CEDAR_STORE_READ_ONLY and
 * changes nothing. Otherwise as cedar_store_open. */
uint32_t cedar_store_open_to_read(cedar_store *s, const char *path);

/* How a store is opened, as bits. */
enum {
    CEDAR_OPEN_REDUCED = 1,  /* with a dictionary of the reduced layout */
    CEDAR_OPEN_EXISTING = 2, /* a missing file isn't created: errno is ENOENT */
    CEDAR_OPEN_NEW = 4,      /* the file is created: errno is EEXIST if there is one, also by a link, or if another program has written to
                              * it before it is locked */
    CEDAR_OPEN_TO_READ = 8   /* as cedar_store_open_to_read */
};

/* As cedar_store_open, with these bits. Bits that aren't known, or can't be met together, are refused with CEDAR_STORE_DEVICE and EINVAL,
 * and *s is as it was. */
uint32_t cedar_store_open_with(cedar_store *s, const char *path, uint32_t how);

/* Returns at which byte of the file the damaged record begins, if the last opening of *s returned CEDAR_STORE_DAMAGED. Otherwise 0. */
CEDAR_INLINE size_t cedar_store_damaged_at(const cedar_store *s) {
    return s->damaged_at;
}

/* Returns the path of the file that keeps what the opening of *s cut off, or NULL if nothing had to be kept, or if *s is closed. The path
 * ends with a byte 0, and lives until *s is closed or opened again.
 *
 * A crash leaves at most the record under way behind the end of a file's records, as far as any test has found. If whole records are
 * there, somebody else has closed a gate, which takes all later records with it. If that may be so, an opening first puts all that it cuts
 * off, behind the file's header, into a new file beside it. That is on the disk before anything is cut.
 *
 * - It has the name of the store's file with `.cut` behind it, or `.1.cut` to `.99.cut` if something has that name. What has such a name
 *   stays as it is, and a link isn't followed. If that is a file with the very same bytes, which an earlier opening has kept, its path is
 *   returned, and none is made. If the path of the store is a link, it is beside what that leads to.
 * - It gets the mode and the owner of the store's file as a file of cedar_replace_file does, but before it is written: that may take
 *   set-user-ID and set-group-ID away.
 * - `./roskvidh recover` makes a store of its whole records.
 * - Of what is cut off at most 16 times the bytes are looked at. If that isn't enough to say that no record is whole, it is kept.
 *
 * If the new file can't be made, the opening returns CEDAR_MEMORY, or CEDAR_STORE_DEVICE (errno has the reason: EEXIST if all these names
 * are taken). Then nothing was written to the store's file, and it can be opened to read. */
const char *cedar_store_kept(const cedar_store *s);

/* Lends the dictionary of a store to the calls that take a const dictionary. It is closed if the store is. It lives as long as *s. */
CEDAR_INLINE const cedar_dictionary *cedar_store_dictionary(const cedar_store *s) {
    return &s->dictionary;
}

/* Stores a value at a key. If the key holds a value, the new one replaces it. CEDAR_OK acknowledges the change: it is on the disk, or waits
 * as cedar_store_sync_every says. CEDAR_IS_CLOSED, the first fault of the pair as of cedar_update, CEDAR_MEMORY, CEDAR_SLOT_LIMIT,
 * CEDAR_STORE_TOO_LONG and CEDAR_STORE_FULL leave the dictionary's keys and the file as they were. So does CEDAR_STORE_NO_ROOM if the disk
 * is full, or the file may not be longer (errno has the reason, as ENOSPC); but a change that waits goes on waiting with the others, and
 * the next one tries again. After CEDAR_STORE_DEVICE (errno has the reason) the dictionary has the change, and the file has it or not. From
 * then on each change returns CEDAR_STORE_FAILED and changes nothing, until cedar_store_compact has written all that the dictionary has to
 * a new file. To open the file again isn't enough where the machine may stop: what the system shows of a file after a failed call, the disk
 * needn't have. */
uint32_t cedar_store_update(cedar_store *s, const uint8_t *key, size_t length, int32_t value, size_t *position);

/* As cedar_store_update. After CEDAR_OK *held says whether the key held a value before, and if so *before is that value. */
uint32_t cedar_store_insert(cedar_store *s, const uint8_t *key, size_t length, int32_t value, bool *held, int32_t *before,
                            size_t *position);

/* Removes a key. After CEDAR_OK *held says whether it was held. If it wasn't, nothing changes, and nothing is written. Errors are those of
 * cedar_store_update, except that no pair has a fault and no slots are needed. */
uint32_t cedar_store_erase(cedar_store *s, const uint8_t *key, size_t length, bool *held);

/* A change of a batch: a value is put at a key, or if is_erasure the key is removed. */
typedef struct cedar_change {
    const uint8_t *key;
    size_t length;
    int32_t value;
    bool is_erasure;
} cedar_change;

/* Makes changes as one: all of them, or none. To drop them, don't make this call. They leave what they would leave one after another: of
 * each key the last one counts. Their record goes to the disk at once, after that of changes that wait, whatever cedar_store_sync_every
 * says, and a crash at any moment leaves a file with all of them or with none. It costs two syncs, and sorts the keys.
 *
 * After any error but CEDAR_STORE_DEVICE none is made, in the dictionary or in the file, though changes that waited may be on the disk by
 * then. After CEDAR_STORE_DEVICE the dictionary has all of them; or none, if the device failed at the changes that waited, or at the
 * compaction that these led to. *refused is the index of the first change whose pair has a fault, and *position that of a byte 0 in its
 * key; and if memory or slots run out at an update, *refused is the index of that. Both may be null. Otherwise the errors are those of
 * cedar_store_update; CEDAR_STORE_TOO_LONG says that all changes together have too many bytes for a record. */
uint32_t cedar_store_apply(cedar_store *s, const cedar_change *changes, size_t count, size_t *refused, size_t *position);

/* Sets how many changes go to the disk together from now on. With 1, the setting at first, each change is on the disk before it is
 * acknowledged. With a larger number, CEDAR_OK says that the dictionary has the change, and the change waits: the last of so many puts all
 * of them on the disk. With 0 they wait for cedar_store_sync. A crash takes away those that wait, all of them or none, and no others. Their
 * record has at most 2^32 bytes; a change that doesn't fit fails with CEDAR_STORE_TOO_LONG. Changes that wait now go to the disk first,
 * with the statuses of cedar_store_sync; unless that returns CEDAR_OK, the setting is as it was. */
uint32_t cedar_store_sync_every(cedar_store *s, size_t changes);

/* Puts the changes that wait on the disk as one: a crash at any moment leaves a file with all of them or with none. Then it compacts the
 * file if that is due, as a change does. If no change waits it does nothing. CEDAR_OK: the disk has all changes. Also returns
 * CEDAR_IS_CLOSED, and CEDAR_STORE_DEVICE and CEDAR_STORE_FAILED as cedar_store_update does. After CEDAR_STORE_NO_ROOM the changes wait on;
 * so they do after CEDAR_STORE_LOCKED, in a forked child. */
uint32_t cedar_store_sync(cedar_store *s);

/* Returns how many changes wait. 0 if closed. */
size_t cedar_store_waiting(const cedar_store *s);

/* Replaces the file by one that has the dictionary's entries alone, on the disk: some 10 bytes and the key for each. The changes that wait
 * are in it too. A store that has failed in a change goes on then, with all that its dictionary has. It takes the time of all entries, and
 * memory for 4 MiB and the longest key. A crash at any moment leaves the old file or the new one, which represent the same dictionary.
 *
 * The new file is made beside the old one, under its name with `.cedar-compaction` behind it. It is locked, and gets the old one's mode and
 * owner as a file of cedar_replace_file does, but before it is written: that may take set-user-ID and set-group-ID away. If a crash leaves
 * it there, the next opening that locks the store removes it, also one that then refuses the store's file. Returns:
 *
 * - CEDAR_OK; CEDAR_IS_CLOSED; CEDAR_STORE_READ_ONLY; CEDAR_STORE_LOCKED in a forked child.
 * - CEDAR_MEMORY and CEDAR_STORE_KEPT: the old file is there, and the store is as it was. After CEDAR_STORE_KEPT errno has the reason, as
 *   ENOSPC; EEXIST if there is a folder or a link of that name; ESTALE if the path has another file by now.
 * - CEDAR_STORE_DEVICE if the new file couldn't be given the name, or its folder couldn't be put on the disk: errno has the reason. The
 *   path has one of both files. The store has failed, and later calls of cedar_store_compact return CEDAR_STORE_FAILED: open it again, and
 *   compact it before anything else. */
uint32_t cedar_store_compact(cedar_store *s);

/* Sets when changes compact the file by themselves: if it has more than factor times the bytes that it would have behind a compaction, and
 * `spare` bytes more. At first these are 2 and 65536. A factor of 1 counts as 2, and with 0 no change does it. A change does so last, once
 * it is on the disk. Where changes wait, the call that puts them there does so, unless it is cedar_store_sync_every, cedar_store_close or
 * an opening. If that fails, it is no error of the change: cedar_store_last_compaction has it. Only if the store has failed then, the
 * change returns CEDAR_STORE_DEVICE. Returns CEDAR_OK or CEDAR_IS_CLOSED. */
uint32_t cedar_store_compact_beyond(cedar_store *s, size_t factor, size_t spare);

/* Returns the status of the last compaction since the store was opened, called or by itself. CEDAR_OK if there was none. */
uint32_t cedar_store_last_compaction(const cedar_store *s);

/* Returns how many bytes the file has, without changes that wait. 0 if closed. */
size_t cedar_store_file_len(const cedar_store *s);

/* Returns how many records the file has, without changes that wait. 0 if closed. A change is one; so are changes that went to the disk
 * together, and those of a cedar_store_apply. A compaction leaves one for each 4 MiB of entries; a program in Rattle leaves one for each
 * entry. A change that has failed on the disk isn't counted, though the file may have it. */
size_t cedar_store_records(const cedar_store *s);

/* Writes how many bytes the file would have behind a compaction. It takes the time of all entries. Returns CEDAR_OK, CEDAR_IS_CLOSED or
 * CEDAR_MEMORY. */
uint32_t cedar_store_compacted_len(const cedar_store *s, size_t *length);

/* Returns whether the device has failed in a change. False if closed. */
bool cedar_store_failed(const cedar_store *s);

/* Puts the changes that wait on the disk, closes the file, and frees the memory of *s. *s is closed then. Only cedar_store_sync says
 * whether the disk has the changes. Does nothing if *s is closed. */
void cedar_store_close(cedar_store *s);

#ifdef __cplusplus
}
#endif

#endif

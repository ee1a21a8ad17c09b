/* The extension's dictionary, and what its files share. */
#ifndef ROSKVIDH_CORE_H
#define ROSKVIDH_CORE_H

#define PY_SSIZE_T_CLEAN
#include <Python.h>
#include <pythread.h>
#include <stdbool.h>
#include <stddef.h>
#include <stdint.h>

#include "cedar.h"

/* The size of a page, a piece or a step. Tests compile the extension with small ones too, so that each of their ends comes often. */
#ifdef ROSKVIDH_SMALL
#define SIZED(usual, small) (small)
#else
#define SIZED(usual, small) (usual)
#endif

/* A dictionary as Python sees it. All fields are read and written under the interpreter's lock alone; but a call that changes `store`
 * without that lock has it for itself, and those that only read it have copies of its handle. */
typedef struct Core {
    PyObject_HEAD
    cedar_store store;      /* of a dictionary without a file it has the dictionary alone */
    struct Turn *turns;     /* the long calls under way */
    struct Waiter *line;    /* who waits, the first one first */
    size_t woken;           /* how many short calls wait no more, and haven't gone on yet */
    long process;           /* where all this is so */
    bool is_changing;       /* a long call that changes the dictionary is under way */
    bool is_open;
    bool is_text;             /* keys are str, stored as UTF-8 */
    bool is_ordered;
    bool is_reduced;
    int32_t max_trial;
    size_t longest;            /* no key is longer; SIZE_MAX where nobody has looked */
    size_t sync_every;         /* how many changes of a store go to the disk together; 0: they wait */
    size_t keys_changed;       /* how often a key came or went */
    unsigned long changed_by;  /* the thread that was the last one to do so: its iterations end by an error then */
    size_t values_changed;     /* how often a key's value was replaced */
    PyObject *blocks;          /* of blocks.c; NULL where no thread is in a block */
} Core;

/* The flags of the types. Headers from 3.10 on leave the last one out of the default ones, and Python 3.8 then frees what it still uses
 * once such a type has a subclass with a metaclass. */
#define TYPE_FLAGS (Py_TPFLAGS_DEFAULT | Py_TPFLAGS_HAVE_VERSION_TAG)

/* turns.c: who may call the library. */

/* A call's hold of a dictionary, from `turn_begin` to `turn_end`. */
typedef struct Turn {
    Core *core;
    const cedar *dictionary;  /* what a call that only reads goes by: `own`, a copy of the handle */
    cedar own;
    bool changes;             /* whether it changes the dictionary */
    bool is_long;
    bool is_listed;           /* among the core's turns */
    unsigned long owner;      /* its thread */
    PyThreadState *thread;    /* NULL while the call has the interpreter's lock */
    int64_t since;            /* when it took or gave up that lock, in nanoseconds */
    struct Turn *next;
} Turn;

/* What a call does with a dictionary. */
enum { READS, CHANGES };

int turn_wait(Core *core, bool changes);
int turn_alone(Core *core);
int turn_begin(Core *core, bool changes, bool is_long, Turn *turn);
void turn_yield(Turn *turn);
void turn_resume(Turn *turn);
int turn_step(Turn *turn);
void turn_end(Turn *turn);
void core_install(Core *core, cedar_store *fresh);
int core_close(Core *core);

/* Whether a short call that reads may go ahead: the dictionary is open, and no long call changes it. With the interpreter's lock held, it
 * has the dictionary until it gives that up or calls Python. */
static inline int core_ready(Core *core) {
    if (!core->is_changing && core->is_open) return 0;
    return turn_wait(core, READS);
}

/* The same for a short call that changes the dictionary: no long call is under way. */
static inline int core_alone(Core *core) {
    if (!core->turns && core->is_open) return 0;
    return turn_wait(core, CHANGES);
}

/* Notes that this thread has put a key in, or taken one out. */
static inline void note_keys(Core *core) {
    core->keys_changed++;
    core->changed_by = PyThread_get_thread_ident();
}

/* Notes how long a key is that may be stored. */
static inline void note_length(Core *core, size_t length) {
    if (core->longest < length) core->longest = length;
}

/* arguments.c: Python's objects as C takes them, and back. */

/* The bytes of a key or of a text, and the object that keeps them. */
typedef struct Span {
    PyObject *owner;
    const uint8_t *at;
    size_t length;
} Span;

int text_take(bool is_text, PyObject *given, Span *span);
int span_take(Core *core, PyObject *given, Span *span);
bool is_key_type(const Core *core, PyObject *given);
int value_take(PyObject *given, int32_t *value);
int cost_take(PyObject *given, uint32_t *cost);
PyObject *key_give(Core *core, const uint8_t *at, size_t length);
PyObject *pair_give(PyObject *key, int32_t value);
int fail_with(uint32_t status);
bool is_of_device(uint32_t status);
int fail_at(uint32_t status, const char *what, size_t position);
int key_test(const Span *key);
void name_item(const char *what, size_t position);
extern PyObject *cedar_error;
PyObject *type_of_keys(PyObject *type, PyObject *keys);

/* lookups.c: calls of one key. */
PyObject *core_subscript(Core *core, PyObject *key);
int core_assign(Core *core, PyObject *key, PyObject *value);
int core_contains(Core *core, PyObject *key);
Py_ssize_t core_length(Core *core);
PyObject *core_get(Core *core, PyObject *arguments);
PyObject *core_pop(Core *core, PyObject *arguments);
PyObject *core_setdefault(Core *core, PyObject *arguments);
PyObject *core_popitem(Core *core, PyObject *nothing);

/* blocks.c: changes of a store that are made as one. What the first two answer is an error where it is below 0. */
enum { BLOCK_SILENT = 2 };

/* Which keys are wanted: those that begin with a prefix, from `low` on and before `high`; NULL is no bound. */
typedef struct Bounds {
    const Span *prefix;
    const Span *low;
    const Span *high;
} Bounds;

struct Gathered;
int block_is_open(Core *core);
int block_find(Core *core, const uint8_t *at, size_t length, int32_t *value);
int block_put(Core *core, const Span *span, int32_t value);
int block_erase(Core *core, const uint8_t *at, size_t length);
Py_ssize_t block_count(Core *core);
int block_more(Core *core, const Span *prefix, Py_ssize_t *more);
int block_merge(Core *core, const Bounds *bounds, struct Gathered *gathered);
PyObject *core_begin_block(Core *core, PyObject *nothing);
PyObject *core_end_block(Core *core, PyObject *arguments);
PyObject *core_is_in_block(Core *core, PyObject *nothing);

/* gather.c: keys with their values, in memory of their own. */

/* `count` keys, one after another in `bytes`: for each its place there, its length and its value. */
typedef struct Gathered {
    uint8_t *bytes;
    size_t size;
    size_t room;
    cedar_found *found;
    size_t count;
    size_t places;
} Gathered;

/* A walk over the keys that are wanted, ascending by bytes, page by page. */
typedef struct Pages {
    Bounds bounds;
    Gathered page;   /* what was read last */
    size_t places;   /* how many keys the next page has at most; 0 where none comes any more */
    uint8_t *behind; /* the last key of the pages before */
    size_t length;
    size_t room;
} Pages;

/* Which keys are wanted: those near a query, or those that fit it as a pattern. */
typedef struct Wanted {
    Span query;
    int is_pattern;
    bool is_text; /* near by characters */
    int two_edits;
    int is_beginning; /* those that begin with what is near */
} Wanted;

void gathered_free(Gathered *gathered);
bool gathered_append(Gathered *gathered, const uint8_t *key, size_t length, int32_t value);
bool gathered_sort(Gathered *gathered);
bool gather_below(const cedar *dictionary, const Span *prefix, Gathered *gathered);
bool gather_unordered(const cedar *dictionary, const Bounds *bounds, Gathered *gathered);
bool gather_ordered(const cedar *dictionary, const Bounds *bounds, Gathered *gathered);
bool gather_first(const cedar *dictionary, Gathered *gathered);
bool gather_best(const cedar *dictionary, const Span *prefix, size_t most, bool lowest_first, Gathered *best);
uint32_t gather_neighbour(const cedar *dictionary, const Span *key, bool included, bool is_floor, Gathered *found);
uint32_t gather_wanted(const cedar *dictionary, const Wanted *wanted, const Span *behind, Gathered *found);
bool pages_begin(const cedar *dictionary, const Bounds *bounds, Pages *pages);
bool pages_read(const cedar *dictionary, Pages *pages);
void pages_free(Pages *pages);
bool is_within(const Bounds *bounds, const uint8_t *key, size_t length);

/* walks.c: iterations, completions, prefixes. */
extern PyType_Spec walk_spec;
extern PyTypeObject *walk_type;
enum { WALK_KEYS, WALK_VALUES, WALK_ITEMS };
PyObject *core_iterate(Core *core);
PyObject *core_walk(Core *core, PyObject *arguments);
PyObject *core_range(Core *core, PyObject *arguments);
PyObject *core_count(Core *core, PyObject *prefix);
PyObject *core_prefixes(Core *core, PyObject *text);
PyObject *core_longest_prefix(Core *core, PyObject *text);
PyObject *core_erase_prefix(Core *core, PyObject *prefix);
PyObject *core_best(Core *core, PyObject *arguments);
PyObject *core_neighbour(Core *core, PyObject *arguments);
PyObject *core_next_wanted(Core *core, PyObject *arguments);

/* matches.c: what stands in a text. */

/* What one call to the library found; `end` counts the matches up to its last one. */
typedef struct Piece {
    cedar_found *found;
    size_t count;
    size_t end;
} Piece;

typedef struct Matches {
    PyObject_HEAD
    Piece *pieces;
    size_t piece_count;
    size_t count;
} Matches;

/* Places of a piece, of 24 bytes each. Those that nothing is written to take no memory. */
enum { PIECE_LEAST = SIZED(64, 4), PIECE_MOST = SIZED(1 << 21, 64) };

Piece *piece_begin(Matches *matches, size_t places);
void piece_end(Matches *matches, Piece *piece, size_t count);
size_t characters(const uint8_t *at, size_t length);
extern PyType_Spec matches_spec;
extern PyTypeObject *matches_type;
extern PyTypeObject *match_type;
PyTypeObject *match_make(void);
PyObject *core_scan(Core *core, PyObject *text);
PyObject *core_segment(Core *core, PyObject *text);
PyObject *core_keywords(Core *core, PyObject *text);
PyObject *core_cheapest(Core *core, PyObject *arguments, PyObject *named);

/* scanners.c: keys found in linear time. */
extern PyType_Spec scanner_spec;

/* makes.c: what puts a dictionary in place, and what gives its file. */
bool is_long_table(const Core *core);
PyObject *core_open(Core *core, PyObject *arguments);
PyObject *core_build(Core *core, PyObject *arguments);
PyObject *core_build_unsorted(Core *core, PyObject *arguments);
PyObject *core_load(Core *core, PyObject *arguments);
extern PyTypeObject *core_type;
PyObject *core_open_copy(Core *core, PyObject *other);
PyObject *core_open_store(Core *core, PyObject *arguments);
int core_without_file(Core *core);
PyObject *core_kept(Core *core, PyObject *nothing);
PyObject *core_has_failed(Core *core, PyObject *nothing);
PyObject *core_sync(Core *core, PyObject *nothing);
PyObject *core_sync_every(Core *core, PyObject *given);
PyObject *core_waiting(Core *core, PyObject *nothing);
PyObject *core_compact(Core *core, PyObject *nothing);
PyObject *core_compact_beyond(Core *core, PyObject *arguments);
PyObject *core_file_figures(Core *core, PyObject *nothing);
PyObject *core_compacted_size(Core *core, PyObject *nothing);
PyObject *core_clear(Core *core, PyObject *nothing);
PyObject *core_shrink(Core *core, PyObject *nothing);
PyObject *core_update(Core *core, PyObject *pairs);
PyObject *core_erase_all(Core *core, PyObject *keys);
PyObject *core_dump(Core *core, PyObject *is_full);
PyObject *file_replace(PyObject *module, PyObject *arguments);

/* Work from which on a call is a long one. Of calls that are made piece by piece, and give the interpreter's lock up once they have held it
 * as long as Python's own code does: bytes of text, and pairs or keys of the caller's. Of those that aren't, and give it up at once: keys
 * that are walked over, keys that are put into a new table, slots, and bytes of a file. Each of these takes some milliseconds, since to get
 * the lock back may take as long. */
enum {
    LONG_TEXT = SIZED(4096, 1),
    LONG_LIST = SIZED(256, 1),
    LONG_WALK = SIZED(1 << 14, 2),
    LONG_BUILD = SIZED(1 << 12, 1),
    LONG_TABLE = SIZED(1 << 18, 1),
    LONG_FILE = SIZED(1 << 20, 1)
};

#endif

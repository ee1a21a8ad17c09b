/* What puts a dictionary in place, stores many pairs, and gives a file's bytes. */
#include "core.h"

#include <errno.h>
#include <stdlib.h>
#include <string.h>

/* Where a file's header has the settings: docs/FORMAT.md. */
enum { FILE_FLAGS = 14, FILE_MAX_TRIAL = 16, FILE_CAPACITY = 64, FILE_HEADER = 88 };

typedef struct Settings {
    int is_text;
    int is_ordered;
    int is_reduced;
    int32_t max_trial;
} Settings;

/* A number of trials as C takes it: one that C would cut off is refused as 0 is. */
static int trials_take(PyObject *given, int32_t *trials) {
    int overflow;
    if (PyBool_Check(given) || !PyLong_Check(given)) {
        PyErr_SetString(PyExc_TypeError, "max_trial is an int");
        return -1;
    }
    long long number = PyLong_AsLongLongAndOverflow(given, &overflow);
    if (overflow || number < 1 || number > INT32_MAX) return fail_with(CEDAR_INVALID_MAX_TRIAL);
    *trials = (int32_t)number;
    return 0;
}

/* The settings of a dictionary that is to be made where none is open. */
static int settings_take(Core *core, PyObject *arguments, Settings *settings, PyObject **pairs) {
    PyObject *trials;
    if (!PyArg_ParseTuple(arguments, "pppO|O", &settings->is_text, &settings->is_ordered, &settings->is_reduced, &trials, pairs)) return -1;
    if (trials_take(trials, &settings->max_trial) < 0) return -1;
    if (core->is_open) {
        PyErr_SetString(PyExc_ValueError, "the dictionary is open already");
        return -1;
    }
    return 0;
}

static PyObject *install_store(Core *core, cedar_store *fresh, Settings settings) {
    if (turn_alone(core) < 0) {
        cedar_store_close(fresh);
        return NULL;
    }
    core->is_text = settings.is_text;
    core->is_ordered = settings.is_ordered;
    core->is_reduced = settings.is_reduced;
    core->max_trial = settings.max_trial;
    core_install(core, fresh);
    Py_RETURN_NONE;
}

static PyObject *install(Core *core, cedar *fresh, Settings settings) {
    cedar_store whole = CEDAR_STORE_CLOSED;
    whole.dictionary = *fresh;
    return install_store(core, &whole, settings);
}

/* Fails where changes go to a file one by one. */
int core_without_file(Core *core) {
    if (!core->store.file) return 0;
    PyErr_SetString(PyExc_ValueError, "a store takes one change at a time");
    return -1;
}

static uint32_t make_empty(cedar *fresh, Settings settings) {
    return (settings.is_reduced ? cedar_new_reduced : cedar_new_with)(fresh, settings.is_ordered, settings.max_trial);
}

PyObject *core_open(Core *core, PyObject *arguments) {
    Settings settings;
    cedar fresh = CEDAR_CLOSED;
    if (settings_take(core, arguments, &settings, NULL) < 0) return NULL;
    uint32_t status = make_empty(&fresh, settings);
    core->longest = 0;
    if (status == CEDAR_OK) return install(core, &fresh, settings);
    fail_with(status);
    return NULL;
}

/* Whether a call that goes through the whole table is a long one. */
bool is_long_table(const Core *core) {
    return cedar_capacity(&core->store.dictionary) > LONG_TABLE;
}

/* Calls what changes a dictionary as a whole. */
static PyObject *change_whole(Core *core, uint32_t (*change)(cedar *), bool is_long) {
    Turn turn;
    if (turn_begin(core, CHANGES, is_long, &turn) < 0) return NULL;
    turn_yield(&turn);
    size_t before = cedar_len(&core->store.dictionary);
    uint32_t status = change(&core->store.dictionary);
    size_t after = cedar_len(&core->store.dictionary);
    turn_end(&turn);
    if (after != before) note_keys(core);
    if (status != CEDAR_OK) {
        fail_with(status);
        return NULL;
    }
    Py_RETURN_NONE;
}

static uint32_t clear_open(cedar *dictionary) {
    cedar_clear(dictionary);
    return CEDAR_OK;
}

/* Takes all keys out, and keeps their memory. */
PyObject *core_clear(Core *core, PyObject *nothing) {
    (void)nothing;
    if (core_without_file(core) < 0 || core_ready(core) < 0) return NULL;
    return change_whole(core, clear_open, is_long_table(core));
}

/* Gives the memory back that the keys don't need. */
PyObject *core_shrink(Core *core, PyObject *nothing) {
    (void)nothing;
    if (core_ready(core) < 0) return NULL;
    return change_whole(core, cedar_shrink, is_long_table(core) || cedar_len(&core->store.dictionary) > LONG_BUILD);
}

/* Pairs as C takes them, and the objects that keep their keys. */
typedef struct Pairs {
    PyObject *owners;
    cedar_pair *pairs;
    size_t count;
    size_t room;
    size_t longest;  /* no key is longer */
} Pairs;

static void pairs_free(Pairs *pairs) {
    Py_CLEAR(pairs->owners);
    free(pairs->pairs);
}

/* Makes room for one thing of a size behind `count` of them. */
static int make_place(void **memory, size_t count, size_t *room, size_t size) {
    if (count < *room) return 0;
    size_t places = *room ? 2 * *room : 16;
    void *grown = places > PTRDIFF_MAX / size ? NULL : realloc(*memory, places * size);
    if (!grown) return fail_with(CEDAR_MEMORY);
    *memory = grown;
    *room = places;
    return 0;
}

/* Each so many items of an iterable signals are handled: not every iterator runs code of Python's, which does so. */
enum { ITEMS_DEAF = SIZED(4096, 2) };

static int handle_signals(size_t count) {
    return count % ITEMS_DEAF == 0 ? PyErr_CheckSignals() : 0;
}

static int pairs_append(Core *core, Pairs *pairs, PyObject *key, PyObject *value) {
    Span span;
    int32_t number;
    if (value_take(value, &number) < 0 || span_take(core, key, &span) < 0) return -1;
    int done = key_test(&span);
    if (done == 0) done = PyList_Append(pairs->owners, span.owner);
    Py_DECREF(span.owner);
    if (done < 0) return -1;
    if (make_place((void **)&pairs->pairs, pairs->count, &pairs->room, sizeof *pairs->pairs) < 0) return -1;
    pairs->pairs[pairs->count++] = (cedar_pair){span.at, span.length, number};
    if (pairs->longest < span.length) pairs->longest = span.length;
    return 0;
}

/* One item of an iterable. The errors are those of a dict; one of a key or a value says of which pair it is. */
static int pairs_append_item(Core *core, Pairs *pairs, PyObject *item) {
    PyObject *pair = PySequence_Tuple(item);
    if (!pair) {
        if (!PyErr_ExceptionMatches(PyExc_TypeError)) return -1;
        PyErr_Format(PyExc_TypeError, "pair %zu can't be converted to a sequence", pairs->count);
        return -1;
    }
    int done = -1;
    Py_ssize_t length = PyTuple_Size(pair);
    if (length == 2) {
        done = pairs_append(core, pairs, PyTuple_GetItem(pair, 0), PyTuple_GetItem(pair, 1));
        if (done < 0) name_item("pair", pairs->count);
    } else {
        PyErr_Format(PyExc_ValueError, "pair %zu has length %zd; 2 is required", pairs->count, length);
    }
    Py_DECREF(pair);
    return done < 0 ? -1 : handle_signals(pairs->count);
}

static int pairs_take(Core *core, PyObject *given, Pairs *pairs) {
    memset(pairs, 0, sizeof *pairs);
    pairs->owners = PyList_New(0);
    /* C is told a place even where there are no pairs. */
    pairs->pairs = malloc(sizeof *pairs->pairs);
    if (!pairs->pairs) fail_with(CEDAR_MEMORY);
    PyObject *iterator = pairs->owners && pairs->pairs ? PyObject_GetIter(given) : NULL, *item;
    if (iterator) {
        pairs->room = 1;
        while ((item = PyIter_Next(iterator))) {
            int done = pairs_append_item(core, pairs, item);
            Py_DECREF(item);
            if (done < 0) break;
        }
        Py_DECREF(iterator);
    }
    if (!PyErr_Occurred()) return 0;
    pairs_free(pairs);
    return -1;
}

static PyObject *pairs_fail(uint32_t status, size_t position) {
    if (status == CEDAR_DUPLICATE_KEY || status == CEDAR_KEYS_NOT_SORTED) fail_at(status, "pair", position);
    else fail_with(status);
    return NULL;
}

/* A piece of a list that a long call goes through: so many items and bytes of keys at most, if not a single one. */
enum { PIECE_ITEMS = SIZED(1024, 3), PIECE_BYTES = SIZED(1 << 16, 9) };

/* How many pairs the next piece has. */
static size_t pairs_piece(const cedar_pair *pairs, size_t left) {
    size_t count = 0, bytes = 0;
    while (count < left && count < PIECE_ITEMS && bytes < PIECE_BYTES) bytes += pairs[count++].length;
    return count;
}

/* Stores pairs without a fault, piece by piece. False where a signal has ended it: then the first ones are stored. */
static bool update_pairs(Turn *turn, const Pairs *pairs, uint32_t *status) {
    size_t position = 0;
    for (size_t at = 0, count; at < pairs->count && *status == CEDAR_OK; at += count) {
        count = pairs_piece(pairs->pairs + at, pairs->count - at);
        *status = cedar_update_all(&turn->core->store.dictionary, pairs->pairs + at, count, &position);
        if (turn_step(turn) < 0) return false;
    }
    return true;
}

PyObject *core_update(Core *core, PyObject *given) {
    Pairs pairs;
    Turn turn;
    uint32_t status = CEDAR_OK;
    if (core_without_file(core) < 0 || pairs_take(core, given, &pairs) < 0) return NULL;
    bool done = turn_begin(core, CHANGES, pairs.count >= LONG_LIST, &turn) == 0;
    if (done) {
        note_length(core, pairs.longest);
        size_t before = cedar_len(&core->store.dictionary);
        done = update_pairs(&turn, &pairs, &status);
        size_t after = cedar_len(&core->store.dictionary);
        turn_end(&turn);
        if (after != before) note_keys(core);
        core->values_changed++;
    }
    pairs_free(&pairs);
    if (!done) return NULL;
    if (status != CEDAR_OK) return pairs_fail(status, 0);
    Py_RETURN_NONE;
}

/* Gives the interpreter's lock up for work on what nobody else knows, where there is much of it. */
static PyThreadState *begin_apart(bool is_long) {
    return is_long ? PyEval_SaveThread() : NULL;
}

static void end_apart(PyThreadState *thread) {
    if (thread) PyEval_RestoreThread(thread);
}

typedef uint32_t (*Build)(cedar *, bool, int32_t, const cedar_pair *, size_t, size_t *);

static PyObject *build_by(Core *core, PyObject *arguments, Build build, Build build_reduced) {
    Settings settings;
    Pairs pairs;
    PyObject *given = NULL;
    cedar fresh = CEDAR_CLOSED;
    size_t position = 0;
    if (settings_take(core, arguments, &settings, &given) < 0) return NULL;
    core->is_text = settings.is_text;
    if (pairs_take(core, given, &pairs) < 0) return NULL;
    PyThreadState *thread = begin_apart(pairs.count > LONG_BUILD);
    Build call = settings.is_reduced ? build_reduced : build;
    uint32_t status = call(&fresh, settings.is_ordered, settings.max_trial, pairs.pairs, pairs.count, &position);
    end_apart(thread);
    pairs_free(&pairs);
    core->longest = pairs.longest;
    return status == CEDAR_OK ? install(core, &fresh, settings) : pairs_fail(status, position);
}

PyObject *core_build(Core *core, PyObject *arguments) {
    return build_by(core, arguments, cedar_build, cedar_build_reduced);
}

PyObject *core_build_unsorted(Core *core, PyObject *arguments) {
    return build_by(core, arguments, cedar_build_unsorted, cedar_build_unsorted_reduced);
}

/* Keys as C takes them, and the objects that keep them. */
typedef struct Keys {
    PyObject *owners;
    cedar_key *keys;
    size_t count;
    size_t room;
} Keys;

static void keys_free(Keys *keys) {
    Py_CLEAR(keys->owners);
    free(keys->keys);
}

static int keys_append(Core *core, Keys *keys, PyObject *key) {
    Span span;
    if (span_take(core, key, &span) < 0) {
        name_item("key", keys->count);
        return -1;
    }
    int done = PyList_Append(keys->owners, span.owner);
    Py_DECREF(span.owner);
    if (done < 0 || make_place((void **)&keys->keys, keys->count, &keys->room, sizeof *keys->keys) < 0) return -1;
    keys->keys[keys->count++] = (cedar_key){span.at, span.length};
    return handle_signals(keys->count);
}

static int keys_take(Core *core, PyObject *given, Keys *keys) {
    memset(keys, 0, sizeof *keys);
    keys->owners = PyList_New(0);
    /* C is told a place even where there are no keys. */
    if (keys->owners) make_place((void **)&keys->keys, 0, &keys->room, sizeof *keys->keys);
    PyObject *iterator = keys->keys ? PyObject_GetIter(given) : NULL, *key;
    if (iterator) {
        while ((key = PyIter_Next(iterator))) {
            int done = keys_append(core, keys, key);
            Py_DECREF(key);
            if (done < 0) break;
        }
        Py_DECREF(iterator);
    }
    if (!PyErr_Occurred()) return 0;
    keys_free(keys);
    return -1;
}

/* Takes keys out, piece by piece, and counts those that were held. False where a signal has ended it: then the first ones are taken out. */
static bool erase_keys(Turn *turn, const Keys *keys, size_t *erased) {
    bool unwanted = false;
    for (size_t at = 0, count; at < keys->count; at += count) {
        count = keys->count - at < PIECE_ITEMS ? keys->count - at : PIECE_ITEMS;
        *erased += cedar_erase_all(&turn->core->store.dictionary, keys->keys + at, count, &unwanted, 0);
        if (turn_step(turn) < 0) return false;
    }
    return true;
}

/* Takes the keys of an iterable out, and returns how many were held. */
PyObject *core_erase_all(Core *core, PyObject *given) {
    Keys keys;
    Turn turn;
    size_t erased = 0;
    if (core_without_file(core) < 0 || keys_take(core, given, &keys) < 0) return NULL;
    bool done = turn_begin(core, CHANGES, keys.count >= LONG_LIST, &turn) == 0;
    if (done) {
        done = erase_keys(&turn, &keys, &erased);
        turn_end(&turn);
        if (erased > 0) note_keys(core);
    }
    keys_free(&keys);
    return done ? PyLong_FromSize_t(erased) : NULL;
}

static int fail_no_text(void) {
    PyErr_SetString(PyExc_ValueError, "the file has a key that isn't UTF-8: load it with text=False");
    return -1;
}

/* Keys are UTF-8 where all of them together are, and each begins with a character. */
static int test_keys(const Gathered *all, size_t *longest) {
    PyObject *text = PyUnicode_DecodeUTF8((const char *)all->bytes, (Py_ssize_t)all->size, NULL);
    if (!text) return PyErr_ExceptionMatches(PyExc_UnicodeDecodeError) ? fail_no_text() : -1;
    Py_DECREF(text);
    *longest = 0;
    for (size_t i = 0; i < all->count; i++) {
        if ((all->bytes[all->found[i].place] & 0xC0) == 0x80) return fail_no_text();
        if (*longest < all->found[i].length) *longest = all->found[i].length;
    }
    return 0;
}

/* A dictionary of str holds UTF-8 alone. Nobody else knows this one yet. Tells how long its longest key is. */
static int test_text(const cedar *dictionary, size_t *longest) {
    Gathered all = {0};
    Span root = {NULL, (const uint8_t *)"", 0};
    PyThreadState *thread = begin_apart(cedar_len(dictionary) > LONG_WALK);
    bool is_gathered = gather_below(dictionary, &root, &all);
    end_apart(thread);
    int done = is_gathered ? test_keys(&all, longest) : fail_with(CEDAR_MEMORY);
    gathered_free(&all);
    return done;
}

/* Whether the load of a file is a long call: it has many bytes, or tells of many slots. */
static bool is_long_file(const uint8_t *bytes, size_t length) {
    uint64_t capacity = 0;
    for (size_t i = 0; i < sizeof capacity && length >= FILE_HEADER; i++) capacity |= (uint64_t)bytes[FILE_CAPACITY + i] << 8 * i;
    return length > LONG_FILE || capacity > LONG_TABLE;
}

PyObject *core_load(Core *core, PyObject *arguments) {
    const char *data;
    Py_ssize_t length, memory_limit;
    Settings settings = {0};
    cedar fresh = CEDAR_CLOSED;
    if (!PyArg_ParseTuple(arguments, "py#n", &settings.is_text, &data, &length, &memory_limit)) return NULL;
    if (memory_limit < 0) {
        PyErr_SetString(PyExc_ValueError, "a memory limit is 0 or more");
        return NULL;
    }
    const uint8_t *at = (const uint8_t *)data;
    PyThreadState *thread = begin_apart(is_long_file(at, (size_t)length));
    uint32_t status = cedar_load_any(&fresh, at, (size_t)length, (size_t)memory_limit);
    end_apart(thread);
    if (status != CEDAR_OK) {
        fail_with(status);
        return NULL;
    }
    core->longest = SIZE_MAX;
    if (settings.is_text && test_text(&fresh, &core->longest) < 0) {
        cedar_free(&fresh);
        return NULL;
    }
    const uint8_t *trials = at + FILE_MAX_TRIAL;
    settings.is_ordered = at[FILE_FLAGS] & 1;
    settings.is_reduced = cedar_is_reduced(&fresh);
    settings.max_trial = (int32_t)(trials[0] | (uint32_t)trials[1] << 8 | (uint32_t)trials[2] << 16 | (uint32_t)trials[3] << 24);
    return install(core, &fresh, settings);
}

/* Opens the dictionary with a copy of another one. */
PyObject *core_open_copy(Core *core, PyObject *given) {
    Turn turn;
    cedar fresh = CEDAR_CLOSED;
    if (!PyObject_TypeCheck(given, core_type)) {
        PyErr_SetString(PyExc_TypeError, "a copy is of a dictionary");
        return NULL;
    }
    Core *other = (Core *)given;
    if (core_ready(other) < 0 || turn_begin(other, READS, is_long_table(other), &turn) < 0) return NULL;
    Settings settings = {other->is_text, other->is_ordered, other->is_reduced, other->max_trial};
    core->longest = other->longest;
    turn_yield(&turn);
    uint32_t status = cedar_clone(turn.dictionary, &fresh);
    turn_end(&turn);
    if (status == CEDAR_OK) return install(core, &fresh, settings);
    fail_with(status);
    return NULL;
}

/* Opens the store of the file at a path, by the bits of cedar_store_open_with. */
PyObject *core_open_store(Core *core, PyObject *arguments) {
    const char *path;
    unsigned how;
    Settings settings = {0};
    cedar_store fresh = CEDAR_STORE_CLOSED;
    if (!PyArg_ParseTuple(arguments, "yppI", &path, &settings.is_text, &settings.is_reduced, &how)) return NULL;
    if (settings.is_reduced) how |= CEDAR_OPEN_REDUCED;
    if (core->is_open) {
        PyErr_SetString(PyExc_ValueError, "the store is open already");
        return NULL;
    }
    uint32_t status;
    int cause;
    Py_BEGIN_ALLOW_THREADS
    status = cedar_store_open_with(&fresh, path, how);
    cause = errno;
    Py_END_ALLOW_THREADS
    errno = cause;
    if (status != CEDAR_OK) {
        if (is_of_device(status)) PyErr_SetFromErrnoWithFilename(PyExc_OSError, path);
        else if (status == CEDAR_STORE_DAMAGED) fail_at(status, "byte", cedar_store_damaged_at(&fresh));
        else fail_with(status);
        return NULL;
    }
    core->longest = SIZE_MAX;
    if (settings.is_text && test_text(&fresh.dictionary, &core->longest) < 0) {
        cedar_store_close(&fresh);
        return NULL;
    }
    settings.is_ordered = true;
    settings.max_trial = 1;
    return install_store(core, &fresh, settings);
}

/* Makes a call that puts changes on the disk, and lets other threads run meanwhile. errno stays that of the call. */
static PyObject *sync_by(Core *core, uint32_t (*call)(cedar_store *, size_t), size_t given) {
    Turn turn;
    if (turn_begin(core, CHANGES, true, &turn) < 0) return NULL;
    turn_yield(&turn);
    uint32_t status = call(&core->store, given);
    int cause = errno;
    turn_end(&turn);
    errno = cause;
    if (status == CEDAR_OK) Py_RETURN_NONE;
    fail_with(status);
    return NULL;
}

static uint32_t sync_now(cedar_store *s, size_t unused) {
    (void)unused;
    return cedar_store_sync(s);
}

PyObject *core_sync(Core *core, PyObject *nothing) {
    (void)nothing;
    return sync_by(core, sync_now, 0);
}

PyObject *core_sync_every(Core *core, PyObject *given) {
    size_t changes = PyLong_AsSize_t(given);
    if (changes == (size_t)-1 && PyErr_Occurred()) return NULL;
    PyObject *done = sync_by(core, cedar_store_sync_every, changes);
    if (done) core->sync_every = changes;
    return done;
}

static uint32_t compact_now(cedar_store *s, size_t unused) {
    (void)unused;
    return cedar_store_compact(s);
}

PyObject *core_compact(Core *core, PyObject *nothing) {
    (void)nothing;
    return sync_by(core, compact_now, 0);
}

PyObject *core_compact_beyond(Core *core, PyObject *arguments) {
    Py_ssize_t factor, spare;
    if (!PyArg_ParseTuple(arguments, "nn", &factor, &spare)) return NULL;
    if (factor < 0 || spare < 0) {
        PyErr_SetString(PyExc_ValueError, "a compaction has a factor and a number of bytes, each 0 or more");
        return NULL;
    }
    if (core_alone(core) < 0) return NULL;
    uint32_t status = cedar_store_compact_beyond(&core->store, (size_t)factor, (size_t)spare);
    if (status == CEDAR_OK) Py_RETURN_NONE;
    fail_with(status);
    return NULL;
}

/* How long the file is, the status of the last compaction, and how many records the file has. */
PyObject *core_file_figures(Core *core, PyObject *nothing) {
    (void)nothing;
    if (core_ready(core) < 0) return NULL;
    const cedar_store *store = &core->store;
    return Py_BuildValue("nkn", (Py_ssize_t)cedar_store_file_len(store), (unsigned long)cedar_store_last_compaction(store),
                         (Py_ssize_t)cedar_store_records(store));
}

PyObject *core_compacted_size(Core *core, PyObject *nothing) {
    (void)nothing;
    Turn turn;
    size_t length = 0;
    if (turn_begin(core, READS, true, &turn) < 0) return NULL;
    cedar_store own = core->store;
    turn_yield(&turn);
    uint32_t status = cedar_store_compacted_len(&own, &length);
    turn_end(&turn);
    if (status == CEDAR_OK) return PyLong_FromSize_t(length);
    fail_with(status);
    return NULL;
}

PyObject *core_waiting(Core *core, PyObject *nothing) {
    (void)nothing;
    Py_ssize_t in_blocks = core_ready(core) < 0 ? -1 : block_count(core);
    return in_blocks < 0 ? NULL : PyLong_FromSize_t(cedar_store_waiting(&core->store) + (size_t)in_blocks);
}

PyObject *core_kept(Core *core, PyObject *nothing) {
    (void)nothing;
    if (core_ready(core) < 0) return NULL;
    const char *path = cedar_store_kept(&core->store);
    if (path) return PyBytes_FromString(path);
    Py_RETURN_NONE;
}

PyObject *core_has_failed(Core *core, PyObject *nothing) {
    (void)nothing;
    if (core_ready(core) < 0) return NULL;
    return PyBool_FromLong(cedar_store_failed(&core->store));
}

/* The file's bytes. The first call says how many there are. */
PyObject *core_dump(Core *core, PyObject *given) {
    Turn turn;
    int is_full = PyObject_IsTrue(given);
    if (is_full < 0 || core_ready(core) < 0 || turn_begin(core, READS, is_long_table(core), &turn) < 0) return NULL;
    turn_yield(&turn);
    size_t needed = 0;
    uint8_t none = 0, *buffer = NULL;
    uint32_t status = cedar_save(turn.dictionary, is_full, &none, 0, &needed);
    if (status == CEDAR_NO_ROOM) {
        buffer = malloc(needed);
        status = buffer ? cedar_save(turn.dictionary, is_full, buffer, needed, &needed) : CEDAR_MEMORY;
    }
    turn_end(&turn);
    PyObject *data = NULL;
    if (status == CEDAR_OK) data = PyBytes_FromStringAndSize((const char *)buffer, (Py_ssize_t)needed);
    else fail_with(status);
    free(buffer);
    return data;
}

/* Replaces the file at a path with one of some bytes. */
PyObject *file_replace(PyObject *module, PyObject *arguments) {
    const char *path, *data;
    Py_ssize_t length;
    (void)module;
    if (!PyArg_ParseTuple(arguments, "yy#", &path, &data, &length)) return NULL;
    uint32_t status;
    int cause;
    Py_BEGIN_ALLOW_THREADS
    status = cedar_replace_file(path, (const uint8_t *)data, (size_t)length);
    cause = errno;
    Py_END_ALLOW_THREADS
    if (status == CEDAR_OK) Py_RETURN_NONE;
    errno = cause;
    return PyErr_SetFromErrnoWithFilename(PyExc_OSError, path);
}

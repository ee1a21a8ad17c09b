/* Calls of one key. Each takes its arguments first, then looks whether it may go ahead, and calls no Python from there to its answer. A
 * call that looks a key up and changes it does both at one moment, also in a store, whose changes wait for those of other threads. */
#include "core.h"

#include <errno.h>

/* Whether a key is held, and its value: a thread sees what it has changed in its blocks. The caller has seen that it may go ahead. */
static int look_up(Core *core, const uint8_t *at, size_t length, int32_t *value) {
    int found = core->blocks ? block_find(core, at, length, value) : BLOCK_SILENT;
    return found == BLOCK_SILENT ? cedar_get(&core->store.dictionary, at, length, value) : found;
}

static int find(Core *core, PyObject *key, int32_t *value) {
    Span span;
    if (span_take(core, key, &span) < 0) return -1;
    int found = core_ready(core);
    if (found == 0) found = look_up(core, span.at, span.length, value);
    Py_DECREF(span.owner);
    return found;
}

static PyObject *missing(PyObject *key) {
    PyErr_SetObject(PyExc_KeyError, key);
    return NULL;
}

PyObject *core_subscript(Core *core, PyObject *key) {
    int32_t value;
    int found = find(core, key, &value);
    if (found > 0) return PyLong_FromLong(value);
    return found < 0 ? NULL : missing(key);
}

/* What can't be a key isn't held, as a dict says it: an object of another type, and a str with a lone surrogate. */
int core_contains(Core *core, PyObject *key) {
    int32_t value;
    if (!is_key_type(core, key)) return core_ready(core);
    int found = find(core, key, &value);
    if (found >= 0 || !PyErr_ExceptionMatches(PyExc_UnicodeEncodeError)) return found;
    PyErr_Clear();
    return core_ready(core);
}

Py_ssize_t core_length(Core *core) {
    if (core_ready(core) < 0) return -1;
    Py_ssize_t more = 0;
    if (core->blocks && block_more(core, NULL, &more) < 0) return -1;
    return (Py_ssize_t)cedar_len(&core->store.dictionary) + more;
}

PyObject *core_get(Core *core, PyObject *arguments) {
    PyObject *key, *otherwise = Py_None;
    if (!PyArg_UnpackTuple(arguments, "get", 1, 2, &key, &otherwise)) return NULL;
    int32_t value;
    int found = find(core, key, &value);
    if (found < 0) return NULL;
    if (found) return PyLong_FromLong(value);
    Py_INCREF(otherwise);
    return otherwise;
}

/* A change of one key. What is looked up from its begin to its end is what it changes. */
typedef struct Change {
    Turn turn;        /* of a store, whose change may wait for the disk */
    bool is_in_block; /* it is noted in a block of this thread */
} Change;

static int change_begin(Core *core, Change *change) {
    int in_block = core->blocks ? block_is_open(core) : 0;
    change->turn.is_long = false;
    change->is_in_block = in_block > 0;
    if (in_block != 0) return in_block < 0 ? -1 : core_ready(core);
    return core->store.file ? turn_begin(core, CHANGES, true, &change->turn) : core_alone(core);
}

/* errno stays that of the change. */
static void change_end(Change *change) {
    int cause = errno;
    if (change->turn.is_long) turn_end(&change->turn);
    errno = cause;
}

/* Lets other threads run if the next change of a store waits for the disk. */
static void change_yield(Core *core, Change *change) {
    if (core->sync_every > 0 && cedar_store_waiting(&core->store) + 1 >= core->sync_every) turn_yield(&change->turn);
}

static uint32_t insert(Core *core, Change *change, const Span *span, int32_t value, bool *held, size_t *position) {
    int32_t before;
    if (!core->store.file) return cedar_insert(&core->store.dictionary, span->at, span->length, value, held, &before, position);
    change_yield(core, change);
    return cedar_store_insert(&core->store, span->at, span->length, value, held, &before, position);
}

/* Stores a value, which ends the change. */
static int store(Core *core, Change *change, const Span *span, int32_t value) {
    bool held = false;
    size_t position = 0;
    if (change->is_in_block) return block_put(core, span, value);
    uint32_t status = insert(core, change, span, value, &held, &position);
    change_end(change);
    if (status == CEDAR_NUL_BYTE) return fail_at(status, "byte", position);
    /* The dictionary has the change also where the device has failed. */
    if (status != CEDAR_OK && status != CEDAR_STORE_DEVICE) return fail_with(status);
    note_length(core, span->length);
    if (held) core->values_changed++;
    else note_keys(core);
    return status == CEDAR_OK ? 0 : fail_with(status);
}

/* Removes a key, which ends the change, and says whether it was held. */
static int remove_key(Core *core, Change *change, const uint8_t *at, size_t length) {
    bool held = false;
    uint32_t status = CEDAR_OK;
    if (change->is_in_block) {
        int32_t unwanted;
        int found = look_up(core, at, length, &unwanted);
        return found > 0 && block_erase(core, at, length) < 0 ? -1 : found;
    }
    if (!core->store.file) {
        held = cedar_erase(&core->store.dictionary, at, length);
    } else {
        change_yield(core, change);
        status = cedar_store_erase(&core->store, at, length, &held);
    }
    change_end(change);
    if (held || status == CEDAR_STORE_DEVICE) note_keys(core);
    return status == CEDAR_OK ? held : fail_with(status);
}

static int erase(Core *core, PyObject *key) {
    Span span;
    Change change;
    if (span_take(core, key, &span) < 0) return -1;
    int held = change_begin(core, &change);
    if (held == 0) held = remove_key(core, &change, span.at, span.length);
    Py_DECREF(span.owner);
    if (held == 0) missing(key);
    return held > 0 ? 0 : -1;
}

int core_assign(Core *core, PyObject *key, PyObject *value) {
    if (!value) return erase(core, key);
    int32_t number;
    Span span;
    Change change;
    if (value_take(value, &number) < 0 || span_take(core, key, &span) < 0) return -1;
    int done = change_begin(core, &change);
    if (done == 0) done = store(core, &change, &span, number);
    Py_DECREF(span.owner);
    return done;
}

/* Removes a key: whether it was held, and its value. */
static int pop(Core *core, const Span *span, int32_t *value) {
    Change change;
    if (change_begin(core, &change) < 0) return -1;
    int held = look_up(core, span->at, span->length, value);
    if (held > 0) return remove_key(core, &change, span->at, span->length);
    change_end(&change);
    return held;
}

PyObject *core_pop(Core *core, PyObject *arguments) {
    PyObject *key, *otherwise = NULL;
    if (!PyArg_UnpackTuple(arguments, "pop", 1, 2, &key, &otherwise)) return NULL;
    Span span;
    int32_t value;
    if (span_take(core, key, &span) < 0) return NULL;
    int held = pop(core, &span, &value);
    Py_DECREF(span.owner);
    if (held < 0) return NULL;
    if (held) return PyLong_FromLong(value);
    if (!otherwise) return missing(key);
    Py_INCREF(otherwise);
    return otherwise;
}

/* Sees that a key is held: with its own value, or with the one that is given. */
static int put_default(Core *core, const Span *span, int32_t *value) {
    Change change;
    int32_t held_value;
    if (change_begin(core, &change) < 0) return -1;
    int held = look_up(core, span->at, span->length, &held_value);
    if (held == 0) return store(core, &change, span, *value);
    change_end(&change);
    if (held > 0) *value = held_value;
    return held < 0 ? -1 : 0;
}

PyObject *core_setdefault(Core *core, PyObject *arguments) {
    PyObject *key, *otherwise;
    if (!PyArg_UnpackTuple(arguments, "setdefault", 2, 2, &key, &otherwise)) return NULL;
    Span span;
    int32_t value;
    if (value_take(otherwise, &value) < 0 || span_take(core, key, &span) < 0) return NULL;
    int done = put_default(core, &span, &value);
    Py_DECREF(span.owner);
    return done < 0 ? NULL : PyLong_FromLong(value);
}

/* Removes the first key of a walk: whether there was one. */
static int pop_first(Core *core, Gathered *first) {
    Change change;
    if (change_begin(core, &change) < 0) return -1;
    bool is_read = gather_first(&core->store.dictionary, first);
    if (is_read && first->count > 0) return remove_key(core, &change, first->bytes, first->size);
    change_end(&change);
    return is_read ? 0 : fail_with(CEDAR_MEMORY);
}

PyObject *core_popitem(Core *core, PyObject *nothing) {
    (void)nothing;
    Gathered first = {0};
    PyObject *pair = NULL;
    int held = pop_first(core, &first);
    if (held > 0) pair = pair_give(key_give(core, first.bytes, first.size), first.found[0].value);
    if (held == 0) PyErr_SetString(PyExc_KeyError, "popitem(): dictionary is empty");
    gathered_free(&first);
    return pair;
}

/* The blocks `with store.batch():`. What a thread changes within one is noted here, and made as one when the block ends. Other threads
 * don't see it meanwhile, and what they change goes its own way.
 *
 * `blocks` of a store has a list for each thread that is in a block, with a layer for each of its blocks, the innermost last. A layer is a
 * dict from keys to values, or to None where a key is taken out. */
#include "core.h"

#include <errno.h>
#include <stdlib.h>
#include <string.h>

/* The layers of this thread; NULL where it is in no block, or with an error. */
static PyObject *layers_of(Core *core) {
    if (!core->blocks) return NULL;
    PyObject *thread = PyLong_FromUnsignedLong(PyThread_get_thread_ident());
    if (!thread) return NULL;
    PyObject *layers = PyDict_GetItemWithError(core->blocks, thread);
    Py_DECREF(thread);
    return layers;
}

/* Whether this thread is in a block. */
int block_is_open(Core *core) {
    if (layers_of(core)) return 1;
    return PyErr_Occurred() ? -1 : 0;
}

/* What this thread's blocks say of a key: BLOCK_SILENT, or whether it is held, and its value. */
int block_find(Core *core, const uint8_t *at, size_t length, int32_t *value) {
    PyObject *layers = layers_of(core), *found = NULL;
    if (!layers) return PyErr_Occurred() ? -1 : BLOCK_SILENT;
    PyObject *key = PyBytes_FromStringAndSize((const char *)at, (Py_ssize_t)length);
    if (!key) return -1;
    for (Py_ssize_t i = PyList_Size(layers); !found && i > 0; i--) {
        found = PyDict_GetItemWithError(PyList_GetItem(layers, i - 1), key);
        if (!found && PyErr_Occurred()) break;
    }
    Py_DECREF(key);
    if (!found) return PyErr_Occurred() ? -1 : BLOCK_SILENT;
    if (found == Py_None) return 0;
    *value = (int32_t)PyLong_AsLong(found);
    return 1;
}

static int note(Core *core, const uint8_t *at, size_t length, PyObject *value) {
    PyObject *layers = layers_of(core), *key = PyBytes_FromStringAndSize((const char *)at, (Py_ssize_t)length);
    int done = -1;
    if (layers && key && value) done = PyDict_SetItem(PyList_GetItem(layers, PyList_Size(layers) - 1), key, value);
    Py_XDECREF(key);
    return done;
}

/* Notes a value at a key in this thread's innermost block. The key's faults are told at once. */
int block_put(Core *core, const Span *span, int32_t value) {
    if (key_test(span) < 0) return -1;
    PyObject *number = PyLong_FromLong(value);
    int done = note(core, span->at, span->length, number);
    Py_XDECREF(number);
    return done;
}

/* Notes in this thread's innermost block that a key is taken out. */
int block_erase(Core *core, const uint8_t *at, size_t length) {
    return note(core, at, length, Py_None);
}

/* Adds a layer to those of this thread: `fresh`, an empty list, becomes these where it has none, and `blocks` those of all threads. */
static int add_layer(Core *core, PyObject *layer, PyObject *fresh, PyObject *blocks) {
    PyObject *layers = layers_of(core);
    if (layers) return PyList_Append(layers, layer);
    PyObject *thread = PyErr_Occurred() ? NULL : PyLong_FromUnsignedLong(PyThread_get_thread_ident());
    if (!thread) return -1;
    if (!core->blocks) {
        Py_INCREF(blocks);
        core->blocks = blocks;
    }
    int done = PyList_Append(fresh, layer) == 0 ? PyDict_SetItem(core->blocks, thread, fresh) : -1;
    Py_DECREF(thread);
    return done;
}

/* Begins a block of this thread, and returns its layer. What may begin a collection of garbage, whose finalizers may end a block, is made
 * first. */
PyObject *core_begin_block(Core *core, PyObject *nothing) {
    (void)nothing;
    PyObject *layer = PyDict_New(), *fresh = PyList_New(0), *blocks = PyDict_New();
    int done = layer && fresh && blocks ? core_ready(core) : -1;
    if (done == 0) done = add_layer(core, layer, fresh, blocks);
    if (done < 0) Py_CLEAR(layer);
    Py_XDECREF(fresh);
    Py_XDECREF(blocks);
    return layer;
}

/* Takes a layer away, whoever has begun it. *below is the one below it, or NULL. Says whether it was there. */
static int take_layer(Core *core, PyObject *layer, PyObject **below) {
    PyObject *thread, *layers;
    Py_ssize_t next = 0;
    while (core->blocks && PyDict_Next(core->blocks, &next, &thread, &layers)) {
        for (Py_ssize_t i = 0; i < PyList_Size(layers); i++) {
            if (PyList_GetItem(layers, i) != layer) continue;
            *below = i > 0 ? PyList_GetItem(layers, i - 1) : NULL;
            if (PyList_SetSlice(layers, i, i + 1, NULL) < 0) return -1;
            if (PyList_Size(layers) > 0) return 1;
            Py_INCREF(thread);
            int done = PyDict_DelItem(core->blocks, thread);
            Py_DECREF(thread);
            if (PyDict_Size(core->blocks) == 0) Py_CLEAR(core->blocks);
            return done < 0 ? -1 : 1;
        }
    }
    return 0;
}

/* The changes of a layer, which lends their keys. */
static cedar_change *changes_of(PyObject *layer, size_t *count) {
    PyObject *key, *value;
    Py_ssize_t next = 0, length;
    char *at;
    cedar_change *changes = calloc((size_t)PyDict_Size(layer), sizeof *changes);
    if (!changes) fail_with(CEDAR_MEMORY);
    while (changes && PyDict_Next(layer, &next, &key, &value)) {
        PyBytes_AsStringAndSize(key, &at, &length);
        bool is_erasure = value == Py_None;
        int32_t number = is_erasure ? 0 : (int32_t)PyLong_AsLong(value);
        changes[(*count)++] = (cedar_change){(const uint8_t *)at, (size_t)length, number, is_erasure};
    }
    return changes;
}

/* Makes the changes of a layer as one. */
static int apply(Core *core, PyObject *layer) {
    Turn turn;
    size_t count = 0;
    if (PyDict_Size(layer) == 0) return 0;
    cedar_change *changes = changes_of(layer, &count);
    if (!changes) return -1;
    if (turn_begin(core, CHANGES, true, &turn) < 0) {
        free(changes);
        return -1;
    }
    turn_yield(&turn);
    uint32_t status = cedar_store_apply(&core->store, changes, count, NULL, NULL);
    int cause = errno;
    turn_end(&turn);
    for (size_t i = 0; i < count; i++) note_length(core, changes[i].length);
    free(changes);
    errno = cause;
    /* The dictionary has the changes also where the device has failed. */
    if (status == CEDAR_OK || status == CEDAR_STORE_DEVICE) {
        note_keys(core);
        core->values_changed++;
    }
    return status == CEDAR_OK ? 0 : fail_with(status);
}

/* Ends a block: its changes are made, or become those of the block around it; or they are dropped. */
PyObject *core_end_block(Core *core, PyObject *arguments) {
    PyObject *layer, *below = NULL;
    int is_kept;
    if (!PyArg_ParseTuple(arguments, "Op", &layer, &is_kept)) return NULL;
    int done = take_layer(core, layer, &below);
    if (done > 0 && is_kept) done = below ? PyDict_Update(below, layer) : apply(core, layer);
    if (done < 0) return NULL;
    Py_RETURN_NONE;
}

/* ---- what a thread sees of its blocks */

/* All that this thread's blocks have changed, as one layer; NULL where it is in no block, or with an error. */
static PyObject *merged_layers(Core *core) {
    PyObject *layers = layers_of(core);
    if (!layers) return NULL;
    /* A finalizer may end a block as the dict is made. */
    Py_INCREF(layers);
    PyObject *all = PyDict_New();
    for (Py_ssize_t i = 0; all && i < PyList_Size(layers); i++) {
        if (PyDict_Update(all, PyList_GetItem(layers, i)) < 0) Py_CLEAR(all);
    }
    Py_DECREF(layers);
    return all;
}

static Span span_of(PyObject *key) {
    char *at = NULL;
    Py_ssize_t length = 0;
    PyBytes_AsStringAndSize(key, &at, &length);
    return (Span){key, (const uint8_t *)at, (size_t)length};
}

/* How many keys with a prefix there are more for this thread than in the dictionary: fewer, if it is below 0. */
int block_more(Core *core, const Span *prefix, Py_ssize_t *more) {
    PyObject *all = merged_layers(core), *key, *value;
    Py_ssize_t next = 0;
    int32_t unwanted;
    while (all && PyDict_Next(all, &next, &key, &value)) {
        Span span = span_of(key);
        if (!is_within(&(Bounds){prefix, NULL, NULL}, span.at, span.length)) continue;
        bool was_held = cedar_get(&core->store.dictionary, span.at, span.length, &unwanted);
        *more += (value != Py_None) - was_held;
    }
    Py_XDECREF(all);
    return PyErr_Occurred() ? -1 : 0;
}

/* Adds a key with what the blocks say of it, which they then don't say any more; or else with what it held. */
static int merge_one(PyObject *all, const uint8_t *key, cedar_found found, Gathered *merged) {
    PyObject *name = PyBytes_FromStringAndSize((const char *)key, (Py_ssize_t)found.length);
    PyObject *value = name ? PyDict_GetItemWithError(all, name) : NULL;
    bool is_erased = value == Py_None;
    int done = PyErr_Occurred() ? -1 : 0;
    if (value && !is_erased) found.value = (int32_t)PyLong_AsLong(value);
    if (value) done = PyDict_DelItem(all, name);
    if (done == 0 && !is_erased && !gathered_append(merged, key, found.length, found.value)) done = fail_with(CEDAR_MEMORY);
    Py_XDECREF(name);
    return done;
}

static int merge_all(PyObject *all, const Bounds *bounds, const Gathered *gathered, Gathered *merged) {
    PyObject *key, *value;
    Py_ssize_t next = 0;
    for (size_t i = 0; i < gathered->count; i++) {
        if (merge_one(all, gathered->bytes + gathered->found[i].place, gathered->found[i], merged) < 0) return -1;
    }
    while (PyDict_Next(all, &next, &key, &value)) {
        Span span = span_of(key);
        if (value == Py_None || !is_within(bounds, span.at, span.length)) continue;
        if (!gathered_append(merged, span.at, span.length, (int32_t)PyLong_AsLong(value))) return fail_with(CEDAR_MEMORY);
    }
    return gathered_sort(merged) ? 0 : fail_with(CEDAR_MEMORY);
}

/* Makes what was gathered from the dictionary what this thread sees. */
int block_merge(Core *core, const Bounds *bounds, Gathered *gathered) {
    Gathered merged = {0};
    PyObject *all = merged_layers(core);
    if (!all) return PyErr_Occurred() ? -1 : 0;
    int done = merge_all(all, bounds, gathered, &merged);
    Py_DECREF(all);
    Gathered unwanted = done < 0 ? merged : *gathered;
    if (done == 0) *gathered = merged;
    gathered_free(&unwanted);
    return done;
}

PyObject *core_is_in_block(Core *core, PyObject *nothing) {
    (void)nothing;
    int is_open = core_ready(core) < 0 ? -1 : block_is_open(core);
    return is_open < 0 ? NULL : PyBool_FromLong(is_open);
}

/* How many keys the blocks of this thread have changed, each block for itself. */
Py_ssize_t block_count(Core *core) {
    PyObject *layers = layers_of(core);
    Py_ssize_t count = 0;
    if (!layers) return PyErr_Occurred() ? -1 : 0;
    for (Py_ssize_t i = 0; i < PyList_Size(layers); i++) count += PyDict_Size(PyList_GetItem(layers, i));
    return count;
}

/* Iterations over keys, completions of a prefix, and the keys that a text begins with. */
#include "core.h"

#include <stdlib.h>

PyTypeObject *walk_type;

/* An iteration. It has a page of keys at hand, and reads the next one as it needs it; or it has gathered all of them when it began. */
typedef struct Walk {
    PyObject_HEAD
    Core *core; /* NULL once it has ended */
    Span prefix;
    Span low;
    Span high;
    Pages pages;
    size_t next; /* which key of the page is given next */
    size_t keys_changed;
    size_t values_changed;
    bool is_merged; /* with what its thread's blocks said when it began, which no value of the dictionary replaces */
    int kind;
} Walk;

static int walk_traverse(Walk *walk, visitproc visit, void *arg) {
    Py_VISIT((PyObject *)walk->core);
    return 0;
}

static int walk_clear(Walk *walk) {
    Py_CLEAR(walk->core);
    Py_CLEAR(walk->prefix.owner);
    Py_CLEAR(walk->low.owner);
    Py_CLEAR(walk->high.owner);
    pages_free(&walk->pages);
    return 0;
}

static void walk_dealloc(Walk *walk) {
    PyTypeObject *type = Py_TYPE(walk);
    PyObject_GC_UnTrack(walk);
    walk_clear(walk);
    ((freefunc)PyType_GetSlot(type, Py_tp_free))(walk);
    Py_DECREF(type);
}

/* An iteration ends by an error where its own thread changes keys. What other threads change it may show or not. */
static int walk_test(const Walk *walk, const Core *core) {
    if (walk->keys_changed == core->keys_changed || core->changed_by != PyThread_get_thread_ident()) return 0;
    PyErr_SetString(PyExc_RuntimeError, "dictionary changed size during iteration");
    return -1;
}

/* Takes note that what is at hand is what the dictionary has. */
static void walk_note(Walk *walk, const Core *core) {
    walk->keys_changed = core->keys_changed;
    walk->values_changed = core->values_changed;
}

static bool is_changed(const Walk *walk, const Core *core) {
    if (walk->is_merged) return false;
    return walk->values_changed != core->values_changed || walk->keys_changed != core->keys_changed;
}

/* Gives the key that is at hand at a place the value that the dictionary has, if that holds it. */
static void take_value(Walk *walk, const Core *core, size_t at) {
    cedar_found *found = &walk->pages.page.found[at];
    cedar_get(&core->store.dictionary, walk->pages.page.bytes + found->place, found->length, &found->value);
}

/* Waits until the next key can be given with its value. For one that is at hand it waits only where values may have been changed, and then
 * takes those of all that are at hand: a wait for each would take the time of as many changes, which a store puts on the disk. */
static int walk_wait(Walk *walk, Core *core) {
    const Gathered *page = &walk->pages.page;
    if (core->is_open && walk_test(walk, core) < 0) return -1;
    if (core->is_open && walk->next < page->count && !is_changed(walk, core)) return 0;
    bool takes_all = core->is_changing && core->is_ordered && !walk->is_merged;
    if (core_ready(core) < 0) return -1;
    if (!walk->is_merged && walk->next < page->count) take_value(walk, core, walk->next);
    for (size_t i = walk->next + 1; takes_all && i < page->count; i++) take_value(walk, core, i);
    if (takes_all) walk_note(walk, core);
    return 0;
}

/* Sees that there is a key at hand: 0 where none is left. */
static int walk_ready(Walk *walk, Core *core) {
    if (walk->next < walk->pages.page.count) return 1;
    if (!pages_read(&core->store.dictionary, &walk->pages)) return fail_with(CEDAR_MEMORY);
    walk->next = 0;
    walk_note(walk, core);
    return walk->pages.page.count > 0;
}

static PyObject *walk_give(Walk *walk, Core *core) {
    /* Another thread may have ended it meanwhile. */
    if (walk_wait(walk, core) < 0 || !walk->core) return NULL;
    int ready = walk_ready(walk, core);
    if (ready == 0) walk_clear(walk);
    if (ready <= 0) return NULL;
    cedar_found found = walk->pages.page.found[walk->next++];
    if (walk->kind == WALK_VALUES) return PyLong_FromLong(found.value);
    PyObject *given = key_give(core, walk->pages.page.bytes + found.place, found.length);
    return walk->kind == WALK_KEYS ? given : pair_give(given, found.value);
}

static PyObject *walk_next(Walk *walk) {
    /* list() and the like go on without looking for signals. */
    if (walk->next == walk->pages.page.count && PyErr_CheckSignals() < 0) return NULL;
    Core *core = walk->core;
    if (!core) return NULL;
    Py_INCREF(core);
    PyObject *given = walk_give(walk, core);
    Py_DECREF(core);
    return given;
}

/* How many keys are at hand. */
static PyObject *walk_hint(Walk *walk, PyObject *nothing) {
    (void)nothing;
    return PyLong_FromSize_t(walk->core ? walk->pages.page.count - walk->next : 0);
}

static PyMethodDef walk_methods[] = {
    {"__length_hint__", (PyCFunction)walk_hint, METH_NOARGS, NULL},
    {NULL, NULL, 0, NULL},
};

static PyType_Slot walk_slots[] = {
    {Py_tp_dealloc, (void *)walk_dealloc},
    {Py_tp_traverse, (void *)walk_traverse},
    {Py_tp_clear, (void *)walk_clear},
    {Py_tp_iter, (void *)PyObject_SelfIter},
    {Py_tp_iternext, (void *)walk_next},
    {Py_tp_methods, walk_methods},
    {0, NULL},
};

PyType_Spec walk_spec = {"roskvidh._core.Walk", sizeof(Walk), 0, TYPE_FLAGS | Py_TPFLAGS_HAVE_GC, walk_slots};

/* Begins a call that goes through all keys below a prefix; NULL is the empty one. To see whether it is a long one, it asks for one key
 * behind the first ones. */
static int begin_below(Core *core, bool changes, const Span *prefix, Turn *turn) {
    cedar_match unused;
    size_t next = LONG_WALK;
    if (core_ready(core) < 0) return -1;
    bool is_long = cedar_len(&core->store.dictionary) > LONG_WALK;
    if (is_long && prefix) is_long = cedar_predictions_from(&core->store.dictionary, prefix->at, prefix->length, &next, &unused, 1) > 0;
    if (turn_begin(core, changes, is_long, turn) < 0) return -1;
    turn_yield(turn);
    return 0;
}

/* Gathers all at once: where labels don't ascend no page follows the first one, and what a thread's blocks say is merged with all keys. */
static int walk_gather(Walk *walk, const Bounds *bounds) {
    Core *core = walk->core;
    Gathered *all = &walk->pages.page;
    Turn turn;
    if (begin_below(core, READS, bounds->prefix, &turn) < 0) return -1;
    bool done = (core->is_ordered ? gather_ordered : gather_unordered)(turn.dictionary, bounds, all);
    turn_end(&turn);
    if (!done) return fail_with(CEDAR_MEMORY);
    walk_note(walk, core);
    walk->is_merged = core->blocks != NULL;
    return walk->is_merged ? block_merge(core, bounds, all) : 0;
}

static int walk_begin(Walk *walk, const Bounds *bounds) {
    Core *core = walk->core;
    if (core_ready(core) < 0) return -1;
    int in_block = core->blocks ? block_is_open(core) : 0;
    if (in_block != 0 || !core->is_ordered) return in_block < 0 ? -1 : walk_gather(walk, bounds);
    walk_note(walk, core);
    return pages_begin(&core->store.dictionary, bounds, &walk->pages) ? 0 : fail_with(CEDAR_MEMORY);
}

/* Takes a bound; None is none. */
static int bound_take(Core *core, PyObject *given, Span *span, const Span **bound) {
    if (given == Py_None) return 0;
    *bound = span;
    return span_take(core, given, span);
}

/* An iteration over the keys with a prefix, from one on and before another; None is no bound. */
static PyObject *walk_make(Core *core, PyObject *prefix, PyObject *low, PyObject *high, int kind) {
    Bounds bounds = {NULL, NULL, NULL};
    Walk *walk = (Walk *)PyType_GenericAlloc(walk_type, 0);
    if (!walk) return NULL;
    Py_INCREF(core);
    walk->core = core;
    walk->kind = kind;
    int done = bound_take(core, prefix, &walk->prefix, &bounds.prefix);
    if (done == 0) done = bound_take(core, low, &walk->low, &bounds.low);
    if (done == 0) done = bound_take(core, high, &walk->high, &bounds.high);
    if (done == 0) done = walk_begin(walk, &bounds);
    if (done < 0) Py_CLEAR(walk);
    return (PyObject *)walk;
}

PyObject *core_iterate(Core *core) {
    return walk_make(core, Py_None, Py_None, Py_None, WALK_KEYS);
}

PyObject *core_walk(Core *core, PyObject *arguments) {
    PyObject *prefix;
    int kind;
    if (!PyArg_ParseTuple(arguments, "Oi", &prefix, &kind)) return NULL;
    return walk_make(core, prefix, Py_None, Py_None, kind);
}

PyObject *core_range(Core *core, PyObject *arguments) {
    PyObject *low, *high;
    int kind;
    if (!PyArg_ParseTuple(arguments, "OOi", &low, &high, &kind)) return NULL;
    return walk_make(core, Py_None, low, high, kind);
}

/* Counts the keys with a prefix: with the interpreter's lock, unless there are very many. */
static int count_many(Core *core, const Span *prefix, size_t *count) {
    Turn turn;
    size_t next = 0;
    cedar_match *matches = malloc(LONG_WALK * sizeof *matches);
    if (!matches) return fail_with(CEDAR_MEMORY);
    *count = cedar_predictions_from(&core->store.dictionary, prefix->at, prefix->length, &next, matches, LONG_WALK);
    int begun = *count < LONG_WALK ? 0 : turn_begin(core, READS, true, &turn);
    if (begun == 0 && *count == LONG_WALK) {
        turn_yield(&turn);
        *count = cedar_count_prefix(turn.dictionary, prefix->at, prefix->length);
        turn_end(&turn);
    }
    free(matches);
    return begun;
}

/* The same. */
static int count_below(Core *core, const Span *prefix, size_t *count) {
    enum { FEW = SIZED(64, 1) };
    cedar_match few[FEW];
    size_t next = 0;
    if (core_ready(core) < 0) return -1;
    *count = cedar_predictions_from(&core->store.dictionary, prefix->at, prefix->length, &next, few, FEW);
    return *count < FEW ? 0 : count_many(core, prefix, count);
}

PyObject *core_count(Core *core, PyObject *given) {
    Span prefix;
    size_t count = 0;
    Py_ssize_t more = 0;
    if (span_take(core, given, &prefix) < 0) return NULL;
    int begun = count_below(core, &prefix, &count);
    if (begun == 0 && core->blocks) begun = block_more(core, &prefix, &more);
    Py_DECREF(prefix.owner);
    return begun < 0 ? NULL : PyLong_FromSsize_t((Py_ssize_t)count + more);
}

static PyObject *prefixes_give(Core *core, const Span *text, const cedar_match *matches, size_t count) {
    PyObject *list = PyList_New((Py_ssize_t)count);
    for (size_t i = 0; list && i < count; i++) {
        PyObject *pair = pair_give(key_give(core, text->at, matches[i].length), matches[i].value);
        if (!pair || PyList_SetItem(list, (Py_ssize_t)i, pair) < 0) Py_CLEAR(list);
    }
    return list;
}

PyObject *core_prefixes(Core *core, PyObject *given) {
    enum { FEW = 64 };
    Span text;
    cedar_match few[FEW], *matches = few;
    PyObject *list = NULL;
    if (span_take(core, given, &text) < 0) return NULL;
    if (core_ready(core) == 0) {
        size_t count = cedar_prefixes(&core->store.dictionary, text.at, text.length, few, FEW);
        if (count > FEW) {
            matches = malloc(count * sizeof *matches);
            if (matches) cedar_prefixes(&core->store.dictionary, text.at, text.length, matches, count);
            else fail_with(CEDAR_MEMORY);
        }
        if (matches) list = prefixes_give(core, &text, matches, count);
    }
    if (matches != few) free(matches);
    Py_DECREF(text.owner);
    return list;
}

/* The first token of a text is the longest key that it begins with, if there is one. */
PyObject *core_longest_prefix(Core *core, PyObject *given) {
    Span text;
    cedar_found found = {0, 0, -1};
    size_t next = 0;
    PyObject *pair = NULL;
    if (span_take(core, given, &text) < 0) return NULL;
    if (core_ready(core) == 0) {
        if (text.length > 0) cedar_segment(&core->store.dictionary, text.at, text.length, &next, &found, 1);
        if (found.value >= 0) {
            pair = pair_give(key_give(core, text.at, found.length), found.value);
        } else {
            pair = Py_None;
            Py_INCREF(pair);
        }
    }
    Py_DECREF(text.owner);
    return pair;
}

PyObject *core_erase_prefix(Core *core, PyObject *given) {
    Span prefix;
    Turn turn;
    size_t erased = 0;
    uint32_t status = CEDAR_OK;
    if (core_without_file(core) < 0 || span_take(core, given, &prefix) < 0) return NULL;
    int begun = begin_below(core, CHANGES, &prefix, &turn);
    if (begun == 0) {
        status = cedar_erase_prefix(&core->store.dictionary, prefix.at, prefix.length, &erased);
        turn_end(&turn);
        if (erased > 0) note_keys(core);
    }
    Py_DECREF(prefix.owner);
    if (begun < 0 || (status != CEDAR_OK && fail_with(status) < 0)) return NULL;
    return PyLong_FromSize_t(erased);
}

/* The keys that were gathered with their values, as a list of pairs. */
static PyObject *gathered_give(Core *core, const Gathered *gathered) {
    PyObject *list = PyList_New((Py_ssize_t)gathered->count);
    for (size_t i = 0; list && i < gathered->count; i++) {
        cedar_found found = gathered->found[i];
        PyObject *pair = pair_give(key_give(core, gathered->bytes + found.place, found.length), found.value);
        if (!pair || PyList_SetItem(list, (Py_ssize_t)i, pair) < 0) Py_CLEAR(list);
    }
    return list;
}

/* The best keys with a prefix and their values, at most so many. */
PyObject *core_best(Core *core, PyObject *arguments) {
    PyObject *given, *list = NULL;
    Py_ssize_t most;
    int lowest_first;
    Span prefix;
    Turn turn;
    Gathered best = {0};
    if (!PyArg_ParseTuple(arguments, "Onp", &given, &most, &lowest_first) || span_take(core, given, &prefix) < 0) return NULL;
    if (begin_below(core, READS, &prefix, &turn) == 0) {
        bool done = gather_best(turn.dictionary, &prefix, most < 0 ? 0 : (size_t)most, lowest_first, &best);
        turn_end(&turn);
        if (done) list = gathered_give(core, &best);
        else fail_with(CEDAR_MEMORY);
    }
    gathered_free(&best);
    Py_DECREF(prefix.owner);
    return list;
}

/* The one key that was gathered and its value; None where none was. */
static PyObject *one_give(Core *core, uint32_t status, const Gathered *found) {
    if (status != CEDAR_OK) {
        fail_with(status);
        return NULL;
    }
    if (found->count > 0) return pair_give(key_give(core, found->bytes, found->size), found->found[0].value);
    Py_INCREF(Py_None);
    return Py_None;
}

/* The last key up to another one and its value, or the first one from it on; None where there is none. For the key, None is no bound. */
PyObject *core_neighbour(Core *core, PyObject *arguments) {
    static const uint8_t none[1];
    PyObject *given, *pair = NULL;
    int included, is_floor;
    Span key = {NULL, none, 0};
    Gathered found = {0};
    if (!PyArg_ParseTuple(arguments, "Opp", &given, &included, &is_floor)) return NULL;
    if (given != Py_None && span_take(core, given, &key) < 0) return NULL;
    if (core_ready(core) == 0) {
        uint32_t status = gather_neighbour(&core->store.dictionary, &key, included, is_floor, &found);
        pair = one_give(core, status, &found);
    }
    gathered_free(&found);
    Py_XDECREF(key.owner);
    return pair;
}

/* The first key behind another one that is near a query, or fits it as a pattern, and its value; None where there is none. */
PyObject *core_next_wanted(Core *core, PyObject *arguments) {
    static const uint8_t none[1];
    PyObject *query, *given, *pair = NULL;
    Wanted wanted;
    Span behind = {NULL, none, 0};
    Turn turn;
    Gathered found = {0};
    if (!PyArg_ParseTuple(arguments, "OpppO", &query, &wanted.is_pattern, &wanted.two_edits, &wanted.is_beginning, &given)) return NULL;
    if (span_take(core, query, &wanted.query) < 0) return NULL;
    wanted.is_text = core->is_text;
    int taken = given == Py_None ? 0 : span_take(core, given, &behind);
    if (taken == 0 && begin_below(core, READS, NULL, &turn) == 0) {
        uint32_t status = gather_wanted(turn.dictionary, &wanted, &behind, &found);
        turn_end(&turn);
        pair = one_give(core, status, &found);
    }
    gathered_free(&found);
    Py_DECREF(wanted.query.owner);
    Py_XDECREF(behind.owner);
    return pair;
}

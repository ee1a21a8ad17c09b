/* Scanners: keys found in a text in linear time. A scanner never changes, so that any number of threads may search by one. */
#include "core.h"

#include <stdlib.h>
#include <string.h>

typedef struct Scanner {
    PyObject_HEAD
    cedar_scanner inside;
    size_t longest;   /* no key is longer */
    uint32_t search;  /* as of cedar.h */
    bool is_text;     /* keys are str, stored as UTF-8 */
} Scanner;

/* The searches by their names, at their numbers. */
static const char *const search_names[] = {"overlapping", "earliest", "leftmost-longest", "leftmost-first"};

enum { SEARCHES = sizeof search_names / sizeof *search_names };

/* How much of a text is searched before signals are handled: some tens of milliseconds' work. */
enum { SEARCH_STEP = SIZED(1 << 22, 50) };

/* The number of the search with a name, or SEARCHES where there is none. */
static uint32_t search_named(const char *name) {
    uint32_t search = 0;
    while (search < SEARCHES && strcmp(name, search_names[search]) != 0) search++;
    return search;
}

/* A scanner of a dictionary. The interpreter's lock is given up while a large one is read. */
static PyObject *scanner_make(PyTypeObject *type, PyObject *arguments, PyObject *named) {
    static char *names[] = {"", "search", NULL};
    PyObject *given;
    const char *name = search_names[CEDAR_OVERLAPPING];
    Turn turn;
    if (!PyArg_ParseTupleAndKeywords(arguments, named, "O|s:Scanner", names, &given, &name)) return NULL;
    if (!PyObject_TypeCheck(given, core_type)) {
        PyErr_SetString(PyExc_TypeError, "a scanner is made of a dictionary");
        return NULL;
    }
    uint32_t search = search_named(name);
    if (search == SEARCHES) {
        PyErr_Format(PyExc_ValueError, "there is no search %s: it is overlapping, earliest, leftmost-longest or leftmost-first", name);
        return NULL;
    }
    Core *core = (Core *)given;
    Scanner *scanner = (Scanner *)PyType_GenericAlloc(type, 0);
    if (!scanner) return NULL;
    uint32_t status = CEDAR_MEMORY;
    if (core_ready(core) < 0 || turn_begin(core, READS, is_long_table(core), &turn) < 0) {
        Py_DECREF(scanner);
        return NULL;
    }
    scanner->is_text = core->is_text;
    scanner->search = search;
    turn_yield(&turn);
    status = cedar_scanner_new(turn.dictionary, search, &scanner->inside);
    turn_end(&turn);
    if (status != CEDAR_OK) {
        fail_with(status);
        Py_DECREF(scanner);
        return NULL;
    }
    scanner->longest = cedar_scanner_longest(&scanner->inside);
    return (PyObject *)scanner;
}

static void scanner_dealloc(Scanner *scanner) {
    PyTypeObject *type = Py_TYPE(scanner);
    cedar_scanner_free(&scanner->inside);
    ((freefunc)PyType_GetSlot(type, Py_tp_free))(scanner);
    Py_DECREF(type);
}

/* Finds what begins before `stop`, or of overlapping keys what ends there or before it, as far as there is room. No key is longer than
 * `longest`, so nothing behind `stop` by more than that is looked at; what begins from `stop` on may be cut off by that and is left out. */
static size_t find_before(const Scanner *scanner, const Span *text, size_t stop, size_t *next, cedar_found *found, size_t room) {
    const cedar_scanner mine = scanner->inside;
    if (scanner->search == CEDAR_OVERLAPPING) return cedar_scanner_find(&mine, text->at, stop, next, found, room);
    size_t end = text->length - stop > scanner->longest ? stop + scanner->longest : text->length;
    size_t count = cedar_scanner_find(&mine, text->at, end, next, found, room);
    if (end == text->length || *next <= stop) return count;
    while (count > 0 && found[count - 1].place >= stop) count--;
    *next = stop;
    if (count > 0) {
        size_t last = found[count - 1].place + found[count - 1].length;
        if (last > stop) *next = last;
    }
    return count;
}

/* All that a scanner finds in a text. With the lock of the interpreter given up (`thread` isn't NULL) it is taken for signals now and then.
 * Raises an error where memory is wanted or a signal has ended it. */
static int find_all(const Scanner *scanner, const Span *text, PyThreadState **thread, Matches *matches) {
    size_t step = SEARCH_STEP > 4 * scanner->longest ? SEARCH_STEP : 4 * scanner->longest;
    for (size_t next = 0, least = PIECE_LEAST; next < text->length;) {
        size_t stop = text->length - next > step ? next + step : text->length, before = next, count = 0;
        size_t left = stop - next, places = left < PIECE_MOST ? left : PIECE_MOST;
        if (places < least) places = least;
        Piece *piece = piece_begin(matches, places);
        if (!piece) return CEDAR_MEMORY;
        while (next < stop && count < places) {
            size_t from = next, more = find_before(scanner, text, stop, &next, piece->found + count, places - count);
            count += more;
            /* The keys that end at one byte are told as a whole: those of the next one are more than there are places left. */
            if (more == 0 && next == from) break;
        }
        piece_end(matches, piece, count);
        if (count == 0 && next == before) least = 4 * places;
        if (*thread) {
            PyEval_RestoreThread(*thread);
            *thread = NULL;
            if (PyErr_CheckSignals() < 0) return -1;
            *thread = PyEval_SaveThread();
        }
    }
    return CEDAR_OK;
}

/* Counts places and lengths in characters. Matches come by their ends or don't overlap, and so their ends ascend. Keys are whole
 * characters. */
static void count_by_ends(const Span *text, Matches *matches) {
    size_t at = 0, told = 0;
    for (size_t i = 0; i < matches->piece_count; i++) {
        for (cedar_found *found = matches->pieces[i].found; found < matches->pieces[i].found + matches->pieces[i].count; found++) {
            size_t end = found->place + found->length, length = characters(text->at + found->place, found->length);
            told += characters(text->at + at, end - at);
            at = end;
            *found = (cedar_found){told - length, length, found->value};
        }
    }
}

static PyObject *scanner_find(Scanner *scanner, PyObject *given) {
    Span text;
    if (text_take(scanner->is_text, given, &text) < 0) return NULL;
    Matches *matches = (Matches *)PyType_GenericAlloc(matches_type, 0);
    int status = -1;
    if (matches) {
        PyThreadState *thread = text.length >= LONG_TEXT ? PyEval_SaveThread() : NULL;
        status = find_all(scanner, &text, &thread, matches);
        if (status == CEDAR_OK && scanner->is_text) count_by_ends(&text, matches);
        if (thread) PyEval_RestoreThread(thread);
        if (status > 0) fail_with((uint32_t)status);
    }
    Py_DECREF(text.owner);
    if (status != CEDAR_OK) Py_CLEAR(matches);
    return (PyObject *)matches;
}

static PyObject *scanner_search(Scanner *scanner, void *nothing) {
    (void)nothing;
    return PyUnicode_FromString(search_names[scanner->search]);
}

static PyObject *scanner_text(Scanner *scanner, void *nothing) {
    (void)nothing;
    return PyBool_FromLong(scanner->is_text);
}

static PyObject *scanner_repr(Scanner *scanner) {
    return PyUnicode_FromFormat("<Scanner, %s>", search_names[scanner->search]);
}

static PyMethodDef scanner_methods[] = {
    {"find", (PyCFunction)scanner_find, METH_O,
     "find($self, text, /)\n--\n\nReturns what the scanner finds in a text. A long text is searched without the interpreter's lock.\n\n"
     ">>> d = Cedar({b'he': 1, b'she': 2, b'hers': 3})\n"
     ">>> [tuple(m) for m in Scanner(d).find(b'ushers')]\n[(1, 3, 2), (2, 2, 1), (2, 4, 3)]\n"
     ">>> [tuple(m) for m in Scanner(d, search='leftmost-longest').find(b'ushers')]\n[(1, 3, 2)]\n"},
    {"__class_getitem__", type_of_keys, METH_O | METH_CLASS, NULL},
    {NULL, NULL, 0, NULL},
};

static PyGetSetDef scanner_properties[] = {
    {"search", (getter)scanner_search, NULL, "What it finds.", NULL},
    {"text", (getter)scanner_text, NULL, "Whether its keys are str.", NULL},
    {NULL, NULL, NULL, NULL, NULL},
};

static PyType_Slot scanner_slots[] = {
    {Py_tp_doc,
     "Scanner(dictionary, /, search='overlapping')\n--\n\nAn automaton of a dictionary, which finds its keys in a text in linear time, whatever keys and\n"
     "text are. It has a copy of the dictionary: later changes of that don't show. What it finds:\n\n"
     "- 'overlapping': all keys, by their ends: at each end the longest first;\n"
     "- 'earliest': keys that don't overlap: of those that end first the longest, and so on from its end;\n"
     "- 'leftmost-longest': keys that don't overlap: of those that begin first the longest;\n"
     "- 'leftmost-first': the same, of those that begin first the one with the least value, and of several with it the shortest.\n\n"
     "Any number of threads may search by one scanner at the same time."},
    {Py_tp_new, (void *)scanner_make},
    {Py_tp_dealloc, (void *)scanner_dealloc},
    {Py_tp_repr, (void *)scanner_repr},
    {Py_tp_methods, scanner_methods},
    {Py_tp_getset, scanner_properties},
    {0, NULL},
};

PyType_Spec scanner_spec = {"roskvidh._core.Scanner", sizeof(Scanner), 0, TYPE_FLAGS, scanner_slots};

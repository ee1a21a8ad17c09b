/* The module roskvidh._core: the type Core, over the library for C. The package's Cedar is a subclass of it. */
#include "core.h"

static PyObject *core_make(PyTypeObject *type, PyObject *arguments, PyObject *keywords) {
    (void)arguments;
    (void)keywords;
    Core *core = (Core *)PyType_GenericAlloc(type, 0);
    if (!core) return NULL;
    core->store = (cedar_store)CEDAR_STORE_CLOSED;
    core->sync_every = 1;
    return (PyObject *)core;
}

/* Nobody has the object any more. A call is under way only in a forked child whose parent was in it; then its memory is left alone. */
static void core_dealloc(Core *core) {
    PyTypeObject *type = Py_TYPE(core);
    Py_CLEAR(core->blocks);
    if (!core->turns) cedar_store_close(&core->store);
    ((freefunc)PyType_GetSlot(type, Py_tp_free))(core);
    Py_DECREF(type);
}

static PyObject *core_close_call(Core *core, PyObject *nothing) {
    (void)nothing;
    if (core_close(core) < 0) return NULL;
    Py_RETURN_NONE;
}

static PyObject *core_reserve(Core *core, PyObject *given) {
    size_t blocks = PyLong_AsSize_t(given);
    if (blocks == (size_t)-1 && PyErr_Occurred()) return NULL;
    if (core_alone(core) < 0) return NULL;
    uint32_t status = cedar_reserve(&core->store.dictionary, blocks);
    if (status == CEDAR_OK) Py_RETURN_NONE;
    fail_with(status);
    return NULL;
}

static PyObject *core_figures(Core *core, PyObject *nothing) {
    (void)nothing;
    if (core_ready(core) < 0) return NULL;
    const cedar *d = &core->store.dictionary;
    return Py_BuildValue("nnnn", (Py_ssize_t)cedar_len(d), (Py_ssize_t)cedar_used_slots(d), (Py_ssize_t)cedar_capacity(d),
                         (Py_ssize_t)cedar_spare_blocks(d));
}

/* Type checkers read Core and Scanner as generic in their keys; when the program runs, Core[K] is Core. */
PyObject *type_of_keys(PyObject *type, PyObject *keys) {
    (void)keys;
    Py_INCREF(type);
    return type;
}

static PyObject *core_text(Core *core, void *unused) {
    (void)unused;
    return PyBool_FromLong(core->is_text);
}

static PyObject *core_ordered(Core *core, void *unused) {
    (void)unused;
    return PyBool_FromLong(core->is_ordered);
}

static PyObject *core_reduced(Core *core, void *unused) {
    (void)unused;
    return PyBool_FromLong(core->is_reduced);
}

static PyObject *core_max_trial(Core *core, void *unused) {
    (void)unused;
    return PyLong_FromLong(core->max_trial);
}

/* None where nothing bounds a search. */
static PyObject *core_search_limit(Core *core, void *unused) {
    (void)unused;
    if (core_ready(core) < 0) return NULL;
    size_t blocks = cedar_search_limit(&core->store.dictionary);
    if (blocks == SIZE_MAX) Py_RETURN_NONE;
    return PyLong_FromSize_t(blocks);
}

static int core_set_search_limit(Core *core, PyObject *given, void *unused) {
    (void)unused;
    if (!given) {
        PyErr_SetString(PyExc_TypeError, "search_limit can't be deleted");
        return -1;
    }
    size_t blocks = given == Py_None ? SIZE_MAX : PyLong_AsSize_t(given);
    if (blocks == (size_t)-1 && PyErr_Occurred()) return -1;
    if (core_alone(core) < 0) return -1;
    cedar_set_search_limit(&core->store.dictionary, blocks);
    return 0;
}

static PyObject *core_closed(Core *core, void *unused) {
    (void)unused;
    return PyBool_FromLong(!core->is_open);
}

static PyGetSetDef core_properties[] = {
    {"text", (getter)core_text, NULL, "Whether keys are str.", NULL},
    {"ordered", (getter)core_ordered, NULL, "Whether keys ascend by bytes in an iteration.", NULL},
    {"reduced", (getter)core_reduced, NULL, "Whether it is of the reduced layout, which takes fewer slots.", NULL},
    {"max_trial", (getter)core_max_trial, NULL, "How many failed searches for a place close a block of slots.", NULL},
    {"search_limit", (getter)core_search_limit, (setter)core_set_search_limit,
     "How many blocks of slots one search for places tries at most. At first it is None: nothing bounds a search, and an update after many\n"
     "erasures may take milliseconds. With a bound it doesn't, and may take some more slots. A copy has the same bound; no file and no pickle has it.",
     NULL},
    {"closed", (getter)core_closed, NULL, "Whether its memory was given back.", NULL},
    {NULL, NULL, NULL, NULL, NULL},
};

static PyMethodDef core_methods[] = {
    {"get", (PyCFunction)core_get, METH_VARARGS,
     "get($self, key, default=None, /)\n--\n\nReturns the value of a key, or the default if the key isn't held.\n\n"
     ">>> Cedar({b'net': 7}).get(b'ten', 0)\n0\n"},
    {"pop", (PyCFunction)core_pop, METH_VARARGS,
     "Removes a key and returns its value. If it isn't held, returns the default, or raises KeyError without one.\n\n"
     ">>> Cedar({b'net': 7}).pop(b'net')\n7\n"},
    {"setdefault", (PyCFunction)core_setdefault, METH_VARARGS,
     "setdefault($self, key, default, /)\n--\n\nReturns the value of a key. If it isn't held, stores the default first.\n\n"
     ">>> Cedar({b'net': 7}).setdefault(b'ten', 8)\n8\n"},
    {"popitem", (PyCFunction)core_popitem, METH_NOARGS,
     "popitem($self, /)\n--\n\nRemoves some key and returns it with its value. An empty dictionary raises KeyError.\n\n"
     ">>> Cedar({b'net': 7}).popitem()\n(b'net', 7)\n"},
    {"clear", (PyCFunction)core_clear, METH_NOARGS,
     "clear($self, /)\n--\n\nRemoves all keys. Their memory is kept for others: shrink() frees it.\n\n"
     ">>> d = Cedar({b'net': 7})\n>>> d.clear()\n>>> len(d)\n0\n"},
    {"shrink", (PyCFunction)core_shrink, METH_NOARGS,
     "shrink($self, /)\n--\n\nFrees memory that growth and removed keys have left unused. It makes an equal dictionary, for which there has to be\n"
     "memory; otherwise it raises MemoryError, and nothing has changed.\n\n"
     ">>> d = Cedar((b'%d' % i, i) for i in range(10000))\n>>> d.clear()\n>>> d.shrink()\n>>> d.stats().capacity\n256\n"},
    {"close", (PyCFunction)core_close_call, METH_NOARGS,
     "close($self, /)\n--\n\nFrees the memory. From then on any call except close raises ValueError.\n\n"
     ">>> d = Cedar()\n>>> d.close()\n>>> d.closed\nTrue\n"},
    {"prefixes", (PyCFunction)core_prefixes, METH_O,
     "prefixes($self, text, /)\n--\n\nReturns the keys that a text begins with and their values, shortest first.\n\n"
     ">>> Cedar({b'net': 7, b'nets': 8, b'ten': 9}).prefixes(b'netset')\n[(b'net', 7), (b'nets', 8)]\n"},
    {"longest_prefix", (PyCFunction)core_longest_prefix, METH_O,
     "longest_prefix($self, text, /)\n--\n\nReturns the longest key that a text begins with and its value, or None.\n\n"
     ">>> Cedar({b'net': 7, b'nets': 8}).longest_prefix(b'netset')\n(b'nets', 8)\n"},
    {"scan", (PyCFunction)core_scan, METH_O,
     "scan($self, text, /)\n--\n\nReturns all keys in a text: position after position, and at each the shortest first.\n\n"
     ">>> [tuple(m) for m in Cedar({b'net': 7, b'nets': 8}).scan(b'a nets')]\n[(2, 3, 7), (2, 4, 8)]\n"},
    {"segment", (PyCFunction)core_segment, METH_O,
     "segment($self, text, /)\n--\n\nReturns the tokens of a text: at each position the longest key, or otherwise one byte (with text=True one\n"
     "character), whose value is None.\n\n"
     ">>> [tuple(m) for m in Cedar({b'net': 7, b'nets': 8}).segment(b'nets!')]\n[(0, 4, 8), (4, 1, None)]\n"},
    {"keywords", (PyCFunction)core_keywords, METH_O,
     "keywords($self, text, /)\n--\n\nReturns the keywords of a text, which don't overlap: of the keys that begin first the longest, then the same\n"
     "from its end on.\n\n"
     ">>> [tuple(m) for m in Cedar({b'net': 7, b'nets': 8, b'sew': 9}).keywords(b'a netsew')]\n[(2, 4, 8)]\n"},
    {"cheapest", (PyCFunction)(void (*)(void))core_cheapest, METH_VARARGS | METH_KEYWORDS,
     "cheapest($self, text, /, unknown, *, costs=None)\n--\n\nReturns the tokens of a text whose costs have the least sum: a key costs its value, and a byte (with\n"
     "text=True a character) without a key costs `unknown`, 0 to 4294967295, and has the value None. With `costs` values are ids: a key costs\n"
     "what this list or mapping has at its value, and 4294967295 if it has nothing there; an unknown token is a character of UTF-8 then.\n\n"
     ">>> [tuple(m) for m in Cedar({b'a': 5, b'ab': 6, b'bcd': 1}).cheapest(b'abcd', unknown=10)]\n[(0, 1, 5), (1, 3, 1)]\n"},
    {"erase_prefix", (PyCFunction)core_erase_prefix, METH_O,
     "erase_prefix($self, prefix, /)\n--\n\nRemoves all keys that begin with a prefix, and returns how many there were.\n\n"
     ">>> Cedar({b'net': 7, b'nets': 8, b'ten': 9}).erase_prefix(b'ne')\n2\n"},
    {"erase_all", (PyCFunction)core_erase_all, METH_O,
     "erase_all($self, keys, /)\n--\n\nRemoves the keys of an iterable, and returns how many of them were held. Where one is refused, none is removed.\n\n"
     ">>> Cedar({b'net': 7, b'nets': 8, b'ten': 9}).erase_all([b'ten', b'nor', b'net'])\n2\n"},
    {"reserve", (PyCFunction)core_reserve, METH_O,
     "reserve($self, blocks, /)\n--\n\nAllocates ahead for so many blocks of 256 slots more than are in use. An update takes at most one for each\n"
     "byte of its key, so the next ones need no memory.\n\n"
     ">>> d = Cedar()\n>>> d.reserve(100)\n>>> d.stats().spare_blocks >= 100\nTrue\n"},
    {"__class_getitem__", type_of_keys, METH_O | METH_CLASS, NULL},
    {"_open", (PyCFunction)core_open, METH_VARARGS, NULL},
    {"_build", (PyCFunction)core_build, METH_VARARGS, NULL},
    {"_build_unsorted", (PyCFunction)core_build_unsorted, METH_VARARGS, NULL},
    {"_load", (PyCFunction)core_load, METH_VARARGS, NULL},
    {"_open_copy", (PyCFunction)core_open_copy, METH_O, NULL},
    {"_open_store", (PyCFunction)core_open_store, METH_VARARGS, NULL},
    {"_kept", (PyCFunction)core_kept, METH_NOARGS, NULL},
    {"_has_failed", (PyCFunction)core_has_failed, METH_NOARGS, NULL},
    {"_sync", (PyCFunction)core_sync, METH_NOARGS, NULL},
    {"_sync_every", (PyCFunction)core_sync_every, METH_O, NULL},
    {"_waiting", (PyCFunction)core_waiting, METH_NOARGS, NULL},
    {"_compact", (PyCFunction)core_compact, METH_NOARGS, NULL},
    {"_compact_beyond", (PyCFunction)core_compact_beyond, METH_VARARGS, NULL},
    {"_file_figures", (PyCFunction)core_file_figures, METH_NOARGS, NULL},
    {"_compacted_size", (PyCFunction)core_compacted_size, METH_NOARGS, NULL},
    {"_begin_block", (PyCFunction)core_begin_block, METH_NOARGS, NULL},
    {"_end_block", (PyCFunction)core_end_block, METH_VARARGS, NULL},
    {"_is_in_block", (PyCFunction)core_is_in_block, METH_NOARGS, NULL},
    {"_dump", (PyCFunction)core_dump, METH_O, NULL},
    {"_update", (PyCFunction)core_update, METH_O, NULL},
    {"_walk", (PyCFunction)core_walk, METH_VARARGS, NULL},
    {"_range", (PyCFunction)core_range, METH_VARARGS, NULL},
    {"_best", (PyCFunction)core_best, METH_VARARGS, NULL},
    {"_neighbour", (PyCFunction)core_neighbour, METH_VARARGS, NULL},
    {"_next_wanted", (PyCFunction)core_next_wanted, METH_VARARGS, NULL},
    {"_count", (PyCFunction)core_count, METH_O, NULL},
    {"_figures", (PyCFunction)core_figures, METH_NOARGS, NULL},
    {NULL, NULL, 0, NULL},
};

static PyType_Slot core_slots[] = {
    {Py_tp_new, (void *)core_make},
    {Py_tp_dealloc, (void *)core_dealloc},
    {Py_tp_iter, (void *)core_iterate},
    {Py_mp_subscript, (void *)core_subscript},
    {Py_mp_ass_subscript, (void *)core_assign},
    {Py_mp_length, (void *)core_length},
    {Py_sq_contains, (void *)core_contains},
    {Py_tp_methods, core_methods},
    {Py_tp_getset, core_properties},
    {0, NULL},
};

PyTypeObject *core_type;

static PyType_Spec core_spec = {"roskvidh._core.Core", sizeof(Core), 0, TYPE_FLAGS | Py_TPFLAGS_BASETYPE, core_slots};

static PyMethodDef module_functions[] = {
    {"replace_file", file_replace, METH_VARARGS, NULL},
    {NULL, NULL, 0, NULL},
};

/* The module's types are the process's: it is loaded once. */
static struct PyModuleDef definition = {
    PyModuleDef_HEAD_INIT, "_core", "The dictionary over the library for C.", -1, module_functions, NULL, NULL, NULL, NULL,
};

static int add(PyObject *module, const char *name, PyObject *given) {
    if (!given) return -1;
    Py_INCREF(given);
    if (PyModule_AddObject(module, name, given) == 0) return 0;
    Py_DECREF(given);
    return -1;
}

static int fill(PyObject *module) {
    cedar_error = PyErr_NewExceptionWithDoc("roskvidh.CedarError", "What the library refused: `status` is its number.", PyExc_ValueError, NULL);
    walk_type = (PyTypeObject *)PyType_FromSpec(&walk_spec);
    matches_type = (PyTypeObject *)PyType_FromSpec(&matches_spec);
    match_type = match_make();
    if (!walk_type) return -1;
    if (add(module, "CedarError", cedar_error) < 0) return -1;
    if (add(module, "Matches", (PyObject *)matches_type) < 0 || add(module, "Match", (PyObject *)match_type) < 0) return -1;
    core_type = (PyTypeObject *)PyType_FromSpec(&core_spec);
    if (add(module, "Core", (PyObject *)core_type) < 0) return -1;
    PyObject *scanner_type = PyType_FromSpec(&scanner_spec);
    if (add(module, "Scanner", scanner_type) < 0) return -1;
    if (PyModule_AddIntConstant(module, "MIN_VALUE", CEDAR_MIN_VALUE) < 0 || PyModule_AddIntConstant(module, "MAX_VALUE", CEDAR_MAX_VALUE) < 0) return -1;
    if (PyModule_AddIntConstant(module, "OPEN_EXISTING", CEDAR_OPEN_EXISTING) < 0 || PyModule_AddIntConstant(module, "OPEN_NEW", CEDAR_OPEN_NEW) < 0) return -1;
    if (PyModule_AddIntConstant(module, "OPEN_TO_READ", CEDAR_OPEN_TO_READ) < 0) return -1;
    return PyModule_AddIntConstant(module, "LOAD_LIMIT", CEDAR_LOAD_LIMIT);
}

/* Headers of Python 3.8 don't make it visible by themselves. */
__attribute__((visibility("default"))) PyMODINIT_FUNC PyInit__core(void);

PyMODINIT_FUNC PyInit__core(void) {
    PyObject *module = PyModule_Create(&definition);
    if (module && fill(module) < 0) Py_CLEAR(module);
    return module;
}

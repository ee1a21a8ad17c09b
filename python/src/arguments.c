/* Python's objects as C takes them, and back. */
#include "core.h"

#include <string.h>

PyObject *cedar_error;

enum { STATUS_ROOM = 256 };

static PyObject *status_text(uint32_t status) {
    uint8_t text[STATUS_ROOM];
    size_t length = cedar_status_text(status, text, sizeof text);
    return PyUnicode_DecodeUTF8((const char *)text, length < sizeof text ? length : sizeof text, "replace");
}

static int raise_status(uint32_t status, PyObject *text) {
    if (!text) return -1;
    if (status == CEDAR_MEMORY || status == CEDAR_SLOT_LIMIT) {
        PyErr_SetObject(PyExc_MemoryError, text);
    } else {
        PyObject *error = PyObject_CallFunctionObjArgs(cedar_error, text, NULL), *number = PyLong_FromUnsignedLong(status);
        if (error && number && PyObject_SetAttrString(error, "status", number) == 0) PyErr_SetObject(cedar_error, error);
        Py_XDECREF(error);
        Py_XDECREF(number);
    }
    Py_DECREF(text);
    return -1;
}

/* Whether a call on a store's file failed or found no room, which has set errno. */
bool is_of_device(uint32_t status) {
    return status == CEDAR_STORE_DEVICE || status == CEDAR_STORE_KEPT || status == CEDAR_STORE_NO_ROOM;
}

/* Raises what a status says: MemoryError for want of memory or slots, OSError where it is of the device, and CedarError for all else. */
int fail_with(uint32_t status) {
    if (is_of_device(status)) {
        PyErr_SetFromErrno(PyExc_OSError);
        return -1;
    }
    return raise_status(status, status_text(status));
}

/* The same, with a position that C told. */
int fail_at(uint32_t status, const char *what, size_t position) {
    PyObject *text = status_text(status);
    if (!text) return -1;
    PyObject *whole = PyUnicode_FromFormat("%U (at %s %zu)", text, what, position);
    Py_DECREF(text);
    return raise_status(status, whole);
}

/* Whether a key can be stored. Its fault is raised as C would name it. */
int key_test(const Span *key) {
    const uint8_t *nul = key->length == 0 ? NULL : memchr(key->at, 0, key->length);
    if (key->length == 0) return fail_with(CEDAR_EMPTY_KEY);
    return nul ? fail_at(CEDAR_NUL_BYTE, "byte", (size_t)(nul - key->at)) : 0;
}

/* Says in the text of an error that is being raised, of a key's or a value's type or fault, which item of a list has it. */
void name_item(const char *what, size_t position) {
    PyObject *type, *error, *trace;
    bool is_surrogate = PyErr_ExceptionMatches(PyExc_UnicodeEncodeError);
    if (!is_surrogate && !PyErr_ExceptionMatches(PyExc_TypeError) && !PyErr_ExceptionMatches(cedar_error)) return;
    PyErr_Fetch(&type, &error, &trace);
    PyErr_NormalizeException(&type, &error, &trace);
    /* The text of a UnicodeEncodeError is made of its attributes. */
    PyObject *told = is_surrogate ? PyUnicodeEncodeError_GetReason(error) : PyObject_Str(error);
    PyObject *text = told ? PyUnicode_FromFormat("%s %zu: %U", what, position, told) : NULL;
    PyObject *given = text && !is_surrogate ? PyTuple_Pack(1, text) : text;
    if (!given || PyObject_SetAttrString(error, is_surrogate ? "reason" : "args", given) < 0) PyErr_Clear();
    if (given != text) Py_XDECREF(given);
    Py_XDECREF(text);
    Py_XDECREF(told);
    PyErr_Restore(type, error, trace);
}

/* Raises a TypeError: what is taken, and the name of the type that isn't. */
static void fail_type(const char *taken, PyObject *given) {
    PyObject *name = PyObject_GetAttrString((PyObject *)Py_TYPE(given), "__name__");
    if (name) PyErr_Format(PyExc_TypeError, "%s, and not %S", taken, name);
    Py_XDECREF(name);
}

/* Says in a UnicodeEncodeError that is being raised what it is about. */
static void name_surrogate(void) {
    PyObject *type, *error, *trace;
    if (!PyErr_ExceptionMatches(PyExc_UnicodeEncodeError)) return;
    PyErr_Fetch(&type, &error, &trace);
    PyErr_NormalizeException(&type, &error, &trace);
    if (PyUnicodeEncodeError_SetReason(error, "keys and texts are stored as UTF-8, which has no lone surrogates") < 0) PyErr_Clear();
    PyErr_Restore(type, error, trace);
}

static PyObject *text_as_bytes(PyObject *given) {
    if (PyUnicode_Check(given)) {
        PyObject *bytes = PyUnicode_AsUTF8String(given);
        if (!bytes) name_surrogate();
        return bytes;
    }
    fail_type("a dictionary with text=True takes str", given);
    return NULL;
}

static PyObject *as_bytes(PyObject *given) {
    if (PyBytes_Check(given)) {
        Py_INCREF(given);
        return given;
    }
    if (PyByteArray_Check(given) || PyMemoryView_Check(given)) return PyBytes_FromObject(given);
    fail_type(PyUnicode_Check(given) ? "a dictionary without text=True takes bytes" : "a dictionary takes bytes", given);
    return NULL;
}

/* The bytes of a key or of a text. What can change while they are in use is copied. The caller gives `owner` back. */
int text_take(bool is_text, PyObject *given, Span *span) {
    char *at;
    Py_ssize_t length;
    span->owner = is_text ? text_as_bytes(given) : as_bytes(given);
    if (!span->owner) return -1;
    if (PyBytes_AsStringAndSize(span->owner, &at, &length) < 0) {
        Py_CLEAR(span->owner);
        return -1;
    }
    span->at = (const uint8_t *)at;
    span->length = (size_t)length;
    return 0;
}

/* The same of a dictionary's keys and texts. */
int span_take(Core *core, PyObject *given, Span *span) {
    return text_take(core->is_text, given, span);
}

/* Whether an object is of a type that keys have. */
bool is_key_type(const Core *core, PyObject *given) {
    if (core->is_text) return PyUnicode_Check(given);
    return PyBytes_Check(given) || PyByteArray_Check(given) || PyMemoryView_Check(given);
}

/* A whole number, or -1 for one that is too long. A bool or a float is an error of the caller's. */
static int whole_take(PyObject *given, const char *taken, long long *whole) {
    if (PyBool_Check(given) || !PyIndex_Check(given)) {
        fail_type(taken, given);
        return -1;
    }
    PyObject *number = PyNumber_Index(given);
    if (!number) return -1;
    int overflow;
    *whole = PyLong_AsLongLongAndOverflow(number, &overflow);
    Py_DECREF(number);
    if (overflow) *whole = -1;
    return 0;
}

/* A value in its range. */
int value_take(PyObject *given, int32_t *value) {
    long long whole;
    if (whole_take(given, "a value is an int", &whole) < 0) return -1;
    if (whole < CEDAR_MIN_VALUE || whole > CEDAR_MAX_VALUE) return fail_with(CEDAR_INVALID_VALUE);
    *value = (int32_t)whole;
    return 0;
}

/* What a byte without a value costs. */
int cost_take(PyObject *given, uint32_t *cost) {
    long long whole;
    if (whole_take(given, "a cost is an int", &whole) < 0) return -1;
    if (whole < 0 || whole > UINT32_MAX) {
        PyErr_SetString(PyExc_ValueError, "a cost is outside the range 0..=4294967295");
        return -1;
    }
    *cost = (uint32_t)whole;
    return 0;
}

PyObject *key_give(Core *core, const uint8_t *at, size_t length) {
    if (core->is_text) return PyUnicode_DecodeUTF8((const char *)at, (Py_ssize_t)length, NULL);
    return PyBytes_FromStringAndSize((const char *)at, (Py_ssize_t)length);
}

/* A key and its value. It takes the key over. */
PyObject *pair_give(PyObject *key, int32_t value) {
    if (!key) return NULL;
    PyObject *number = PyLong_FromLong(value), *pair = number ? PyTuple_New(2) : NULL;
    if (!pair) {
        Py_XDECREF(number);
        Py_DECREF(key);
        return NULL;
    }
    PyTuple_SetItem(pair, 0, key);
    PyTuple_SetItem(pair, 1, number);
    return pair;
}

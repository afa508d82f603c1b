/* Encodes Python objects as a canonical block. It is a plain writer with its own stack, and
 * libkombilad checks its result. */
#include <stdlib.h>
#include <string.h>

#include "native.h"

/* A pair of a dict. It owns both objects: while a block is written, the garbage collector may run
 * Python code that changes the dict. */
struct pair {
    const char *key; /* the UTF-8 of the text, which owns it */
    size_t len;
    PyObject *text, *value;
};

/* A list, a tuple or a dict that is being written. */
struct open {
    PyObject *container; /* owned */
    size_t at, end;      /* indices on the stack of pairs for a dict, otherwise in the items */
    size_t first;
    PyObject *(*item)(PyObject *, Py_ssize_t); /* NULL for a dict */
};

struct writer {
    const struct state *state;
    bool link_bytes; /* whether bytes that are a CID are written as a link */
    size_t levels;
    uint8_t *bytes;
    size_t len, capacity;
    struct open *open;
    size_t opened, open_capacity;
    struct pair *pairs;
    size_t paired, pair_capacity;
};

/* Makes room for `more` records of a size after the first `len`. */
static int reserve(void **records, size_t *capacity, size_t len, size_t more, size_t size) {
    if (more <= *capacity - len) return 0;
    size_t wanted = *capacity * 2 > len + more ? *capacity * 2 : len + more + 64;
    void *larger = wanted > PTRDIFF_MAX / size ? NULL : PyMem_Realloc(*records, wanted * size);
    if (larger == NULL) {
        PyErr_NoMemory();
        return -1;
    }
    *records = larger;
    *capacity = wanted;
    return 0;
}

/* Makes room for a head and this many bytes more. */
static int room(struct writer *writer, size_t more) {
    void *bytes = writer->bytes;
    int failed = reserve(&bytes, &writer->capacity, writer->len, more + 16, 1);
    writer->bytes = bytes;
    return failed;
}

/* Writes a head in its shortest form. The caller has made room for it. */
static void write_head(struct writer *writer, uint8_t major, uint64_t argument) {
    uint8_t *to = writer->bytes + writer->len;
    int width = argument < 24                  ? 0
                : argument < 1u << 8           ? 1
                : argument < 1u << 16          ? 2
                : argument < (uint64_t)1 << 32 ? 4
                                               : 8;
    static const uint8_t more[] = {0, 24, 25, 0, 26, 0, 0, 0, 27};
    *to++ = (uint8_t)(major << 5 | (width ? more[width] : argument));
    for (int at = width; at-- > 0;) *to++ = (uint8_t)(argument >> 8 * at);
    writer->len = (size_t)(to - writer->bytes);
}

static void copy(struct writer *writer, const void *bytes, size_t len) {
    if (len > 0) memcpy(writer->bytes + writer->len, bytes, len);
    writer->len += len;
}

static int write_string(struct writer *writer, uint8_t major, const void *bytes, size_t len) {
    if (room(writer, len) < 0) return -1;
    write_head(writer, major, len);
    copy(writer, bytes, len);
    return 0;
}

static int write_byte(struct writer *writer, uint8_t byte) {
    if (room(writer, 0) < 0) return -1;
    writer->bytes[writer->len++] = byte;
    return 0;
}

static int write_link(struct writer *writer, const void *bytes, size_t len) {
    if (room(writer, len) < 0) return -1;
    write_head(writer, 6, 42);
    write_head(writer, 2, len + 1);
    writer->bytes[writer->len++] = 0;
    copy(writer, bytes, len);
    return 0;
}

/* Returns the keys and indexes that lead through the first `depth` open containers to the value
 * that is being written, as a tuple. */
static PyObject *path_of(const struct writer *writer, size_t depth) {
    PyObject *path = PyTuple_New((Py_ssize_t)depth);
    for (size_t at = 0; path != NULL && at < depth; at++) {
        const struct open *open = &writer->open[at];
        PyObject *segment;
        if (open->item != NULL) {
            segment = PyLong_FromSize_t(open->at - 1);
        } else {
            segment = writer->pairs[open->at - 1].text;
            Py_INCREF(segment);
        }
        if (segment == NULL || PyTuple_SetItem(path, (Py_ssize_t)at, segment) < 0) Py_CLEAR(path);
    }
    return path;
}

/* Sets an EncodeError with this name, for an object at this depth. Returns -1. */
static int rejected_at(const struct writer *writer, size_t depth, const char *name,
                       PyObject *object) {
    PyObject *path = path_of(writer, depth);
    if (path == NULL) return -1;
    PyObject *error = PyObject_CallFunction(writer->state->encode_error, "sOO", name, object, path);
    Py_DECREF(path);
    if (error != NULL) PyErr_SetObject((PyObject *)Py_TYPE(error), error);
    Py_XDECREF(error);
    return -1;
}

/* Sets an EncodeError with this name, for the value that is being written. Returns -1. */
static int rejected(const struct writer *writer, const char *name, PyObject *object) {
    return rejected_at(writer, writer->opened, name, object);
}

static int write_unsigned(struct writer *writer, uint8_t major, PyObject *number, PyObject *given) {
    unsigned long long argument = PyLong_AsUnsignedLongLong(number);
    if (argument == (unsigned long long)-1 && PyErr_Occurred()) {
        if (!PyErr_ExceptionMatches(PyExc_OverflowError)) return -1;
        PyErr_Clear();
        return rejected(writer, "INTEGER", given);
    }
    if (room(writer, 0) < 0) return -1;
    write_head(writer, major, argument);
    return 0;
}

static int write_integer(struct writer *writer, PyObject *object) {
    int overflow;
    long long number = PyLong_AsLongLongAndOverflow(object, &overflow);
    if (overflow > 0) return write_unsigned(writer, 0, object, object);
    if (overflow < 0) {
        /* This is the method of `int`, since that of a subclass may differ. */
        Py_INCREF(object);
        PyObject *inverted = PyObject_CallMethod((PyObject *)&PyLong_Type, "__invert__", "(O)",
                                                 object);
        int failed = inverted == NULL ? -1 : write_unsigned(writer, 1, inverted, object);
        Py_XDECREF(inverted);
        Py_DECREF(object);
        return failed;
    }
    if (room(writer, 0) < 0) return -1;
    if (number < 0)
        write_head(writer, 1, (uint64_t)(-1 - number));
    else
        write_head(writer, 0, (uint64_t)number);
    return 0;
}

static int write_float(struct writer *writer, PyObject *object) {
    double number = PyFloat_AsDouble(object);
    uint64_t bits;
    memcpy(&bits, &number, 8);
    if ((bits >> 52 & 0x7FF) == 0x7FF) return rejected(writer, "FLOAT", object);
    if (room(writer, 0) < 0) return -1;
    writer->bytes[writer->len++] = 0xFB;
    for (int at = 8; at-- > 0;) writer->bytes[writer->len++] = (uint8_t)(bits >> 8 * at);
    return 0;
}

static int write_text(struct writer *writer, PyObject *object) {
    Py_ssize_t len;
    const char *bytes = PyUnicode_AsUTF8AndSize(object, &len);
    return bytes == NULL ? -1 : write_string(writer, 3, bytes, (size_t)len);
}

static int write_bytes(struct writer *writer, PyObject *object) {
    struct lent lent;
    if (lend(object, &lent) < 0) return -1;
    bool links = writer->link_bytes && lent.immutable &&
                 kombilad_cid_check(lent.bytes, lent.len) == KOMBILAD_OK;
    int failed = links ? write_link(writer, lent.bytes, lent.len)
                       : write_string(writer, 2, lent.bytes, lent.len);
    take_back(&lent);
    return failed;
}

/* Compares two pairs by the length of their keys, then by the bytes. */
static int compare(const void *one, const void *other) {
    const struct pair *a = one, *b = other;
    if (a->len != b->len) return a->len < b->len ? -1 : 1;
    return memcmp(a->key, b->key, a->len);
}

static struct open *opened(struct writer *writer, PyObject *container, uint8_t major,
                           size_t count) {
    if (writer->opened >= writer->levels) {
        set_failed(writer->state, KOMBILAD_TOO_DEEP, writer->len);
        return NULL;
    }
    void *open = writer->open;
    int failed = reserve(&open, &writer->open_capacity, writer->opened, 1, sizeof *writer->open);
    writer->open = open;
    if (failed < 0 || room(writer, 0) < 0) return NULL;
    write_head(writer, major, count);
    struct open *added = &writer->open[writer->opened++];
    Py_INCREF(container);
    *added = (struct open){container, 0, count, 0, NULL};
    return added;
}

static int open_items(struct writer *writer, PyObject *object, Py_ssize_t count,
                      PyObject *(*item)(PyObject *, Py_ssize_t)) {
    struct open *open = opened(writer, object, 4, (size_t)count);
    if (open == NULL) return -1;
    open->item = item;
    return 0;
}

static int open_dict(struct writer *writer, PyObject *object) {
    size_t count = (size_t)PyDict_Size(object), first = writer->paired;
    struct open *open = opened(writer, object, 5, count);
    if (open == NULL) return -1;
    open->first = open->at = open->end = first;
    void *pairs = writer->pairs;
    int failed = reserve(&pairs, &writer->pair_capacity, first, count, sizeof *writer->pairs);
    writer->pairs = pairs;
    if (failed < 0) return -1;
    PyObject *key, *value;
    Py_ssize_t place = 0;
    bool in_order = true;
    while (writer->paired - first < count && PyDict_Next(object, &place, &key, &value)) {
        if (!PyUnicode_Check(key))
            return rejected_at(writer, writer->opened - 1, "KEY_NOT_TEXT", key);
        Py_ssize_t len;
        const char *bytes = PyUnicode_AsUTF8AndSize(key, &len);
        if (bytes == NULL) return -1;
        Py_INCREF(key);
        Py_INCREF(value);
        writer->pairs[writer->paired] = (struct pair){bytes, (size_t)len, key, value};
        if (writer->paired > first &&
            compare(&writer->pairs[writer->paired - 1], &writer->pairs[writer->paired]) > 0)
            in_order = false;
        writer->paired++;
    }
    if (!in_order)
        qsort(writer->pairs + first, writer->paired - first, sizeof *writer->pairs, compare);
    open->end = writer->paired;
    return 0;
}

/* Releases all pairs after the first ones. */
static void drop_pairs(struct writer *writer, size_t first) {
    while (writer->paired > first) {
        const struct pair pair = writer->pairs[--writer->paired];
        Py_DECREF(pair.text);
        Py_DECREF(pair.value);
    }
}

static int write_other(struct writer *writer, PyObject *object) {
    if (PyUnicode_Check(object)) return write_text(writer, object);
    if (PyLong_Check(object)) return write_integer(writer, object);
    if (PyDict_Check(object)) return open_dict(writer, object);
    if (PyList_Check(object))
        return open_items(writer, object, PyList_Size(object), PyList_GetItem);
    if (PyTuple_Check(object))
        return open_items(writer, object, PyTuple_Size(object), PyTuple_GetItem);
    if (PyFloat_Check(object)) return write_float(writer, object);
    if (PyBytes_Check(object))
        return write_string(writer, 2, PyBytes_AsString(object), (size_t)PyBytes_Size(object));
    if (Py_TYPE(object) == &PyByteArray_Type || Py_TYPE(object) == &PyMemoryView_Type)
        return write_bytes(writer, object);
    return rejected(writer, "TYPE", object);
}

/* Writes a value. For a list or a map it writes the head, and opens it. The value may be borrowed
 * from a list: no Python code runs before it is written or opened, or an exception owns it. */
static int write_value(struct writer *writer, PyObject *object) {
    PyTypeObject *type = Py_TYPE(object);
    if (type == &PyUnicode_Type) return write_text(writer, object);
    if (type == &PyLong_Type) return write_integer(writer, object);
    if (type == &PyDict_Type) return open_dict(writer, object);
    if (type == &PyList_Type)
        return open_items(writer, object, PyList_Size(object), PyList_GetItem);
    if (type == &PyBytes_Type) return write_bytes(writer, object);
    if (PyType_IsSubtype(type, (PyTypeObject *)writer->state->cid)) {
        PyObject *bytes = ((struct cid *)object)->bytes;
        return write_link(writer, PyBytes_AsString(bytes), (size_t)PyBytes_Size(bytes));
    }
    if (object == Py_None) return write_byte(writer, 0xF6);
    if (object == Py_True) return write_byte(writer, 0xF5);
    if (object == Py_False) return write_byte(writer, 0xF4);
    return write_other(writer, object);
}

static int write_all(struct writer *writer, PyObject *root) {
    if (write_value(writer, root) < 0) return -1;
    while (writer->opened > 0) {
        struct open *open = &writer->open[writer->opened - 1];
        if (open->at == open->end) {
            PyObject *container = open->container;
            writer->opened--;
            if (open->item == NULL) drop_pairs(writer, open->first);
            Py_DECREF(container);
            continue;
        }
        PyObject *next;
        if (open->item == NULL) {
            const struct pair *pair = &writer->pairs[open->at++];
            if (write_string(writer, 3, pair->key, pair->len) < 0) return -1;
            next = pair->value;
        } else {
            next = open->item(open->container, (Py_ssize_t)open->at++);
            if (next == NULL) return -1;
        }
        if (write_value(writer, next) < 0) return -1;
    }
    return 0;
}

/* Returns the bytes as an object if the library finds that they are one canonical block. */
static PyObject *checked(const struct writer *writer) {
    size_t offset = 0;
    uint32_t status;
    if (writer->len < LARGE) {
        status = kombilad_block_check_canonical(writer->bytes, writer->len, writer->levels,
                                                SIZE_MAX, &offset);
    } else {
        Py_BEGIN_ALLOW_THREADS
        status = kombilad_block_check_canonical(writer->bytes, writer->len, writer->levels,
                                                SIZE_MAX, &offset);
        Py_END_ALLOW_THREADS
    }
    if (status == KOMBILAD_OK)
        return PyBytes_FromStringAndSize((const char *)writer->bytes, (Py_ssize_t)writer->len);
    set_failed(writer->state, status, offset);
    return NULL;
}

PyObject *encode(PyObject *module, PyObject *arguments) {
    PyObject *object, *cids, *levels;
    struct writer writer = {.state = state_of(module)};
    enum cid_kind kind;
    if (!PyArg_UnpackTuple(arguments, "encode", 3, 3, &object, &cids, &levels)) return NULL;
    if (cid_kind_of(writer.state, cids, &kind) < 0 || limit_of(levels, &writer.levels) < 0)
        return NULL;
    writer.link_bytes = kind == CID_BYTES;
    PyObject *block = write_all(&writer, object) < 0 ? NULL : checked(&writer);
    drop_pairs(&writer, 0);
    while (writer.opened > 0) Py_DECREF(writer.open[--writer.opened].container);
    PyMem_Free(writer.bytes);
    PyMem_Free(writer.open);
    PyMem_Free(writer.pairs);
    return block;
}

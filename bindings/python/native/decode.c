/* Makes Python objects of the values of a block, from its tape, by a loop with its own stack. */
#include <string.h>

#include "native.h"

/* The tape of a block of at most this many bytes has room for an entry of 16 bytes for each byte.
 * The tape of a longer block has room for an entry for every four bytes, but at least for this
 * many. If that is too short, it is allocated again with the length that it needs. */
#define WHOLE_TAPE ((size_t)2048)
/* A tape of this many entries, and this many open lists and maps, are on the C stack. */
#define SHORT_TAPE 128
#define FEW_LEVELS 24

/* A list or a map that is being filled. */
struct open {
    PyObject *container; /* owned */
    PyObject *key;       /* the key of the next value, owned; NULL in a list */
    size_t filled, count;
};

struct levels {
    struct open *open;
    size_t len, capacity;
    struct open few[FEW_LEVELS];
};

static struct open *opened(struct levels *levels) {
    if (levels->len == levels->capacity) {
        size_t capacity = levels->capacity * 2;
        struct open *more = levels->open == levels->few
                                ? PyMem_Malloc(capacity * sizeof *more)
                                : PyMem_Realloc(levels->open, capacity * sizeof *more);
        if (more == NULL) {
            PyErr_NoMemory();
            return NULL;
        }
        if (levels->open == levels->few) memcpy(more, levels->few, sizeof levels->few);
        levels->open = more;
        levels->capacity = capacity;
    }
    return &levels->open[levels->len++];
}

static void close_all(struct levels *levels) {
    while (levels->len > 0) {
        struct open *open = &levels->open[--levels->len];
        Py_XDECREF(open->key);
        Py_DECREF(open->container);
    }
    if (levels->open != levels->few) PyMem_Free(levels->open);
}

static PyObject *integer(uint64_t number, bool negative) {
    if (number <= LONG_MAX) return PyLong_FromLong(negative ? -1 - (long)number : (long)number);
    if (!negative) return PyLong_FromUnsignedLongLong(number);
    PyObject *large = PyLong_FromUnsignedLongLong(number);
    PyObject *inverted = large == NULL ? NULL : PyNumber_Invert(large);
    Py_XDECREF(large);
    return inverted;
}

static PyObject *number_of(const uint8_t *bytes) {
    uint64_t bits = 0;
    for (int at = 0; at < 8; at++) bits = bits << 8 | bytes[at];
    double number;
    memcpy(&number, &bits, 8);
    return PyFloat_FromDouble(number);
}

static PyObject *constant(PyObject *object) {
    Py_INCREF(object);
    return object;
}

/* Returns the object of an entry that isn't a key. That of a list or a map has no values yet. */
static PyObject *object_of(const struct state *state, const uint8_t *block,
                           const kombilad_entry *entry, enum cid_kind kind) {
    switch (entry->kind) {
    case KOMBILAD_KIND_NULL: return constant(Py_None);
    case KOMBILAD_KIND_FALSE: return constant(Py_False);
    case KOMBILAD_KIND_TRUE: return constant(Py_True);
    case KOMBILAD_KIND_UNSIGNED: return integer(entry->value, false);
    case KOMBILAD_KIND_NEGATIVE: return integer(entry->value, true);
    case KOMBILAD_KIND_FLOAT: return number_of(block + entry->value);
    case KOMBILAD_KIND_STRING:
        return PyUnicode_FromStringAndSize((const char *)block + entry->value,
                                           (Py_ssize_t)entry->len);
    case KOMBILAD_KIND_BYTES:
        return PyBytes_FromStringAndSize((const char *)block + entry->value,
                                         (Py_ssize_t)entry->len);
    case KOMBILAD_KIND_LINK: return cid_object(state, kind, block + entry->value, entry->len);
    case KOMBILAD_KIND_LIST: return PyList_New((Py_ssize_t)entry->value);
    case KOMBILAD_KIND_MAP: return PyDict_New();
    default:
        PyErr_Format(PyExc_SystemError, "kombilad: an entry of the kind %u", (unsigned)entry->kind);
        return NULL;
    }
}

/* Puts an object into the list or the map that was opened last. It takes the reference to it. */
static int put(struct open *into, PyObject *object) {
    if (into->key == NULL)
        return PyList_SetItem(into->container, (Py_ssize_t)into->filled++, object);
    int failed = PyDict_SetItem(into->container, into->key, object);
    Py_DECREF(object);
    Py_DECREF(into->key);
    into->key = NULL;
    into->filled++;
    return failed;
}

static PyObject *value_of(struct state *state, const uint8_t *block, const kombilad_entry *entries,
                          size_t len, enum cid_kind kind) {
    struct levels levels = {.len = 0, .capacity = FEW_LEVELS};
    levels.open = levels.few;
    PyObject *root = NULL;
    for (const kombilad_entry *entry = entries; entry < entries + len; entry++) {
        if (entry->kind == KOMBILAD_KIND_KEY) {
            PyObject *key = key_text(state, block + entry->value, entry->len);
            if (key == NULL) goto failed;
            levels.open[levels.len - 1].key = key;
            continue;
        }
        PyObject *object = object_of(state, block, entry, kind);
        if (object == NULL) goto failed;
        bool opens = (entry->kind == KOMBILAD_KIND_LIST || entry->kind == KOMBILAD_KIND_MAP) &&
                     entry->value > 0;
        if (opens) Py_INCREF(object);
        if (levels.len == 0) {
            root = object;
        } else if (put(&levels.open[levels.len - 1], object) < 0) {
            if (opens) Py_DECREF(object);
            goto failed;
        }
        if (opens) {
            struct open *open = opened(&levels);
            if (open == NULL) {
                Py_DECREF(object);
                goto failed;
            }
            *open = (struct open){object, NULL, 0, (size_t)entry->value};
            continue;
        }
        while (levels.len > 0 &&
               levels.open[levels.len - 1].filled == levels.open[levels.len - 1].count) {
            Py_DECREF(levels.open[--levels.len].container);
        }
    }
    close_all(&levels);
    return root;
failed:
    close_all(&levels);
    Py_XDECREF(root);
    return NULL;
}

static uint32_t read_tape(const struct lent *block, size_t levels, size_t values,
                          kombilad_entry *entries, size_t capacity, size_t *needed,
                          size_t *offset) {
    if (!block->immutable || block->len < LARGE)
        return kombilad_tape(block->bytes, block->len, levels, values, entries, capacity, needed,
                             offset);
    uint32_t status;
    Py_BEGIN_ALLOW_THREADS
    status = kombilad_tape(block->bytes, block->len, levels, values, entries, capacity, needed,
                           offset);
    Py_END_ALLOW_THREADS
    return status;
}

PyObject *decode_block(struct state *state, const struct lent *block, enum cid_kind kind,
                       size_t levels, size_t values, size_t base) {
    kombilad_entry few[SHORT_TAPE], *entries = few;
    size_t capacity = SHORT_TAPE, needed = 0, offset = 0;
    if (block->len > SHORT_TAPE) {
        capacity = block->len <= WHOLE_TAPE      ? block->len
                   : block->len / 4 > WHOLE_TAPE ? block->len / 4
                                                 : WHOLE_TAPE;
        entries = PyMem_Malloc(capacity * sizeof *entries);
        if (entries == NULL) return PyErr_NoMemory();
    }
    PyObject *value = NULL;
    uint32_t status = read_tape(block, levels, values, entries, capacity, &needed, &offset);
    if (status == KOMBILAD_TOO_SHORT) {
        if (entries != few) PyMem_Free(entries);
        capacity = needed;
        entries = PyMem_Malloc(capacity * sizeof *entries);
        if (entries == NULL) return PyErr_NoMemory();
        status = read_tape(block, levels, values, entries, capacity, &needed, &offset);
    }
    if (status == KOMBILAD_OK)
        value = value_of(state, block->bytes, entries, needed, kind);
    else
        set_failed(state, status, base + offset);
    if (entries != few) PyMem_Free(entries);
    return value;
}

/* The arguments of the calls: bytes, a class for CIDs, and two limits. */
struct asked {
    struct lent block;
    enum cid_kind kind;
    size_t levels, values;
};

static int ask_of(const struct state *state, PyObject *block, PyObject *cids, PyObject *levels,
                  PyObject *values, struct asked *asked) {
    if (cid_kind_of(state, cids, &asked->kind) < 0 || limit_of(levels, &asked->levels) < 0 ||
        limit_of(values, &asked->values) < 0)
        return -1;
    return lend(block, &asked->block);
}

static int ask(const struct state *state, PyObject *arguments, struct asked *asked) {
    PyObject *block, *cids, *levels, *values;
    if (!PyArg_UnpackTuple(arguments, "decode", 4, 4, &block, &cids, &levels, &values)) return -1;
    return ask_of(state, block, cids, levels, values, asked);
}

PyObject *decode(PyObject *module, PyObject *arguments) {
    struct state *state = state_of(module);
    struct asked asked;
    if (ask(state, arguments, &asked) < 0) return NULL;
    PyObject *value = decode_block(state, &asked.block, asked.kind, asked.levels, asked.values, 0);
    take_back(&asked.block);
    return value;
}

/* get(block, cids, levels, values, path): returns (the value at a path of these bytes, the byte of the
 * path at which its rest begins). */
PyObject *get(PyObject *module, PyObject *arguments) {
    struct state *state = state_of(module);
    PyObject *block, *cids, *levels, *values;
    const char *path;
    Py_ssize_t path_len;
    struct asked asked;
    if (!PyArg_ParseTuple(arguments, "OOOOy#", &block, &cids, &levels, &values, &path, &path_len) ||
        ask_of(state, block, cids, levels, values, &asked) < 0)
        return NULL;
    kombilad_span span;
    size_t rest = 0, place = 0;
    PyThreadState *saved = unlock(&asked.block);
    uint32_t status = kombilad_block_at(asked.block.bytes, asked.block.len, asked.levels,
                                        asked.values, (const uint8_t *)path, (size_t)path_len,
                                        &span, &rest, &place);
    lock(saved);
    PyObject *value = NULL;
    if (status == KOMBILAD_OK) {
        struct lent part = asked.block;
        part.bytes += span.offset;
        part.len = span.len;
        value = decode_block(state, &part, asked.kind, asked.levels, asked.values, span.offset);
    } else {
        set_failed(state, status, place);
    }
    take_back(&asked.block);
    return value == NULL ? NULL : Py_BuildValue("Nn", value, (Py_ssize_t)rest);
}

/* Returns whether the bytes begin with a block, and then writes its length to `end`. */
static bool ends(const uint8_t *bytes, size_t len, size_t levels, size_t values, size_t *end) {
    uint32_t status = kombilad_block_check(bytes, len, levels, values, end);
    if (status == KOMBILAD_OK) *end = len;
    return status == KOMBILAD_OK || status == KOMBILAD_BLOCK_TRAILING_BYTES;
}

/* Returns the length of the block with which the bytes begin, or the length of the bytes if they
 * don't begin with one. It releases the lock only for a long block. */
static size_t first_length(const struct lent *blocks, size_t levels, size_t values) {
    size_t end = 0;
    if (ends(blocks->bytes, blocks->len < LARGE ? blocks->len : LARGE, levels, values, &end))
        return end;
    bool found = false;
    if (blocks->len <= LARGE) return blocks->len;
    if (!blocks->immutable)
        return ends(blocks->bytes, blocks->len, levels, values, &end) ? end : blocks->len;
    Py_BEGIN_ALLOW_THREADS
    found = ends(blocks->bytes, blocks->len, levels, values, &end);
    Py_END_ALLOW_THREADS
    return found ? end : blocks->len;
}

PyObject *decode_multi(PyObject *module, PyObject *arguments) {
    struct state *state = state_of(module);
    struct asked asked;
    if (ask(state, arguments, &asked) < 0) return NULL;
    PyObject *values = PyList_New(0);
    struct lent left = asked.block;
    size_t base = 0;
    while (values != NULL && left.len > 0) {
        struct lent first = left;
        first.len = first_length(&left, asked.levels, asked.values);
        PyObject *value = decode_block(state, &first, asked.kind, asked.levels, asked.values, base);
        if (value == NULL || PyList_Append(values, value) < 0) Py_CLEAR(values);
        Py_XDECREF(value);
        left.bytes += first.len;
        left.len -= first.len;
        base += first.len;
    }
    take_back(&asked.block);
    return values;
}

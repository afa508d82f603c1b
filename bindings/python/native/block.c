/* Calls on blocks of DAG-CBOR, except decoding: checks, links, the canonical form and DAG-JSON. */
#include "native.h"

/* A block, and its limits. */
struct asked {
    struct lent block;
    size_t levels, values;
};

/* Reads the arguments (block, levels, values). */
static int read_asked(PyObject *arguments, const char *name, struct asked *asked) {
    PyObject *given, *levels, *values;
    if (!PyArg_UnpackTuple(arguments, name, 3, 3, &given, &levels, &values)) return -1;
    if (limit_of(levels, &asked->levels) < 0 || limit_of(values, &asked->values) < 0) return -1;
    return lend(given, &asked->block);
}

/* ---- Checks */

typedef uint32_t check_call(const uint8_t *block, size_t len, size_t levels, size_t values,
                            size_t *offset);

/* Returns the status of a check, or -1 with an exception if the arguments are invalid. */
static int64_t checked(PyObject *arguments, const char *name, check_call *call, size_t *offset) {
    struct asked asked;
    if (read_asked(arguments, name, &asked) < 0) return -1;
    PyThreadState *saved = unlock(&asked.block);
    uint32_t status = call(asked.block.bytes, asked.block.len, asked.levels, asked.values, offset);
    lock(saved);
    take_back(&asked.block);
    return status;
}

PyObject *block_check(PyObject *module, PyObject *arguments) {
    size_t offset = 0;
    int64_t status = checked(arguments, "check", kombilad_block_check, &offset);
    if (status == KOMBILAD_OK) Py_RETURN_NONE;
    if (status > 0) set_failed(state_of(module), (uint32_t)status, offset);
    return NULL;
}

PyObject *block_is_canonical(PyObject *module, PyObject *arguments) {
    size_t offset = 0;
    int64_t status = checked(arguments, "is_canonical", kombilad_block_check_canonical, &offset);
    if (status == KOMBILAD_OK) Py_RETURN_TRUE;
    if (status == KOMBILAD_NOT_CANONICAL) Py_RETURN_FALSE;
    if (status > 0) set_failed(state_of(module), (uint32_t)status, offset);
    return NULL;
}

PyObject *block_count_links(PyObject *module, PyObject *arguments) {
    struct asked asked;
    if (read_asked(arguments, "count_links", &asked) < 0) return NULL;
    size_t count = 0, offset = 0;
    PyThreadState *saved = unlock(&asked.block);
    uint32_t status = kombilad_links_count(asked.block.bytes, asked.block.len, asked.levels,
                                           asked.values, &count, &offset);
    lock(saved);
    take_back(&asked.block);
    if (status == KOMBILAD_OK) return PyLong_FromSize_t(count);
    set_failed(state_of(module), status, offset);
    return NULL;
}

/* ---- Calls that fill a buffer */

/* Fills `room`, which has space for `capacity` records. Writes the number that it needs to
 * `needed`. */
typedef uint32_t fill_call(const struct asked *asked, void *room, size_t capacity, size_t *needed,
                           size_t *offset);

static uint32_t fill_links(const struct asked *asked, void *room, size_t capacity, size_t *needed,
                           size_t *offset) {
    return kombilad_links(asked->block.bytes, asked->block.len, asked->levels, asked->values, room,
                          capacity, needed, offset);
}

static uint32_t fill_positions(const struct asked *asked, void *room, size_t capacity,
                               size_t *needed, size_t *offset) {
    return kombilad_link_positions(asked->block.bytes, asked->block.len, asked->levels,
                                   asked->values, room, capacity, needed, offset);
}

static uint32_t fill_canonical(const struct asked *asked, void *room, size_t capacity,
                               size_t *needed, size_t *offset) {
    return kombilad_block_canonicalize(asked->block.bytes, asked->block.len, asked->levels,
                                       asked->values, room, capacity, needed, offset);
}

static uint32_t fill_json(const struct asked *asked, void *room, size_t capacity, size_t *needed,
                          size_t *offset) {
    return kombilad_block_to_json(asked->block.bytes, asked->block.len, asked->levels,
                                  asked->values, room, capacity, needed, offset);
}

static uint32_t fill_of_json(const struct asked *asked, void *room, size_t capacity, size_t *needed,
                             size_t *offset) {
    return kombilad_block_of_json(asked->block.bytes, asked->block.len, asked->levels,
                                  asked->values, room, capacity, needed, offset);
}

/* The records that a call wrote. */
struct filled {
    void *room; /* from PyMem_Malloc */
    size_t count;
};

/* Allocates `capacity` records of a size, or as many as there are if that is too few, and fills
 * them. If it fails, the caller doesn't free anything. */
static int fill(const struct state *state, const struct asked *asked, fill_call *call, size_t size,
                size_t capacity, struct filled *filled) {
    size_t offset = 0;
    uint32_t status;
    filled->room = NULL;
    do {
        PyMem_Free(filled->room);
        filled->room = PyMem_Malloc(capacity * size);
        if (filled->room == NULL) {
            PyErr_NoMemory();
            return -1;
        }
        PyThreadState *saved = unlock(&asked->block);
        status = call(asked, filled->room, capacity, &filled->count, &offset);
        lock(saved);
        if (status == KOMBILAD_TOO_SHORT) capacity = filled->count;
    } while (status == KOMBILAD_TOO_SHORT);
    if (status == KOMBILAD_OK) return 0;
    PyMem_Free(filled->room);
    set_failed(state, status, offset);
    return -1;
}

/* The number of bytes of a link with a SHA2-256 digest in a block. */
#define USUAL_LINK 41
#define MOST_AT_FIRST 4096

/* Returns the number of links for which the first allocation has room. */
static size_t usual_count(const struct asked *asked) {
    size_t count = asked->block.len / USUAL_LINK + 1;
    return count < MOST_AT_FIRST ? count : MOST_AT_FIRST;
}

/* Returns a list with an object for each record. */
static PyObject *list_of(const struct state *state, const struct filled *filled,
                         PyObject *object_at(const struct state *state, const void *room,
                                             size_t at)) {
    PyObject *list = PyList_New((Py_ssize_t)filled->count);
    for (size_t at = 0; list != NULL && at < filled->count; at++) {
        PyObject *object = object_at(state, filled->room, at);
        if (object == NULL || PyList_SetItem(list, (Py_ssize_t)at, object) < 0) Py_CLEAR(list);
    }
    return list;
}

static PyObject *link_at(const struct state *state, const void *room, size_t at) {
    const kombilad_cid *cid = (const kombilad_cid *)room + at;
    return cid_object(state, CID_OBJECT, cid->bytes, cid->len);
}

static PyObject *position_at(const struct state *state, const void *room, size_t at) {
    (void)state;
    const kombilad_span *span = (const kombilad_span *)room + at;
    return Py_BuildValue("(nn)", (Py_ssize_t)span->offset, (Py_ssize_t)span->len);
}

PyObject *block_links(PyObject *module, PyObject *arguments) {
    const struct state *state = state_of(module);
    struct asked asked;
    struct filled filled;
    if (read_asked(arguments, "links", &asked) < 0) return NULL;
    int failed = fill(state, &asked, fill_links, sizeof(kombilad_cid), usual_count(&asked),
                      &filled);
    take_back(&asked.block);
    if (failed < 0) return NULL;
    PyObject *list = list_of(state, &filled, link_at);
    PyMem_Free(filled.room);
    return list;
}

PyObject *block_link_positions(PyObject *module, PyObject *arguments) {
    const struct state *state = state_of(module);
    struct asked asked;
    struct filled filled;
    if (read_asked(arguments, "link_positions", &asked) < 0) return NULL;
    int failed = fill(state, &asked, fill_positions, sizeof(kombilad_span), usual_count(&asked),
                      &filled);
    take_back(&asked.block);
    if (failed < 0) return NULL;
    PyObject *list = list_of(state, &filled, position_at);
    PyMem_Free(filled.room);
    return list;
}

PyObject *block_canonicalize(PyObject *module, PyObject *arguments) {
    struct asked asked;
    struct filled filled;
    if (read_asked(arguments, "canonicalize", &asked) < 0) return NULL;
    /* Sorting its keys doesn't change the length of a block. */
    size_t capacity = asked.block.len > 0 ? asked.block.len : 1;
    int failed = fill(state_of(module), &asked, fill_canonical, 1, capacity, &filled);
    take_back(&asked.block);
    if (failed < 0) return NULL;
    PyObject *block = PyBytes_FromStringAndSize(filled.room, (Py_ssize_t)filled.count);
    PyMem_Free(filled.room);
    return block;
}

/* Most texts in DAG-JSON have at most twice as many bytes as the block, and this many more. */
#define SPARE 64

PyObject *block_to_json(PyObject *module, PyObject *arguments) {
    struct asked asked;
    struct filled filled;
    if (read_asked(arguments, "to_json", &asked) < 0) return NULL;
    size_t capacity = 2 * asked.block.len + SPARE;
    int failed = fill(state_of(module), &asked, fill_json, 1, capacity, &filled);
    take_back(&asked.block);
    if (failed < 0) return NULL;
    PyObject *text = PyUnicode_FromStringAndSize(filled.room, (Py_ssize_t)filled.count);
    PyMem_Free(filled.room);
    return text;
}

PyObject *block_from_json(PyObject *module, PyObject *arguments) {
    struct asked asked;
    struct filled filled;
    if (read_asked(arguments, "from_json", &asked) < 0) return NULL;
    /* Only a float, or a string with a long head, takes more bytes than its text. */
    size_t capacity = asked.block.len + SPARE;
    int failed = fill(state_of(module), &asked, fill_of_json, 1, capacity, &filled);
    take_back(&asked.block);
    if (failed < 0) return NULL;
    PyObject *block = PyBytes_FromStringAndSize(filled.room, (Py_ssize_t)filled.count);
    PyMem_Free(filled.room);
    return block;
}

/* CAR files: the header and one section, read and written, and a whole file in memory. */
#include "native.h"

#define DAG_CBOR 0x71
/* The number of roots for which there is room at first. */
#define FEW_ROOTS 8

/* Returns a list of the roots as bytes. */
static PyObject *roots_of(const kombilad_cid *records, size_t len) {
    PyObject *roots = PyList_New((Py_ssize_t)len);
    for (size_t at = 0; roots != NULL && at < len; at++) {
        PyObject *bytes = PyBytes_FromStringAndSize((const char *)records[at].bytes,
                                                    records[at].len);
        if (bytes == NULL || PyList_SetItem(roots, (Py_ssize_t)at, bytes) < 0) Py_CLEAR(roots);
    }
    return roots;
}

/* Reads the header of a CAR, up to the first section, and returns the status. Sets `records` to the
 * roots, which the caller frees if they are not `few`. */
static uint32_t opened(const struct lent *bytes, int is_all, size_t limit,
                       kombilad_car_place *place, kombilad_cid *few, kombilad_cid **records,
                       size_t *needed, uint64_t *more, uint64_t *offset) {
    *records = few;
    uint32_t status = kombilad_car_open_part(bytes->bytes, bytes->len, (uint32_t)is_all, limit,
                                             place, few, FEW_ROOTS, needed, more, offset);
    if (status != KOMBILAD_TOO_SHORT) return status;
    *records = PyMem_Malloc(*needed * sizeof **records);
    if (*records == NULL) return KOMBILAD_NO_MEMORY;
    return kombilad_car_open_part(bytes->bytes, bytes->len, (uint32_t)is_all, limit, place,
                                  *records, *needed, needed, more, offset);
}

/* open_part(window, is_all, limit): reads the header of a CAR that begins with the window. Returns
 * (version, beginning of the sections, their end, roots as bytes), or the number of bytes that are
 * needed in addition. */
PyObject *open_part(PyObject *module, PyObject *arguments) {
    PyObject *given, *given_limit;
    struct lent window;
    int is_all;
    size_t limit, needed = 0;
    if (!PyArg_ParseTuple(arguments, "OpO", &given, &is_all, &given_limit)) return NULL;
    if (limit_of(given_limit, &limit) < 0 || lend(given, &window) < 0) return NULL;
    kombilad_cid few[FEW_ROOTS], *records;
    kombilad_car_place place;
    uint64_t more = 0, offset = 0;
    uint32_t status = opened(&window, is_all, limit, &place, few, &records, &needed, &more,
                             &offset);
    take_back(&window);
    PyObject *found = NULL;
    if (status == KOMBILAD_CAR_MORE) {
        found = PyLong_FromUnsignedLongLong(more);
    } else if (status == KOMBILAD_OK) {
        PyObject *roots = roots_of(records, needed);
        if (roots != NULL)
            found = Py_BuildValue("KKKN", (unsigned long long)place.version,
                                  (unsigned long long)place.at, (unsigned long long)place.end,
                                  roots);
    } else {
        set_failed(state_of(module), status, (size_t)offset);
    }
    if (records != few) PyMem_Free(records);
    return found;
}

/* next_part(window, begin, is_all, limit, version, at, end): reads the section at `begin` in the
 * window, which is at the byte `at` of the CAR. Returns the CID's bytes, and the beginning and the
 * end of the data in the window. Returns the number of bytes that are needed in addition, if the
 * window has too few. Returns None after the last section. */
PyObject *next_part(PyObject *module, PyObject *arguments) {
    PyObject *given, *given_limit;
    struct lent window;
    Py_ssize_t begin;
    int is_all;
    size_t limit;
    unsigned long long version, at, end;
    if (!PyArg_ParseTuple(arguments, "OnpOKKK", &given, &begin, &is_all, &given_limit, &version,
                          &at, &end))
        return NULL;
    if (limit_of(given_limit, &limit) < 0 || lend(given, &window) < 0) return NULL;
    if (begin < 0 || (size_t)begin > window.len) begin = (Py_ssize_t)window.len;
    const uint8_t *bytes = window.bytes + begin;
    kombilad_car_place place = {version, at, end};
    kombilad_span cid, data;
    uint64_t more = 0, offset = 0;
    uint32_t status = kombilad_car_next_part(bytes, window.len - (size_t)begin, (uint32_t)is_all,
                                             limit, &place, &cid, &data, &more, &offset);
    PyObject *found = NULL;
    if (status == KOMBILAD_CAR_DONE) {
        found = Py_None;
        Py_INCREF(found);
    } else if (status == KOMBILAD_CAR_MORE) {
        found = PyLong_FromUnsignedLongLong(more);
    } else if (status == KOMBILAD_OK) {
        found = Py_BuildValue("y#nn", (const char *)bytes + cid.offset, (Py_ssize_t)cid.len,
                              begin + (Py_ssize_t)data.offset,
                              begin + (Py_ssize_t)(data.offset + data.len));
    } else {
        set_failed(state_of(module), status, (size_t)offset);
    }
    take_back(&window);
    return found;
}

/* Compares the digest of a block with that of a CID. It releases the lock if the block is large and
 * nobody can change the bytes. */
static uint32_t compared(const uint8_t *cid, size_t cid_len, const uint8_t *block, size_t len,
                         bool immutable) {
    if (!immutable || len < LARGE) return kombilad_verify(cid, cid_len, block, len);
    uint32_t status;
    Py_BEGIN_ALLOW_THREADS
    status = kombilad_verify(cid, cid_len, block, len);
    Py_END_ALLOW_THREADS
    return status;
}

/* verify(cid bytes, block): returns None if the block has the CID's digest, and fails otherwise. */
PyObject *verify(PyObject *module, PyObject *arguments) {
    PyObject *cid, *given;
    struct lent block;
    if (!PyArg_UnpackTuple(arguments, "verify", 2, 2, &cid, &given) || lend(given, &block) < 0)
        return NULL;
    struct lent named;
    if (lend(cid, &named) < 0) {
        take_back(&block);
        return NULL;
    }
    uint32_t status = compared(named.bytes, named.len, block.bytes, block.len,
                               named.immutable && block.immutable);
    take_back(&named);
    take_back(&block);
    if (status == KOMBILAD_OK) Py_RETURN_NONE;
    set_failed(state_of(module), status, 0);
    return NULL;
}

/* The arguments of decode_car. */
struct wanted {
    struct lent car;
    enum cid_kind kind;
    size_t levels, values;
    int verified;
};

/* Returns the value of a section's block. It decodes DAG-CBOR. For another codec the value is the
 * bytes. */
static PyObject *value_of_section(struct state *state, const struct wanted *wanted,
                                  kombilad_span cid, kombilad_span data) {
    const uint8_t *bytes = wanted->car.bytes;
    kombilad_cid_parts parts;
    uint32_t status = kombilad_cid_parts_of(bytes + cid.offset, cid.len, &parts);
    if (status == KOMBILAD_OK && wanted->verified)
        status = compared(bytes + cid.offset, cid.len, bytes + data.offset, data.len,
                          wanted->car.immutable);
    if (status != KOMBILAD_OK) {
        set_failed(state, status, data.offset);
        return NULL;
    }
    if (parts.codec != DAG_CBOR)
        return PyBytes_FromStringAndSize((const char *)bytes + data.offset, (Py_ssize_t)data.len);
    struct lent block = wanted->car;
    block.bytes = bytes + data.offset;
    block.len = data.len;
    return decode_block(state, &block, wanted->kind, wanted->levels, wanted->values, data.offset);
}

/* Puts the value of each section's block into a dict. */
static int all_sections(struct state *state, const struct wanted *wanted, kombilad_car_place place,
                        PyObject *blocks) {
    for (;;) {
        kombilad_span cid, data;
        uint64_t more, offset = 0;
        /* The place is at most the number of bytes, so it is a size_t. */
        size_t at = (size_t)place.at;
        uint32_t status = kombilad_car_next_part(wanted->car.bytes + at, wanted->car.len - at, 1,
                                                 SIZE_MAX, &place, &cid, &data, &more, &offset);
        if (status == KOMBILAD_CAR_DONE) return 0;
        if (status != KOMBILAD_OK) {
            set_failed(state, status, (size_t)offset);
            return -1;
        }
        cid.offset += at;
        data.offset += at;
        PyObject *value = value_of_section(state, wanted, cid, data);
        PyObject *key = value == NULL ? NULL
                                      : cid_object(state, wanted->kind,
                                                   wanted->car.bytes + cid.offset, cid.len);
        int failed = key == NULL ? -1 : PyDict_SetItem(blocks, key, value);
        Py_XDECREF(key);
        Py_XDECREF(value);
        if (failed < 0) return -1;
    }
}

/* decode_car(car, cids, levels, values, verified, limit): returns (version, roots as bytes, values
 * of blocks by CID). */
PyObject *decode_car(PyObject *module, PyObject *arguments) {
    struct state *state = state_of(module);
    PyObject *given, *cids, *levels, *values, *verified, *given_limit;
    struct wanted wanted;
    size_t limit;
    if (!PyArg_UnpackTuple(arguments, "decode_car", 6, 6, &given, &cids, &levels, &values,
                           &verified, &given_limit))
        return NULL;
    if (cid_kind_of(state, cids, &wanted.kind) < 0 || limit_of(levels, &wanted.levels) < 0 ||
        limit_of(values, &wanted.values) < 0)
        return NULL;
    wanted.verified = PyObject_IsTrue(verified);
    if (wanted.verified < 0 || limit_of(given_limit, &limit) < 0 || lend(given, &wanted.car) < 0)
        return NULL;
    kombilad_cid few[FEW_ROOTS], *records;
    kombilad_car_place place;
    size_t needed = 0;
    uint64_t more = 0, offset = 0;
    uint32_t status = opened(&wanted.car, 1, limit, &place, few, &records, &needed, &more, &offset);
    PyObject *roots = NULL;
    if (status == KOMBILAD_OK)
        roots = roots_of(records, needed);
    else
        set_failed(state, status, (size_t)offset);
    if (records != few) PyMem_Free(records);
    PyObject *blocks = roots == NULL ? NULL : PyDict_New();
    if (blocks != NULL && all_sections(state, &wanted, place, blocks) < 0) Py_CLEAR(blocks);
    take_back(&wanted.car);
    if (blocks != NULL)
        return Py_BuildValue("KNN", (unsigned long long)place.version, roots, blocks);
    Py_XDECREF(roots);
    return NULL;
}

/* ---- Writing */

/* Returns the header with these roots. */
static PyObject *header_of(const struct state *state, const kombilad_cid *roots, size_t count) {
    size_t len = 0, place = 0;
    PyObject *header = NULL;
    uint32_t status = kombilad_car_header(roots, count, NULL, 0, &len, &place);
    if (status == KOMBILAD_TOO_SHORT) {
        header = PyBytes_FromStringAndSize(NULL, (Py_ssize_t)len);
        if (header == NULL) return NULL;
        status = kombilad_car_header(roots, count, (uint8_t *)PyBytes_AsString(header), len, &len,
                                     &place);
    }
    if (status == KOMBILAD_OK) return header;
    Py_XDECREF(header);
    set_failed(state, status, 0);
    return NULL;
}

/* car_header(roots): returns the header of a CAR with these roots, a list of their bytes. */
PyObject *car_header(PyObject *module, PyObject *given) {
    Py_ssize_t count = PyList_Size(given);
    if (count < 0) return NULL;
    kombilad_cid *roots = PyMem_New(kombilad_cid, (size_t)count);
    if (roots == NULL) return PyErr_NoMemory();
    PyObject *header = NULL;
    Py_ssize_t at = 0;
    for (; at < count; at++) {
        char *bytes;
        Py_ssize_t len;
        if (PyBytes_AsStringAndSize(PyList_GetItem(given, at), &bytes, &len) < 0 ||
            cid_record(bytes, len, roots + at) < 0)
            break;
    }
    if (at == count) header = header_of(state_of(module), roots, (size_t)count);
    PyMem_Free(roots);
    return header;
}

/* car_section(cid, block_len): returns what a section has before a block of so many bytes. */
PyObject *car_section(PyObject *module, PyObject *arguments) {
    const char *cid;
    Py_ssize_t cid_len;
    unsigned long long len;
    if (!PyArg_ParseTuple(arguments, "y#K", &cid, &cid_len, &len)) return NULL;
    uint8_t front[KOMBILAD_CAR_SECTION];
    size_t needed = 0;
    uint32_t status = kombilad_car_section((const uint8_t *)cid, (size_t)cid_len, len, front,
                                           sizeof front, &needed);
    if (status == KOMBILAD_OK)
        return PyBytes_FromStringAndSize((const char *)front, (Py_ssize_t)needed);
    set_failed(state_of(module), status, 0);
    return NULL;
}

/* Reads a list of pairs, of a CID's bytes and an offset. */
static int rows_of(PyObject *given, kombilad_car_row *rows, Py_ssize_t count) {
    for (Py_ssize_t at = 0; at < count; at++) {
        const char *bytes;
        Py_ssize_t len;
        unsigned long long offset;
        if (!PyArg_ParseTuple(PyList_GetItem(given, at), "y#K", &bytes, &len, &offset) ||
            cid_record(bytes, len, &rows[at].cid) < 0)
            return -1;
        rows[at].offset = offset;
    }
    return 0;
}

/* Returns the header and the index of version 2, in one piece. */
static PyObject *around_of(const struct state *state, const kombilad_car_row *rows, size_t count,
                           uint64_t payload_len) {
    size_t len = 0, place = 0;
    PyObject *around = NULL;
    uint32_t status = kombilad_car_index(rows, count, payload_len, NULL, 0, &len, &place);
    if (status == KOMBILAD_TOO_SHORT) {
        around = PyBytes_FromStringAndSize(NULL, (Py_ssize_t)len);
        if (around == NULL) return NULL;
        status = kombilad_car_index(rows, count, payload_len, (uint8_t *)PyBytes_AsString(around),
                                    len, &len, &place);
    }
    if (status == KOMBILAD_OK) return around;
    Py_XDECREF(around);
    set_failed(state, status, 0);
    return NULL;
}

/* car_index(rows, payload_len): returns the first bytes of a CAR of version 2, and its index. */
PyObject *car_index(PyObject *module, PyObject *arguments) {
    PyObject *given, *around = NULL;
    unsigned long long len;
    if (!PyArg_ParseTuple(arguments, "OK", &given, &len)) return NULL;
    Py_ssize_t count = PyList_Size(given);
    if (count < 0) return NULL;
    kombilad_car_row *rows = PyMem_New(kombilad_car_row, (size_t)count);
    if (rows == NULL) return PyErr_NoMemory();
    if (rows_of(given, rows, count) == 0)
        around = around_of(state_of(module), rows, (size_t)count, len);
    PyMem_Free(rows);
    return around;
}

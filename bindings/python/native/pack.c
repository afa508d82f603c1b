/* Files, folders and symbolic links of UnixFS, packed block by block. Python has what is packed as a
 * capsule, of one type for all three. */
#include "native.h"

#include <string.h>

#define NAME "kombilad.packing"

struct packing {
    kombilad_packing packing;
    bool busy; /* a call of the library may have released the interpreter's lock */
};

static void free_packing(PyObject *capsule) {
    struct packing *packing = PyCapsule_GetPointer(capsule, NAME);
    kombilad_pack_free(&packing->packing);
    PyMem_Free(packing);
}

/* Returns what a capsule has, unless another thread is in a call with it. */
static struct packing *packing_of(PyObject *capsule) {
    struct packing *packing = PyCapsule_GetPointer(capsule, NAME);
    if (packing == NULL || !packing->busy) return packing;
    PyErr_SetString(PyExc_RuntimeError, "another thread uses what is packed");
    return NULL;
}

/* Returns the capsule of what is packed, if the status is OK. With another status it sets its
 * exception, which has the number of the entry at fault. */
static PyObject *capsule_of(PyObject *module, uint32_t status, kombilad_packing packed,
                            size_t place) {
    if (status != KOMBILAD_OK) {
        set_text_failed(state_of(module), status, (Py_ssize_t)place);
        return NULL;
    }
    PyObject *capsule = NULL;
    struct packing *packing = PyMem_Malloc(sizeof *packing);
    if (packing == NULL) {
        PyErr_NoMemory();
    } else {
        *packing = (struct packing){packed, false};
        capsule = PyCapsule_New(packing, NAME, free_packing);
    }
    if (capsule == NULL) {
        kombilad_pack_free(&packed);
        PyMem_Free(packing);
    }
    return capsule;
}

/* Writes the attributes: the mode or None, and a tuple of seconds and nanoseconds or None. */
static int attributes_of(PyObject *mode, PyObject *time, kombilad_node *attributes) {
    *attributes = (kombilad_node){0};
    if (mode != Py_None) {
        attributes->fields |= KOMBILAD_NODE_MODE;
        attributes->mode = (uint32_t)PyLong_AsUnsignedLong(mode);
        if (PyErr_Occurred()) return -1;
    }
    if (time == Py_None) return 0;
    long long seconds;
    unsigned nanoseconds;
    if (!PyArg_ParseTuple(time, "LI", &seconds, &nanoseconds)) return -1;
    attributes->fields |= KOMBILAD_NODE_TIME;
    attributes->seconds = seconds;
    attributes->nanoseconds = nanoseconds;
    return 0;
}

/* ---- Files */

/* pack_file(version, raw_leaves, links): begins a file. */
PyObject *pack_file(PyObject *module, PyObject *arguments) {
    unsigned version;
    int raw_leaves;
    PyObject *given;
    size_t links;
    if (!PyArg_ParseTuple(arguments, "IpO", &version, &raw_leaves, &given) ||
        limit_of(given, &links) < 0)
        return NULL;
    kombilad_packing packing = {0, 0};
    uint32_t status = kombilad_pack_file(version, (uint32_t)raw_leaves, links, &packing);
    return capsule_of(module, status, packing, 0);
}

/* Adds a chunk to a file, the last one if there are attributes. */
static PyObject *add_chunk(PyObject *module, PyObject *capsule, PyObject *given,
                           const kombilad_node *attributes) {
    struct lent chunk;
    if (lend(given, &chunk) < 0) return NULL;
    struct packing *packing = packing_of(capsule);
    if (packing == NULL) {
        take_back(&chunk);
        return NULL;
    }
    packing->busy = true;
    PyThreadState *saved = unlock(&chunk);
    uint32_t status = attributes == NULL
                          ? kombilad_pack_chunk(&packing->packing, chunk.bytes, chunk.len)
                          : kombilad_pack_last_chunk(&packing->packing, chunk.bytes, chunk.len,
                                                     attributes);
    lock(saved);
    packing->busy = false;
    take_back(&chunk);
    if (status == KOMBILAD_OK) Py_RETURN_NONE;
    set_failed(state_of(module), status, 0);
    return NULL;
}

/* pack_chunk(packing, chunk): adds a chunk that isn't the last. */
PyObject *pack_chunk(PyObject *module, PyObject *arguments) {
    PyObject *capsule, *chunk;
    if (!PyArg_UnpackTuple(arguments, "pack_chunk", 2, 2, &capsule, &chunk)) return NULL;
    return add_chunk(module, capsule, chunk, NULL);
}

/* pack_last_chunk(packing, chunk, mode, time): adds the last chunk. */
PyObject *pack_last_chunk(PyObject *module, PyObject *arguments) {
    PyObject *capsule, *chunk, *mode, *time;
    kombilad_node attributes;
    if (!PyArg_UnpackTuple(arguments, "pack_last_chunk", 4, 4, &capsule, &chunk, &mode, &time) ||
        attributes_of(mode, time, &attributes) < 0)
        return NULL;
    return add_chunk(module, capsule, chunk, &attributes);
}

/* ---- Symbolic links and folders */

/* pack_symlink(version, mode, time, target): packs a symbolic link. */
PyObject *pack_symlink(PyObject *module, PyObject *arguments) {
    unsigned version;
    PyObject *mode, *time;
    const char *target;
    Py_ssize_t len;
    kombilad_node attributes;
    if (!PyArg_ParseTuple(arguments, "IOOy#", &version, &mode, &time, &target, &len) ||
        attributes_of(mode, time, &attributes) < 0)
        return NULL;
    kombilad_packing packing = {0, 0};
    uint32_t status = kombilad_pack_symlink(version, &attributes, (const uint8_t *)target,
                                            (size_t)len, &packing);
    return capsule_of(module, status, packing, 0);
}

/* Writes the record of an entry: (length of its name, bytes of its CID, total). The name begins at
 * this byte of the names. */
static int read_entry(PyObject *entry, size_t begin, kombilad_folder_entry *record) {
    Py_ssize_t len, cid_len;
    const char *cid;
    PyObject *total;
    if (!PyArg_ParseTuple(entry, "ny#O", &len, &cid, &cid_len, &total) ||
        cid_record(cid, cid_len, &record->cid) < 0)
        return -1;
    record->name = (kombilad_span){begin, (size_t)len};
    record->has_tsize = 1;
    record->tsize = PyLong_AsUnsignedLongLong(total);
    return PyErr_Occurred() ? -1 : 0;
}

/* Returns the records of the entries in a list, which the caller frees. */
static kombilad_folder_entry *read_entries(PyObject *list, size_t count) {
    kombilad_folder_entry *records = PyMem_New(kombilad_folder_entry, count);
    if (records == NULL) {
        PyErr_NoMemory();
        return NULL;
    }
    size_t end = 0;
    for (size_t at = 0; at < count; at++) {
        if (read_entry(PyList_GetItem(list, (Py_ssize_t)at), end, records + at) < 0) {
            PyMem_Free(records);
            return NULL;
        }
        end += records[at].name.len;
    }
    return records;
}

/* pack_folder(version, mode, time, sharded_above, names, entries): packs a folder. The names follow
 * one another, and each entry is a tuple of the length of its name, the bytes of its CID and its
 * total. */
PyObject *pack_folder(PyObject *module, PyObject *arguments) {
    unsigned version;
    unsigned long long sharded_above;
    PyObject *mode, *time, *given, *list;
    kombilad_node attributes;
    struct lent names;
    if (!PyArg_ParseTuple(arguments, "IOOKOO!", &version, &mode, &time, &sharded_above, &given,
                          &PyList_Type, &list) ||
        attributes_of(mode, time, &attributes) < 0)
        return NULL;
    size_t count = (size_t)PyList_Size(list), place = 0;
    kombilad_folder_entry *entries = read_entries(list, count);
    if (entries == NULL) return NULL;
    if (lend(given, &names) < 0) {
        PyMem_Free(entries);
        return NULL;
    }
    kombilad_packing packing = {0, 0};
    PyThreadState *saved = unlock(&names);
    uint32_t status = kombilad_pack_folder(version, &attributes, sharded_above, entries, count,
                                           names.bytes, names.len, &packing, &place);
    lock(saved);
    take_back(&names);
    PyMem_Free(entries);
    return capsule_of(module, status, packing, place);
}

/* ---- Blocks */

/* pack_take(packing): returns the next block that waits, as (CID, size, total, bytes), or None. */
PyObject *pack_take(PyObject *module, PyObject *capsule) {
    const struct state *state = state_of(module);
    struct packing *packing = packing_of(capsule);
    if (packing == NULL) return NULL;
    kombilad_packed_block row;
    size_t len = 0;
    uint32_t status = kombilad_pack_take(&packing->packing, &row, NULL, 0, &len);
    if (status == KOMBILAD_WALK_DONE) Py_RETURN_NONE;
    PyObject *block = NULL;
    if (status == KOMBILAD_OK || status == KOMBILAD_TOO_SHORT) {
        block = PyBytes_FromStringAndSize(NULL, (Py_ssize_t)len);
        if (block == NULL) return NULL;
    }
    if (status == KOMBILAD_TOO_SHORT)
        status = kombilad_pack_take(&packing->packing, &row, (uint8_t *)PyBytes_AsString(block),
                                    len, &len);
    if (status == KOMBILAD_OK)
        return Py_BuildValue("NKKN", cid_object(state, CID_OBJECT, row.cid.bytes, row.cid.len),
                             (unsigned long long)row.size, (unsigned long long)row.total, block);
    Py_XDECREF(block);
    set_failed(state, status, 0);
    return NULL;
}

/* pack_free(packing): frees what is packed, before the capsule is. */
PyObject *pack_free(PyObject *module, PyObject *capsule) {
    (void)module;
    struct packing *packing = packing_of(capsule);
    if (packing == NULL) return NULL;
    kombilad_pack_free(&packing->packing);
    Py_RETURN_NONE;
}

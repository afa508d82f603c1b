/* Nodes of UnixFS, and the search for an entry of a folder. */
#include "native.h"

/* ---- The search for an entry */

/* The maximum number of blocks of a search. */
#define MOST_BLOCKS 8

/* Writes the places of blocks that follow one another, of which a tuple has the ends. Returns how
 * many there are, or -1. */
static Py_ssize_t places_of(PyObject *ends, size_t len, kombilad_span *places) {
    Py_ssize_t count = PyTuple_Size(ends);
    size_t begin = 0;
    for (Py_ssize_t at = 0; at < count && at < MOST_BLOCKS; at++) {
        size_t end = PyLong_AsSize_t(PyTuple_GetItem(ends, at));
        if (PyErr_Occurred()) return -1;
        if (end < begin || end > len) {
            PyErr_SetString(PyExc_ValueError, "a block ends before it begins, or after the bytes");
            return -1;
        }
        places[at] = (kombilad_span){begin, end - begin};
        begin = end;
    }
    if (count <= MOST_BLOCKS) return count;
    PyErr_SetString(PyExc_ValueError, "a search has at most eight blocks");
    return -1;
}

/* folder_lookup(folder, name, bytes, ends): looks for the name in the folder of the CID with these
 * bytes. The blocks that the calls before asked for follow one another in `bytes`, and `ends` has
 * the end of each. Returns (whether it is found, the bytes of the CID of the entry or of the block
 * that is needed next), or None if the folder has no such entry. */
PyObject *folder_lookup(PyObject *module, PyObject *arguments) {
    const char *folder, *name;
    Py_ssize_t folder_len, name_len;
    PyObject *given, *ends;
    struct lent blocks;
    if (!PyArg_ParseTuple(arguments, "y#y#OO!", &folder, &folder_len, &name, &name_len, &given,
                          &PyTuple_Type, &ends) ||
        lend(given, &blocks) < 0)
        return NULL;
    kombilad_span places[MOST_BLOCKS];
    Py_ssize_t count = places_of(ends, blocks.len, places);
    if (count < 0) {
        take_back(&blocks);
        return NULL;
    }
    kombilad_cid cid;
    size_t place = 0;
    PyThreadState *saved = unlock(&blocks);
    uint32_t status = kombilad_folder_lookup((const uint8_t *)folder, (size_t)folder_len,
                                             (const uint8_t *)name, (size_t)name_len, blocks.bytes,
                                             blocks.len, places, (size_t)count, &cid, &place);
    lock(saved);
    take_back(&blocks);
    if (status == KOMBILAD_FOLDER_MISSING) Py_RETURN_NONE;
    if (status == KOMBILAD_OK || status == KOMBILAD_FOLDER_MORE)
        return Py_BuildValue("Oy#", status == KOMBILAD_OK ? Py_True : Py_False,
                             (const char *)cid.bytes, (Py_ssize_t)cid.len);
    set_failed(state_of(module), status, place);
    return NULL;
}

/* ---- Nodes */

/* Most targets of symbolic links are shorter than this. */
#define SHORT_TARGET 256

/* Returns (kind, size, mode, (seconds, nanoseconds), target), with None for what it doesn't have. */
static PyObject *node_object(const kombilad_node *node, const char *target, size_t len) {
    bool has_time = node->fields & KOMBILAD_NODE_TIME;
    PyObject *time = has_time ? Py_BuildValue("LI", (long long)node->seconds, node->nanoseconds)
                              : Py_BuildValue("");
    return Py_BuildValue("INNNy#", node->kind,
                         number_if(node->fields & KOMBILAD_NODE_SIZE, node->size),
                         number_if(node->fields & KOMBILAD_NODE_MODE, node->mode), time,
                         node->kind == KOMBILAD_NODE_SYMLINK ? target : NULL, (Py_ssize_t)len);
}

/* unixfs_node(cid, block): returns what the block of the CID with these bytes says of a file, a
 * folder or a symbolic link. */
PyObject *unixfs_node(PyObject *module, PyObject *arguments) {
    const char *cid;
    Py_ssize_t cid_len;
    PyObject *given;
    struct lent block;
    if (!PyArg_ParseTuple(arguments, "y#O", &cid, &cid_len, &given) || lend(given, &block) < 0)
        return NULL;
    kombilad_node node;
    uint8_t few[SHORT_TARGET], *target = few;
    size_t room = SHORT_TARGET, needed = 0, place = 0;
    uint32_t status;
    for (;;) {
        PyThreadState *saved = unlock(&block);
        status = kombilad_unixfs_node((const uint8_t *)cid, (size_t)cid_len, block.bytes, block.len,
                                      &node, target, room, &needed, &place);
        lock(saved);
        if (status != KOMBILAD_TOO_SHORT || target != few) break;
        room = needed;
        target = PyMem_Malloc(room);
        if (target == NULL) {
            status = KOMBILAD_NO_MEMORY;
            break;
        }
    }
    take_back(&block);
    PyObject *found = NULL;
    if (status == KOMBILAD_OK)
        found = node_object(&node, (const char *)target, needed);
    else
        set_failed(state_of(module), status, place);
    if (target != few) PyMem_Free(target);
    return found;
}

/* stays_inside(target, depth): returns whether a symbolic link with this target, in a folder this
 * many levels below another one, leads to nothing outside of that one. */
PyObject *stays_inside(PyObject *module, PyObject *arguments) {
    (void)module;
    const char *target;
    Py_ssize_t len;
    PyObject *given;
    size_t depth;
    if (!PyArg_ParseTuple(arguments, "y#O", &target, &len, &given) || limit_of(given, &depth) < 0)
        return NULL;
    return PyBool_FromLong(
        (long)kombilad_symlink_stays_inside((const uint8_t *)target, (size_t)len, depth));
}

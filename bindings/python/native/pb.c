/* Makes Python objects of the nodes of blocks of DAG-PB, from their tapes. */
#include "native.h"

/* A tape of this many entries is on the C stack. */
#define SHORT_TAPE 128

/* Puts a new object into a dict. It takes the reference to it. */
static int put(PyObject *dict, const char *key, PyObject *object) {
    if (object == NULL) return -1;
    int failed = PyDict_SetItemString(dict, key, object);
    Py_DECREF(object);
    return failed;
}

/* Appends a new dict to a list, which owns it, and returns it. */
static PyObject *append_dict(PyObject *list) {
    PyObject *dict = PyDict_New();
    if (dict == NULL) return NULL;
    int failed = PyList_Append(list, dict);
    Py_DECREF(dict);
    return failed < 0 ? NULL : dict;
}

static int put_parts(const struct state *state, PyObject *node, PyObject *links,
                     const uint8_t *block, const kombilad_entry *entries, size_t len,
                     enum cid_kind kind) {
    PyObject *link = NULL; /* the last one, which `links` owns */
    for (const kombilad_entry *entry = entries; entry < entries + len; entry++) {
        const char *content = (const char *)block + entry->value;
        int failed = -1;
        switch (entry->kind) {
        case KOMBILAD_KIND_LINK:
            link = append_dict(links);
            if (link != NULL)
                failed = put(link, "Hash",
                             cid_object(state, kind, block + entry->value, entry->len));
            break;
        case KOMBILAD_KIND_STRING:
            failed = put(link, "Name",
                         PyUnicode_FromStringAndSize(content, (Py_ssize_t)entry->len));
            break;
        case KOMBILAD_KIND_UNSIGNED:
            failed = put(link, "Tsize", PyLong_FromUnsignedLongLong(entry->value));
            break;
        case KOMBILAD_KIND_BYTES:
            failed = put(node, "Data", PyBytes_FromStringAndSize(content, (Py_ssize_t)entry->len));
            break;
        default:
            PyErr_Format(PyExc_SystemError, "kombilad: an entry of the kind %u",
                         (unsigned)entry->kind);
        }
        if (failed < 0) return -1;
    }
    return PyDict_SetItemString(node, "Links", links);
}

static PyObject *node_of(const struct state *state, const uint8_t *block,
                         const kombilad_entry *entries, size_t len, enum cid_kind kind) {
    PyObject *node = PyDict_New(), *links = PyList_New(0);
    if (node == NULL || links == NULL ||
        put_parts(state, node, links, block, entries, len, kind) < 0)
        Py_CLEAR(node);
    Py_XDECREF(links);
    return node;
}

PyObject *decode_pb(PyObject *module, PyObject *arguments) {
    struct state *state = state_of(module);
    PyObject *given, *cids;
    enum cid_kind kind;
    struct lent block;
    if (!PyArg_UnpackTuple(arguments, "decode_pb", 2, 2, &given, &cids)) return NULL;
    if (cid_kind_of(state, cids, &kind) < 0 || lend(given, &block) < 0) return NULL;
    kombilad_entry few[SHORT_TAPE], *entries = few;
    size_t needed = 0, offset = 0;
    PyObject *node = NULL;
    uint32_t status = kombilad_pb_tape(block.bytes, block.len, entries, SHORT_TAPE, &needed,
                                       &offset);
    if (status == KOMBILAD_TOO_SHORT) {
        entries = PyMem_Malloc(needed * sizeof *entries);
        if (entries == NULL) {
            take_back(&block);
            return PyErr_NoMemory();
        }
        status = kombilad_pb_tape(block.bytes, block.len, entries, needed, &needed, &offset);
    }
    if (status == KOMBILAD_OK)
        node = node_of(state, block.bytes, entries, needed, kind);
    else
        set_failed(state, status, offset);
    if (entries != few) PyMem_Free(entries);
    take_back(&block);
    return node;
}

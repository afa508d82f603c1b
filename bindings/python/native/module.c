/* The module `kombilad._native`. */
#include <string.h>

#include "native.h"

struct state *state_of(PyObject *module) {
    return PyModule_GetState(module);
}

/* Returns whether an object is CidBytes or a subclass, so that its instances have the fields of a
 * CID. Otherwise it sets an exception. */
static bool holds_bytes(const struct state *state, PyObject *type) {
    bool holds = PyType_Check(type) &&
                 PyType_IsSubtype((PyTypeObject *)type, (PyTypeObject *)state->cid_bytes);
    if (!holds) PyErr_SetString(PyExc_TypeError, "a subclass of CidBytes is wanted");
    return holds;
}

/* use(cid, failed, encode_error): sets the classes and the function of the package that the module
 * needs. */
static PyObject *use(PyObject *module, PyObject *arguments) {
    struct state *state = state_of(module);
    PyObject *cid, *failed, *encode_error;
    if (!PyArg_UnpackTuple(arguments, "use", 3, 3, &cid, &failed, &encode_error) ||
        !holds_bytes(state, cid))
        return NULL;
    Py_INCREF(cid);
    Py_INCREF(failed);
    Py_INCREF(encode_error);
    PyObject *before[] = {state->cid, state->failed, state->encode_error};
    state->cid = cid;
    state->failed = failed;
    state->encode_error = encode_error;
    for (int at = 0; at < 3; at++) Py_XDECREF(before[at]);
    Py_RETURN_NONE;
}

/* cid_of(class, bytes): returns an instance of a subclass of CidBytes with these bytes, which must
 * be a CID. */
static PyObject *cid_of(PyObject *module, PyObject *arguments) {
    PyObject *type, *bytes;
    if (!PyArg_UnpackTuple(arguments, "cid_of", 2, 2, &type, &bytes) ||
        !holds_bytes(state_of(module), type))
        return NULL;
    if (!PyBytes_CheckExact(bytes)) {
        PyErr_SetString(PyExc_TypeError, "bytes are wanted");
        return NULL;
    }
    Py_INCREF(bytes);
    return cid_with((PyTypeObject *)type, bytes);
}

/* The sentence of any status has fewer characters than this. */
#define LONGEST_SENTENCE 128

/* status_text(status): returns the sentence of a status. */
static PyObject *status_text(PyObject *module, PyObject *given) {
    unsigned long status = PyLong_AsUnsignedLong(given);
    if (PyErr_Occurred()) return NULL;
    uint8_t text[LONGEST_SENTENCE];
    size_t needed = 0;
    if (kombilad_status_text((uint32_t)status, text, sizeof text, &needed) != KOMBILAD_OK) {
        PyErr_SetString(PyExc_SystemError, "a sentence is too long");
        return NULL;
    }
    (void)module;
    return PyUnicode_FromStringAndSize((const char *)text, (Py_ssize_t)needed);
}

/* version(): returns the number of libkombilad's version. */
static PyObject *version(PyObject *module, PyObject *nothing) {
    (void)module;
    (void)nothing;
    return PyLong_FromUnsignedLong(kombilad_version());
}

static PyMethodDef methods[] = {
    {"canonicalize", block_canonicalize, METH_VARARGS,
     "canonicalize(block, levels, values): the block with the keys of its maps in order."},
    {"car_header", car_header, METH_O, "car_header(roots): the header with these CIDs' bytes."},
    {"car_section", car_section, METH_VARARGS,
     "car_section(cid, block_len): what a section has before its block."},
    {"car_index", car_index, METH_VARARGS,
     "car_index(rows, payload_len): the first bytes of a CAR of version 2, and its index."},
    {"check", block_check, METH_VARARGS, "check(block, levels, values): None if it is valid."},
    {"cid_check", cid_check, METH_O, "cid_check(bytes): a copy of bytes that are those of a CID."},
    {"cid_from_text", cid_from_text, METH_O, "cid_from_text(text): the bytes of its CID."},
    {"cid_of", cid_of, METH_VARARGS, "cid_of(class, bytes): the CID of bytes that are one."},
    {"cid_of_block", cid_of_block, METH_VARARGS,
     "cid_of_block(codec, block): the bytes of the CID of a block."},
    {"cid_to_text", cid_to_text, METH_VARARGS,
     "cid_to_text(bytes, base): the text in the base of a prefix, or in the usual one for 0."},
    {"count_links", block_count_links, METH_VARARGS,
     "count_links(block, levels, values): how many."},
    {"decode", decode, METH_VARARGS, "decode(block, cids, levels, values): the value of a block."},
    {"decode_car", decode_car, METH_VARARGS,
     "decode_car(car, cids, levels, values, verified, limit): version, roots and blocks."},
    {"decode_multi", decode_multi, METH_VARARGS,
     "decode_multi(blocks, cids, levels, values): the values of blocks, one after another."},
    {"decode_pb", decode_pb, METH_VARARGS,
     "decode_pb(block, cids): the node of a block of DAG-PB."},
    {"encode", encode, METH_VARARGS,
     "encode(value, cids, levels): the canonical block of a value."},
    {"file_new", file_new, METH_VARARGS,
     "file_new(root, start, length, bytes, blocks, waiting, levels): a walk over the file of a "
     "CID's bytes."},
    {"file_take", file_take, METH_VARARGS,
     "file_take(walk, block): the bytes of the file in the block that the walk wants."},
    {"folder_lookup", folder_lookup, METH_VARARGS,
     "folder_lookup(folder, name, blocks, ends): whether it is found, and a CID's bytes, or None."},
    {"folder_new", folder_new, METH_O,
     "folder_new(root): a walk over the folder of the bytes of a CID."},
    {"folder_take", folder_take, METH_VARARGS,
     "folder_take(walk, block): name, CID and size of the entries in the block that it wants."},
    {"from_json", block_from_json, METH_VARARGS,
     "from_json(text, levels, values): the canonical block of the bytes of a text in DAG-JSON."},
    {"get", get, METH_VARARGS,
     "get(block, cids, levels, values, path): the value at a path, and the byte at which the rest "
     "of the path begins."},
    {"is_canonical", block_is_canonical, METH_VARARGS,
     "is_canonical(block, levels, values): whether the keys of its maps are in order."},
    {"link_positions", block_link_positions, METH_VARARGS,
     "link_positions(block, levels, values): the place and the length of each CID."},
    {"links", block_links, METH_VARARGS, "links(block, levels, values): the CIDs of its links."},
    {"open_part", open_part, METH_VARARGS,
     "open_part(window, is_all, limit): version, where the sections begin and end, and roots, or "
     "how many bytes more are needed."},
    {"next_part", next_part, METH_VARARGS,
     "next_part(window, begin, is_all, limit, version, at, end): the CID's bytes and the span of "
     "the data, how many bytes more are needed, or None."},
    {"pack_chunk", pack_chunk, METH_VARARGS,
     "pack_chunk(packing, chunk): adds a chunk that isn't the last to a file."},
    {"pack_file", pack_file, METH_VARARGS,
     "pack_file(version, raw_leaves, links): what is packed of a file that begins."},
    {"pack_folder", pack_folder, METH_VARARGS,
     "pack_folder(version, mode, time, sharded_above, names, entries): what is packed of a "
     "folder."},
    {"pack_free", pack_free, METH_O, "pack_free(packing): frees what is packed."},
    {"pack_last_chunk", pack_last_chunk, METH_VARARGS,
     "pack_last_chunk(packing, chunk, mode, time): adds the last chunk to a file."},
    {"pack_symlink", pack_symlink, METH_VARARGS,
     "pack_symlink(version, mode, time, target): what is packed of a symbolic link."},
    {"pack_take", pack_take, METH_O,
     "pack_take(packing): CID, size, total and bytes of the next block that waits, or None."},
    {"status_text", status_text, METH_O, "status_text(status): its sentence."},
    {"stays_inside", stays_inside, METH_VARARGS,
     "stays_inside(target, depth): whether a symbolic link leads to nothing outside."},
    {"to_json", block_to_json, METH_VARARGS,
     "to_json(block, levels, values): the text of a block in DAG-JSON."},
    {"unixfs_node", unixfs_node, METH_VARARGS,
     "unixfs_node(cid, block): kind, size, mode, time and target of a node."},
    {"use", use, METH_VARARGS,
     "use(cid, failed, encode_error): what the module needs of the package."},
    {"verify", verify, METH_VARARGS, "verify(cid, block): whether the block has the CID's digest."},
    {"version", version, METH_NOARGS, "version(): the number of libkombilad's version."},
    {"walk_wanted", walk_wanted, METH_O,
     "walk_wanted(walk): the bytes of the CID that the walk wants, or None at the end."},
    {NULL, NULL, 0, NULL},
};

static int execute(PyObject *module) {
    PyObject *type = PyType_FromSpec(&cid_bytes_spec);
    if (type == NULL) return -1;
    state_of(module)->cid_bytes = type;
    /* If it succeeds, the module takes the reference. */
    Py_INCREF(type);
    if (PyModule_AddObject(module, "CidBytes", type) == 0) return 0;
    Py_DECREF(type);
    return -1;
}

static int traverse(PyObject *module, visitproc visit, void *arg) {
    struct state *state = state_of(module);
    if (state == NULL) return 0;
    Py_VISIT(state->cid_bytes);
    Py_VISIT(state->cid);
    Py_VISIT(state->failed);
    Py_VISIT(state->encode_error);
    return 0;
}

static int clear(PyObject *module) {
    struct state *state = state_of(module);
    if (state == NULL) return 0;
    Py_CLEAR(state->cid_bytes);
    Py_CLEAR(state->cid);
    Py_CLEAR(state->failed);
    Py_CLEAR(state->encode_error);
    for (size_t at = 0; at < KEY_SLOTS; at++) Py_CLEAR(state->keys[at].text);
    return 0;
}

static void release(void *module) { clear(module); }

static PyModuleDef_Slot slots[] = {
    {Py_mod_exec, (void *)execute},
    {0, NULL},
};

static struct PyModuleDef definition = {
    PyModuleDef_HEAD_INIT,
    .m_name = "kombilad._native",
    .m_doc = "The values of blocks, made from the tapes of libkombilad.",
    .m_size = sizeof(struct state),
    .m_methods = methods,
    .m_slots = slots,
    .m_traverse = traverse,
    .m_clear = clear,
    .m_free = release,
};

PyMODINIT_FUNC PyInit__native(void) { return PyModuleDef_Init(&definition); }

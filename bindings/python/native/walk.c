/* Walks over the blocks of files and folders of UnixFS. Python has a walk as a capsule, of one type
 * for both kinds. */
#include "native.h"

#define NAME "kombilad.walk"

struct walk {
    kombilad_walk walk;
    bool busy; /* a call of the library may have released the interpreter's lock */
};

static void free_walk(PyObject *capsule) {
    struct walk *walk = PyCapsule_GetPointer(capsule, NAME);
    kombilad_walk_free(&walk->walk);
    PyMem_Free(walk);
}

/* Returns the walk of a capsule, unless another thread is in a call with it. */
static struct walk *walk_of(PyObject *capsule) {
    struct walk *walk = PyCapsule_GetPointer(capsule, NAME);
    if (walk == NULL || !walk->busy) return walk;
    PyErr_SetString(PyExc_RuntimeError, "another thread uses the walk");
    return NULL;
}

/* Begins a call of the library with a walk and a block. */
static PyThreadState *begin(struct walk *walk, const struct lent *block) {
    walk->busy = true;
    return unlock(block);
}

static void end(struct walk *walk, PyThreadState *saved) {
    lock(saved);
    walk->busy = false;
}

/* Returns the capsule of a walk, if the status with which it began is OK. */
static PyObject *capsule_of(PyObject *module, uint32_t status, kombilad_walk begun) {
    if (status != KOMBILAD_OK) {
        set_failed(state_of(module), status, 0);
        return NULL;
    }
    PyObject *capsule = NULL;
    struct walk *walk = PyMem_Malloc(sizeof *walk);
    if (walk == NULL) {
        PyErr_NoMemory();
    } else {
        *walk = (struct walk){begun, false};
        capsule = PyCapsule_New(walk, NAME, free_walk);
    }
    if (capsule == NULL) {
        kombilad_walk_free(&begun);
        PyMem_Free(walk);
    }
    return capsule;
}

/* walk_wanted(walk): returns the bytes of the CID of the block that the walk wants, or None if it
 * has taken all its blocks. */
PyObject *walk_wanted(PyObject *module, PyObject *capsule) {
    struct walk *walk = walk_of(capsule);
    if (walk == NULL) return NULL;
    kombilad_cid cid;
    uint32_t status = kombilad_walk_wanted(&walk->walk, &cid);
    if (status == KOMBILAD_OK) return PyBytes_FromStringAndSize((const char *)cid.bytes, cid.len);
    if (status == KOMBILAD_WALK_DONE) Py_RETURN_NONE;
    set_failed(state_of(module), status, 0);
    return NULL;
}

/* ---- Files */

/* file_new(root, start, length, bytes, blocks, waiting, levels): returns a walk over a range of the
 * file of the CID with these bytes, with these limits. */
PyObject *file_new(PyObject *module, PyObject *arguments) {
    const char *root;
    Py_ssize_t len;
    unsigned long long start, length, bytes, blocks;
    PyObject *given_waiting, *given_levels;
    size_t waiting, levels;
    if (!PyArg_ParseTuple(arguments, "y#KKKKOO", &root, &len, &start, &length, &bytes, &blocks,
                          &given_waiting, &given_levels))
        return NULL;
    if (limit_of(given_waiting, &waiting) < 0 || limit_of(given_levels, &levels) < 0) return NULL;
    kombilad_walk walk = {0, 0};
    uint32_t status = kombilad_file_new((const uint8_t *)root, (size_t)len, start, length, bytes,
                                        blocks, waiting, levels, &walk);
    return capsule_of(module, status, walk);
}

/* Gives a block to a walk over a file, and returns the bytes of the file in it. */
static PyObject *bytes_in(const struct state *state, struct walk *walk, const struct lent *block) {
    PyObject *room = PyBytes_FromStringAndSize(NULL, (Py_ssize_t)block->len);
    if (room == NULL) return NULL;
    char *out = PyBytes_AsString(room);
    size_t needed = 0, offset = 0;
    PyThreadState *saved = begin(walk, block);
    uint32_t status = kombilad_file_take(&walk->walk, block->bytes, block->len, (uint8_t *)out,
                                         block->len, &needed, &offset);
    end(walk, saved);
    if (status == KOMBILAD_OK && needed == block->len) return room;
    PyObject *bytes = NULL;
    if (status == KOMBILAD_OK)
        bytes = PyBytes_FromStringAndSize(out, (Py_ssize_t)needed);
    else
        set_failed(state, status, offset);
    Py_DECREF(room);
    return bytes;
}

/* file_take(walk, block): returns the bytes of the file in the block that the walk wants. */
PyObject *file_take(PyObject *module, PyObject *arguments) {
    PyObject *capsule, *given;
    struct lent block;
    if (!PyArg_UnpackTuple(arguments, "file_take", 2, 2, &capsule, &given)) return NULL;
    if (lend(given, &block) < 0) return NULL;
    struct walk *walk = walk_of(capsule);
    PyObject *bytes = walk == NULL ? NULL : bytes_in(state_of(module), walk, &block);
    take_back(&block);
    return bytes;
}

/* ---- Folders */

/* folder_new(root): returns a walk over the folder of the CID with these bytes. */
PyObject *folder_new(PyObject *module, PyObject *given) {
    struct lent root;
    if (lend(given, &root) < 0) return NULL;
    kombilad_walk walk = {0, 0};
    uint32_t status = kombilad_folder_new(root.bytes, root.len, &walk);
    take_back(&root);
    return capsule_of(module, status, walk);
}

/* Returns (name, CID, size or None). */
static PyObject *entry_object(const struct state *state, const kombilad_folder_entry *entry,
                              const char *names) {
    return Py_BuildValue("s#NN", names + entry->name.offset, (Py_ssize_t)entry->name.len,
                         cid_object(state, CID_OBJECT, entry->cid.bytes, entry->cid.len),
                         number_if(entry->has_tsize, entry->tsize));
}

static PyObject *entry_list(const struct state *state, const kombilad_folder_entry *entries,
                            size_t count, const char *names) {
    PyObject *list = PyList_New((Py_ssize_t)count);
    for (size_t at = 0; list != NULL && at < count; at++) {
        PyObject *entry = entry_object(state, entries + at, names);
        if (entry == NULL || PyList_SetItem(list, (Py_ssize_t)at, entry) < 0) Py_CLEAR(list);
    }
    return list;
}

/* Gives a block to a walk over a folder, and returns a list of the entries in it. */
static PyObject *entries_in(const struct state *state, struct walk *walk,
                            const struct lent *block) {
    size_t count = KOMBILAD_FOLDER_ENTRIES(block->len), needed = 0, place = 0;
    kombilad_folder_entry *entries = PyMem_New(kombilad_folder_entry, count);
    char *names = PyMem_Malloc(block->len);
    PyObject *list = NULL;
    if (entries == NULL || names == NULL) {
        PyErr_NoMemory();
    } else {
        PyThreadState *saved = begin(walk, block);
        uint32_t status = kombilad_folder_take(&walk->walk, block->bytes, block->len, entries,
                                               count, (uint8_t *)names, block->len, &needed,
                                               &place);
        end(walk, saved);
        if (status == KOMBILAD_OK)
            list = entry_list(state, entries, needed, names);
        else
            set_failed(state, status, place);
    }
    PyMem_Free(entries);
    PyMem_Free(names);
    return list;
}

/* folder_take(walk, block): returns the entries in the block that the walk wants, as tuples of the
 * name, the CID, and the size that the link states or None. */
PyObject *folder_take(PyObject *module, PyObject *arguments) {
    PyObject *capsule, *given;
    struct lent block;
    if (!PyArg_UnpackTuple(arguments, "folder_take", 2, 2, &capsule, &given)) return NULL;
    if (lend(given, &block) < 0) return NULL;
    struct walk *walk = walk_of(capsule);
    PyObject *list = walk == NULL ? NULL : entries_in(state_of(module), walk, &block);
    take_back(&block);
    return list;
}

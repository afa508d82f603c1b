/* The declarations that the files of this folder share.
 *
 * The module uses only CPython's stable ABI as of 3.9. It holds the interpreter's lock, except in
 * the calls of the library for which its code releases the lock. A function that fails sets an
 * exception, and returns NULL or -1. */
#ifndef KOMBILAD_NATIVE_H
#define KOMBILAD_NATIVE_H

#define PY_SSIZE_T_CLEAN
#define Py_LIMITED_API 0x03090000
#include <Python.h>
#include <stdbool.h>
#include <stdint.h>

#include <kombilad.h>

/* ---- Parts of CPython's binary interface that its headers for the stable ABI as of 3.9 lack */

/* `Py_buffer`, as the stable ABI has it since 3.11, and every version had it before. */
struct view {
    void *buf;
    PyObject *obj;
    Py_ssize_t len;
    Py_ssize_t itemsize;
    int readonly;
    int ndim;
    char *format;
    Py_ssize_t *shape;
    Py_ssize_t *strides;
    Py_ssize_t *suboffsets;
    void *internal;
};

#define VIEW_SIMPLE 0
PyAPI_FUNC(int) PyObject_GetBuffer(PyObject *object, struct view *view, int flags);
PyAPI_FUNC(void) PyBuffer_Release(struct view *view);
/* In the stable ABI since 3.10. The bytes belong to the text. */
PyAPI_FUNC(const char *) PyUnicode_AsUTF8AndSize(PyObject *text, Py_ssize_t *len);

/* Only the module's init function and the calls of libkombilad are visible outside of it. */
#ifdef __GNUC__
#pragma GCC visibility push(hidden)
#endif

/* ---- The module's state */

/* The strings of recent keys, by a hash of their bytes. Similar blocks have the same keys. */
#define KEY_SLOTS 4096
#define LONGEST_KEPT_KEY 64

struct key_slot {
    PyObject *text;    /* NULL, or an owned string */
    const char *bytes; /* its UTF-8, which it owns */
    size_t len;
};

struct state {
    PyObject *cid_bytes; /* the class `CidBytes` below */
    PyObject *cid;       /* the class `Cid`, a subclass of it */
    PyObject *failed;    /* (status, place, offset) -> exception */
    PyObject *encode_error;
    struct key_slot keys[KEY_SLOTS];
};

struct state *state_of(PyObject *module);

/* ---- CIDs */

/* An instance of `CidBytes`, or of `Cid`, which doesn't add a field. */
struct cid {
    PyObject_HEAD PyObject *bytes;
    bool has_parts;
    kombilad_cid_parts parts; /* if `has_parts` */
};

extern PyType_Spec cid_bytes_spec;

/* Returns an instance of the type with these bytes, which must be a CID. It takes the reference to
 * them. If they are NULL, it returns NULL. */
PyObject *cid_with(PyTypeObject *type, PyObject *bytes);

/* The class of a link: `Cid`, `str` or `bytes`. */
enum cid_kind { CID_OBJECT, CID_TEXT, CID_BYTES };

/* Writes which of the three classes an object is, or fails. */
int cid_kind_of(const struct state *state, PyObject *given, enum cid_kind *kind);

/* Writes the record of a CID with these bytes, if it has room for as many. */
int cid_record(const char *bytes, Py_ssize_t len, kombilad_cid *record);

/* Returns the CID with these bytes, as an instance of a class. */
PyObject *cid_object(const struct state *state, enum cid_kind kind, const uint8_t *bytes,
                     size_t len);

/* ---- Bytes and limits from Python */

/* The bytes of an object, borrowed until `take_back`. */
struct lent {
    const uint8_t *bytes;
    size_t len;
    /* Nobody can change them, so reading them doesn't need the interpreter's lock. */
    bool immutable;
    bool viewed;
    struct view view;
};

int lend(PyObject *object, struct lent *lent);
void take_back(struct lent *lent);

/* A call of the library releases the interpreter's lock for at least this many bytes. */
#define LARGE ((size_t)65536)

/* Releases the interpreter's lock if there are so many bytes, and nobody can change them. Returns
 * what `lock` needs to take it again. */
PyThreadState *unlock(const struct lent *lent);
void lock(PyThreadState *saved);

/* Writes the limit that is nearest to an integer of any size. For None there is no limit. */
int limit_of(PyObject *given, size_t *limit);

/* Returns the number as an integer, or None if there is none. */
PyObject *number_if(bool is_there, uint64_t number);

/* Sets the exception of a status that isn't KOMBILAD_OK, with the offset in a block, or the number of
 * a link or of a segment. */
void set_failed(const struct state *state, uint32_t status, size_t offset);

/* Sets the exception of a status of a text, with the index of a character in it, or of the entries of
 * a folder, with the number of one. */
void set_text_failed(const struct state *state, uint32_t status, Py_ssize_t place);

/* ---- Calls of the module */

/* Calls on CIDs. */
PyObject *cid_check(PyObject *module, PyObject *given);
PyObject *cid_from_text(PyObject *module, PyObject *text);
PyObject *cid_of_block(PyObject *module, PyObject *arguments);
PyObject *cid_to_text(PyObject *module, PyObject *arguments);

/* Calls on blocks that don't return a value of theirs: (block, levels, values). */
PyObject *block_check(PyObject *module, PyObject *arguments);
PyObject *block_is_canonical(PyObject *module, PyObject *arguments);
PyObject *block_count_links(PyObject *module, PyObject *arguments);
PyObject *block_links(PyObject *module, PyObject *arguments);
PyObject *block_link_positions(PyObject *module, PyObject *arguments);
PyObject *block_canonicalize(PyObject *module, PyObject *arguments);
PyObject *block_to_json(PyObject *module, PyObject *arguments);
PyObject *block_from_json(PyObject *module, PyObject *arguments);

/* Returns a key as a string. */
PyObject *key_text(struct state *state, const uint8_t *bytes, size_t len);

/* Returns the value of one block. The offset of an exception counts from `base` bytes before the
 * block. */
PyObject *decode_block(struct state *state, const struct lent *block, enum cid_kind kind,
                       size_t levels, size_t values, size_t base);

PyObject *decode(PyObject *module, PyObject *arguments);
PyObject *decode_multi(PyObject *module, PyObject *arguments);
PyObject *decode_pb(PyObject *module, PyObject *arguments);
PyObject *get(PyObject *module, PyObject *arguments);
PyObject *open_part(PyObject *module, PyObject *arguments);
PyObject *next_part(PyObject *module, PyObject *arguments);
PyObject *verify(PyObject *module, PyObject *arguments);
PyObject *decode_car(PyObject *module, PyObject *arguments);
PyObject *car_header(PyObject *module, PyObject *roots);
PyObject *car_section(PyObject *module, PyObject *arguments);
PyObject *car_index(PyObject *module, PyObject *arguments);

/* Calls on files, folders and nodes of UnixFS. */
PyObject *file_new(PyObject *module, PyObject *arguments);
PyObject *file_take(PyObject *module, PyObject *arguments);
PyObject *folder_lookup(PyObject *module, PyObject *arguments);
PyObject *folder_new(PyObject *module, PyObject *given);
PyObject *folder_take(PyObject *module, PyObject *arguments);
PyObject *stays_inside(PyObject *module, PyObject *arguments);
PyObject *unixfs_node(PyObject *module, PyObject *arguments);
PyObject *walk_wanted(PyObject *module, PyObject *capsule);

/* Calls that pack files, folders and symbolic links of UnixFS. */
PyObject *pack_chunk(PyObject *module, PyObject *arguments);
PyObject *pack_file(PyObject *module, PyObject *arguments);
PyObject *pack_folder(PyObject *module, PyObject *arguments);
PyObject *pack_free(PyObject *module, PyObject *capsule);
PyObject *pack_last_chunk(PyObject *module, PyObject *arguments);
PyObject *pack_symlink(PyObject *module, PyObject *arguments);
PyObject *pack_take(PyObject *module, PyObject *capsule);

/* Returns the canonical block of a value. */
PyObject *encode(PyObject *module, PyObject *arguments);

#ifdef __GNUC__
#pragma GCC visibility pop
#endif

#endif

/* CIDs: the base of the class `Cid`, which contains the bytes, and the three classes of a link. */
#include "native.h"

#include <stddef.h>
#include <string.h>
#include <structmember.h>

/* ---- The class */

static void cid_dealloc(PyObject *self) {
    PyTypeObject *type = Py_TYPE(self);
    Py_XDECREF(((struct cid *)self)->bytes);
    ((freefunc)PyType_GetSlot(type, Py_tp_free))(self);
    Py_DECREF(type);
}

/* Python code creates instances only by `cid_of`, so each contains the bytes of a CID. */
static PyObject *cid_new(PyTypeObject *type, PyObject *arguments, PyObject *named) {
    (void)arguments;
    (void)named;
    PyErr_Format(PyExc_TypeError, "%R makes no instance", (PyObject *)type);
    return NULL;
}

static Py_hash_t cid_hash(PyObject *self) { return PyObject_Hash(((struct cid *)self)->bytes); }

static const uint8_t *bytes_of(const struct cid *cid, size_t *len) {
    *len = (size_t)PyBytes_Size(cid->bytes);
    return (const uint8_t *)PyBytes_AsString(cid->bytes);
}

/* Returns the parts of a CID. They are read at the first call. */
static const kombilad_cid_parts *parts_of(PyObject *self) {
    struct cid *cid = (struct cid *)self;
    if (!cid->has_parts) {
        size_t len;
        const uint8_t *bytes = bytes_of(cid, &len);
        kombilad_cid_parts_of(bytes, len, &cid->parts);
        cid->has_parts = true;
    }
    return &cid->parts;
}

static int order_of(uint64_t a, uint64_t b) { return a < b ? -1 : a > b; }

/* Compares two CIDs by version, codec, hash function, length of the digest, and digest. */
static int cid_order(PyObject *a, PyObject *b) {
    const kombilad_cid_parts *of_a = parts_of(a), *of_b = parts_of(b);
    int order = order_of(of_a->version, of_b->version);
    if (order == 0) order = order_of(of_a->codec, of_b->codec);
    if (order == 0) order = order_of(of_a->hash, of_b->hash);
    if (order == 0) order = order_of(of_a->digest_len, of_b->digest_len);
    if (order != 0) return order;
    size_t len_a, len_b, digest_len = (size_t)of_a->digest_len;
    const uint8_t *bytes_a = bytes_of((struct cid *)a, &len_a);
    const uint8_t *bytes_b = bytes_of((struct cid *)b, &len_b);
    return memcmp(bytes_a + len_a - digest_len, bytes_b + len_b - digest_len, digest_len);
}

static PyObject *cid_compare(PyObject *self, PyObject *other, int comparison);

/* Returns whether an object is an instance of CidBytes, or of a subclass that compares as it does.
 * Before Python 3.10 PyType_GetSlot works only for types on the heap. */
static bool is_cid(PyObject *object) {
    PyTypeObject *type = Py_TYPE(object);
    return (PyType_GetFlags(type) & Py_TPFLAGS_HEAPTYPE) != 0 &&
           PyType_GetSlot(type, Py_tp_richcompare) == (void *)cid_compare;
}

static PyObject *cid_compare(PyObject *self, PyObject *other, int comparison) {
    if (!is_cid(other)) {
        Py_INCREF(Py_NotImplemented);
        return Py_NotImplemented;
    }
    if (comparison == Py_EQ || comparison == Py_NE)
        return PyObject_RichCompare(((struct cid *)self)->bytes, ((struct cid *)other)->bytes,
                                    comparison);
    int order = cid_order(self, other);
    bool holds = comparison == Py_LT   ? order < 0
                 : comparison == Py_LE ? order <= 0
                 : comparison == Py_GT ? order > 0
                                       : order >= 0;
    return PyBool_FromLong(holds);
}

static PyObject *cid_version(PyObject *self, void *closure) {
    (void)closure;
    return PyLong_FromUnsignedLongLong(parts_of(self)->version);
}

static PyObject *cid_codec(PyObject *self, void *closure) {
    (void)closure;
    return PyLong_FromUnsignedLongLong(parts_of(self)->codec);
}

static PyObject *cid_hash_code(PyObject *self, void *closure) {
    (void)closure;
    return PyLong_FromUnsignedLongLong(parts_of(self)->hash);
}

static PyObject *cid_digest(PyObject *self, void *closure) {
    (void)closure;
    size_t len, digest_len = (size_t)parts_of(self)->digest_len;
    const char *bytes = (const char *)bytes_of((struct cid *)self, &len);
    return PyBytes_FromStringAndSize(bytes + len - digest_len, (Py_ssize_t)digest_len);
}

static PyGetSetDef cid_getset[] = {
    {"version", cid_version, NULL, "The version, 0 or 1.", NULL},
    {"codec", cid_codec, NULL, "The codec of the block, as in the multicodec table.", NULL},
    {"hash_code", cid_hash_code, NULL, "The code of the hash function, as in that table.", NULL},
    {"digest", cid_digest, NULL, "The digest.", NULL},
    {NULL, NULL, NULL, NULL, NULL},
};

static PyMemberDef cid_members[] = {
    {"_bytes", T_OBJECT_EX, offsetof(struct cid, bytes), READONLY, "The bytes of the CID."},
    {NULL, 0, 0, 0, NULL},
};

static PyType_Slot cid_slots[] = {
    {Py_tp_doc, "What holds the bytes of a CID."},
    {Py_tp_new, (void *)cid_new},
    {Py_tp_dealloc, (void *)cid_dealloc},
    {Py_tp_hash, (void *)cid_hash},
    {Py_tp_richcompare, (void *)cid_compare},
    {Py_tp_getset, cid_getset},
    {Py_tp_members, cid_members},
    {0, NULL},
};

PyType_Spec cid_bytes_spec = {
    .name = "kombilad._native.CidBytes",
    .basicsize = sizeof(struct cid),
    .flags = Py_TPFLAGS_DEFAULT | Py_TPFLAGS_BASETYPE,
    .slots = cid_slots,
};

PyObject *cid_with(PyTypeObject *type, PyObject *bytes) {
    if (bytes == NULL) return NULL;
    struct cid *cid = (struct cid *)PyType_GenericAlloc(type, 0);
    if (cid == NULL) {
        Py_DECREF(bytes);
        return NULL;
    }
    cid->bytes = bytes;
    return (PyObject *)cid;
}

/* ---- The three classes */

int cid_kind_of(const struct state *state, PyObject *given, enum cid_kind *kind) {
    if (given == state->cid)
        *kind = CID_OBJECT;
    else if (given == (PyObject *)&PyUnicode_Type)
        *kind = CID_TEXT;
    else if (given == (PyObject *)&PyBytes_Type)
        *kind = CID_BYTES;
    else {
        PyErr_SetString(PyExc_TypeError, "cids is one of the classes Cid, str and bytes");
        return -1;
    }
    return 0;
}

int cid_record(const char *bytes, Py_ssize_t len, kombilad_cid *record) {
    if ((size_t)len > sizeof record->bytes) {
        PyErr_SetString(PyExc_ValueError, "no CID has so many bytes");
        return -1;
    }
    record->len = (uint8_t)len;
    memcpy(record->bytes, bytes, (size_t)len);
    return 0;
}

/* The maximum number of characters of a CID's text. */
#define LONGEST_TEXT 173

static PyObject *text_in_base(const struct state *state, const uint8_t *bytes, size_t len,
                              uint32_t base) {
    uint8_t text[LONGEST_TEXT];
    size_t needed = 0;
    uint32_t status = kombilad_cid_to_text(bytes, len, base, text, sizeof text, &needed);
    if (status != KOMBILAD_OK) {
        set_failed(state, status, 0);
        return NULL;
    }
    return PyUnicode_FromStringAndSize((const char *)text, (Py_ssize_t)needed);
}

PyObject *cid_object(const struct state *state, enum cid_kind kind, const uint8_t *bytes,
                     size_t len) {
    if (kind == CID_TEXT) return text_in_base(state, bytes, len, KOMBILAD_BASE_USUAL);
    PyObject *content = PyBytes_FromStringAndSize((const char *)bytes, (Py_ssize_t)len);
    return kind == CID_BYTES ? content : cid_with((PyTypeObject *)state->cid, content);
}

/* ---- Calls */

/* cid_check(bytes): returns a copy of the bytes if they are a CID, and fails otherwise. */
PyObject *cid_check(PyObject *module, PyObject *given) {
    struct lent lent;
    if (lend(given, &lent) < 0) return NULL;
    PyObject *copy = PyBytes_FromStringAndSize((const char *)lent.bytes, (Py_ssize_t)lent.len);
    take_back(&lent);
    if (copy == NULL) return NULL;
    uint32_t status = kombilad_cid_check((const uint8_t *)PyBytes_AsString(copy),
                                         (size_t)PyBytes_Size(copy));
    if (status == KOMBILAD_OK) return copy;
    Py_DECREF(copy);
    set_failed(state_of(module), status, 0);
    return NULL;
}

static PyObject *bytes_of_record(const kombilad_cid *cid) {
    return PyBytes_FromStringAndSize((const char *)cid->bytes, cid->len);
}

/* Returns the number of characters that begin in these bytes of UTF-8. */
static Py_ssize_t characters_in(const char *text, size_t len) {
    Py_ssize_t count = 0;
    for (size_t at = 0; at < len; at++) count += ((unsigned char)text[at] & 0xC0) != 0x80;
    return count;
}

/* cid_from_text(text): returns the bytes of the CID that a text encodes. */
PyObject *cid_from_text(PyObject *module, PyObject *text) {
    const struct state *state = state_of(module);
    /* A lone surrogate is encoded, and then the library finds that it isn't UTF-8. */
    PyObject *encoded = PyUnicode_AsEncodedString(text, "utf-8", "surrogatepass");
    if (encoded == NULL) return NULL;
    const char *given = PyBytes_AsString(encoded);
    kombilad_cid cid;
    size_t place = 0;
    uint32_t status = kombilad_cid_from_text((const uint8_t *)given, (size_t)PyBytes_Size(encoded),
                                             &cid, &place);
    PyObject *bytes = NULL;
    if (status == KOMBILAD_OK)
        bytes = bytes_of_record(&cid);
    else if (status == KOMBILAD_TEXT_INVALID_LETTER)
        set_text_failed(state, status, characters_in(given, place));
    else
        set_failed(state, status, 0);
    Py_DECREF(encoded);
    return bytes;
}

/* cid_of_block(codec, block): returns the bytes of the CID of a block, with its SHA2-256 digest. */
PyObject *cid_of_block(PyObject *module, PyObject *arguments) {
    (void)module;
    PyObject *given_codec, *given;
    struct lent block;
    if (!PyArg_UnpackTuple(arguments, "cid_of_block", 2, 2, &given_codec, &given)) return NULL;
    unsigned long long codec = PyLong_AsUnsignedLongLong(given_codec);
    if (PyErr_Occurred() || lend(given, &block) < 0) return NULL;
    kombilad_cid cid;
    PyThreadState *saved = unlock(&block);
    kombilad_cid_of_block(codec, block.bytes, block.len, &cid);
    lock(saved);
    take_back(&block);
    return bytes_of_record(&cid);
}

/* cid_to_text(bytes, base): returns the text of a CID in the base of a prefix, or in its usual base
 * for 0. */
PyObject *cid_to_text(PyObject *module, PyObject *arguments) {
    PyObject *given, *given_base;
    struct lent cid;
    if (!PyArg_UnpackTuple(arguments, "cid_to_text", 2, 2, &given, &given_base)) return NULL;
    unsigned long base = PyLong_AsUnsignedLong(given_base);
    if (PyErr_Occurred() || lend(given, &cid) < 0) return NULL;
    PyObject *text = text_in_base(state_of(module), cid.bytes, cid.len, (uint32_t)base);
    take_back(&cid);
    return text;
}

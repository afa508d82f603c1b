/* The strings of keys, kept from one block to the next. */
#include <string.h>

#include "native.h"

static uint64_t eight(const uint8_t *bytes) {
    uint64_t number;
    memcpy(&number, bytes, 8);
    return number;
}

/* Returns the first of a key's two slots, by its first eight bytes, its last eight and its length.
 * The slots have the last two of the keys that share them. */
static size_t slots_of(const uint8_t *bytes, size_t len) {
    uint64_t first = 0, last = 0;
    if (len >= 8) {
        first = eight(bytes);
        last = eight(bytes + len - 8);
    } else {
        for (size_t at = 0; at < len; at++) first = first << 8 | bytes[at];
    }
    uint64_t mixed = (first ^ (last * 0x9E3779B97F4A7C15u) ^ len) * 0xD6E8FEB86659FD93u;
    return (size_t)((mixed ^ mixed >> 32) * 0xD6E8FEB86659FD93u >> 53) * 2;
}

_Static_assert(KEY_SLOTS == 2 << 11, "a pair of slots is the upper 11 bits of 64");

static bool holds(const struct key_slot *slot, const uint8_t *bytes, size_t len) {
    return slot->text != NULL && slot->len == len && memcmp(slot->bytes, bytes, len) == 0;
}

PyObject *key_text(struct state *state, const uint8_t *bytes, size_t len) {
    if (len > LONGEST_KEPT_KEY)
        return PyUnicode_FromStringAndSize((const char *)bytes, (Py_ssize_t)len);
    struct key_slot *slots = &state->keys[slots_of(bytes, len)];
    for (int at = 0; at < 2; at++) {
        if (holds(&slots[at], bytes, len)) {
            Py_INCREF(slots[at].text);
            return slots[at].text;
        }
    }
    PyObject *text = PyUnicode_FromStringAndSize((const char *)bytes, (Py_ssize_t)len);
    if (text == NULL) return NULL;
    Py_ssize_t same;
    const char *kept = PyUnicode_AsUTF8AndSize(text, &same);
    if (kept == NULL) {
        Py_DECREF(text);
        return NULL;
    }
    PyObject *oldest = slots[1].text;
    slots[1] = slots[0];
    Py_INCREF(text);
    slots[0] = (struct key_slot){text, kept, len};
    Py_XDECREF(oldest);
    return text;
}

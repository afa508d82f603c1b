/* Reads bytes and limits from Python, releases its lock, and sets its exceptions. */
#include "native.h"

int lend(PyObject *object, struct lent *lent) {
    lent->immutable = PyBytes_CheckExact(object);
    lent->viewed = !lent->immutable;
    if (lent->immutable) {
        lent->bytes = (const uint8_t *)PyBytes_AsString(object);
        lent->len = (size_t)PyBytes_Size(object);
        return 0;
    }
    if (PyObject_GetBuffer(object, &lent->view, VIEW_SIMPLE) < 0) return -1;
    lent->bytes = lent->view.buf;
    lent->len = (size_t)lent->view.len;
    return 0;
}

void take_back(struct lent *lent) {
    if (lent->viewed) PyBuffer_Release(&lent->view);
}

PyThreadState *unlock(const struct lent *lent) {
    return lent->immutable && lent->len >= LARGE ? PyEval_SaveThread() : NULL;
}

void lock(PyThreadState *saved) {
    if (saved != NULL) PyEval_RestoreThread(saved);
}

PyObject *number_if(bool is_there, uint64_t number) {
    if (!is_there) Py_RETURN_NONE;
    return PyLong_FromUnsignedLongLong(number);
}

int limit_of(PyObject *given, size_t *limit) {
    *limit = SIZE_MAX;
    if (given == Py_None) return 0;
    *limit = PyLong_AsSize_t(given);
    if (*limit != SIZE_MAX || !PyErr_Occurred()) return 0;
    if (!PyErr_ExceptionMatches(PyExc_OverflowError)) return -1;
    PyErr_Clear();
    PyObject *zero = PyLong_FromLong(0);
    int negative = zero == NULL ? -1 : PyObject_RichCompareBool(given, zero, Py_LT);
    Py_XDECREF(zero);
    *limit = negative == 1 ? 0 : SIZE_MAX;
    return negative < 0 ? -1 : 0;
}

/* Sets this exception. If creating it failed, the exception of that is set already. */
static void set_made(PyObject *error) {
    if (error == NULL) return;
    PyErr_SetObject((PyObject *)Py_TYPE(error), error);
    Py_DECREF(error);
}

void set_failed(const struct state *state, uint32_t status, size_t offset) {
    set_made(
        PyObject_CallFunction(state->failed, "IOn", (unsigned)status, Py_None, (Py_ssize_t)offset));
}

void set_text_failed(const struct state *state, uint32_t status, Py_ssize_t place) {
    set_made(PyObject_CallFunction(state->failed, "In", (unsigned)status, place));
}

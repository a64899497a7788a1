/* The code that the functions and the types share. */
#include "core.h"

PyObject *bytes_of(PyObject *data, const char *name)
{
    PyObject *view, *contiguous, *bytes = NULL;

    if (PyBytes_Check(data)) {
        Py_INCREF(data);
        return data;
    }
    if (PyByteArray_Check(data))
        return PyBytes_FromStringAndSize(PyByteArray_AsString(data), PyByteArray_Size(data));
    view = PyMemoryView_FromObject(data);
    if (view == NULL)
        return NULL;
    contiguous = PyObject_GetAttrString(view, "c_contiguous");
    if (contiguous == Py_True)
        bytes = PyBytes_FromObject(view);
    else if (contiguous != NULL)
        PyErr_Format(PyExc_BufferError, "%s is not contiguous; pass a copy, bytes(%s)", name, name);
    Py_XDECREF(contiguous);
    Py_DECREF(view);
    return bytes;
}

unsigned char *start_of(PyObject *bytes)
{
    return (unsigned char *)PyBytes_AsString(bytes);
}

/* Writes an argument that is passed by name to its place in `found`, and returns 1. On failure, raises TypeError and
 * returns 0. */
static int place(const Signature *signature, PyObject *name, PyObject *value, PyObject **found)
{
    Py_ssize_t i = 0;

    while (i < signature->count && PyUnicode_CompareWithASCIIString(name, signature->names[i]) != 0)
        i++;
    if (i == signature->count)
        PyErr_Format(PyExc_TypeError, "%s() got an unexpected keyword argument '%U'", signature->call, name);
    else if (found[i] != NULL)
        PyErr_Format(PyExc_TypeError, "%s() got multiple values for argument '%U'", signature->call, name);
    else
        found[i] = value;
    return !PyErr_Occurred();
}

int arguments_of(const Signature *signature, PyObject *const *args, Py_ssize_t count, PyObject *names, PyObject **found)
{
    Py_ssize_t i, named = names == NULL ? 0 : PyTuple_Size(names);

    for (i = 0; i < signature->count; i++)
        found[i] = NULL;
    if (count > 1) {
        PyErr_Format(PyExc_TypeError, "%s() takes 1 positional argument but %zd were given", signature->call, count);
        return 0;
    }
    if (count == 1)
        found[0] = args[0];
    for (i = 0; i < named; i++)
        if (!place(signature, PyTuple_GetItem(names, i), args[count + i], found))
            return 0;
    if (found[0] == NULL)
        PyErr_Format(PyExc_TypeError, "%s() missing 1 required positional argument: '%s'", signature->call,
                     signature->names[0]);
    return found[0] != NULL;
}

int sentinel_of(PyObject *number, unsigned char *result)
{
    int overflow = 0;
    long value = 0;

    if (number != NULL && PyLong_Check(number)) {
        value = PyLong_AsLongAndOverflow(number, &overflow);
    } else if (number != NULL) {
        PyObject *index = PyNumber_Index(number);
        if (index == NULL)
            return 0;
        value = PyLong_AsLongAndOverflow(index, &overflow);
        Py_DECREF(index);
    }
    if (overflow != 0 || value < 0 || value > 255) {
        PyErr_SetString(PyExc_ValueError, "sentinel must be in range(0, 256)");
        return 0;
    }
    *result = (unsigned char)value;
    return 1;
}

int length_of(PyObject *number, const char *name, size_t *result)
{
    PyObject *index = PyNumber_Index(number);
    Py_ssize_t value;

    if (index == NULL)
        return 0;
    value = PyNumber_AsSsize_t(index, NULL); /* the nearest value that fits */
    if (value < 0)
        PyErr_Format(PyExc_ValueError, "%s must not be negative", name);
    else if (value == PY_SSIZE_T_MAX && PyNumber_AsSsize_t(index, PyExc_OverflowError) < 0)
        PyErr_Format(PyExc_OverflowError, "%s must not be more than %zd", name, value);
    Py_DECREF(index);
    *result = (size_t)value;
    return !PyErr_Occurred();
}

PyThreadState *release(size_t len)
{
    return len >= LONG ? PyEval_SaveThread() : NULL;
}

void restore(PyThreadState *thread)
{
    if (thread != NULL)
        PyEval_RestoreThread(thread);
}

PyObject *room_of(size_t len)
{
    return len > PY_SSIZE_T_MAX ? PyErr_NoMemory() : PyBytes_FromStringAndSize(NULL, (Py_ssize_t)len);
}

PyObject *cut(PyObject *bytes, size_t len)
{
    Py_SET_SIZE((PyVarObject *)bytes, (Py_ssize_t)len);
    start_of(bytes)[len] = '\0';
    return bytes;
}

void xor_each(unsigned char *to, const unsigned char *from, size_t len, unsigned char sentinel)
{
    size_t i;

    for (i = 0; i < len; i++)
        to[i] = from[i] ^ sentinel;
}

jcobs_answer push(jcobs_decoder *decoder, unsigned char *buffer, size_t room, const unsigned char *bytes, size_t len,
                  unsigned char sentinel)
{
    unsigned char xored[256];
    jcobs_answer answer = {JCOBS_MORE, 0, 0};
    size_t taken = 0;

    if (sentinel == 0)
        return jcobs_decoder_push(decoder, buffer, room, bytes, len);
    while (answer.status == JCOBS_MORE && taken < len) {
        size_t n = len - taken < sizeof xored ? len - taken : sizeof xored;
        xor_each(xored, bytes + taken, n, sentinel);
        answer = jcobs_decoder_push(decoder, buffer, room, xored, n);
        taken += answer.consumed;
    }
    answer.consumed = taken;
    return answer;
}

void free_object(PyObject *self)
{
    PyTypeObject *type = Py_TYPE(self);

    ((freefunc)PyType_GetSlot(type, Py_tp_free))(self);
    Py_DECREF(type);
}

void *new_object(PyTypeObject *type)
{
    return ((allocfunc)PyType_GetSlot(type, Py_tp_alloc))(type, 0);
}

int buffer_make(Buffer *buffer, size_t len)
{
    buffer->start = len > PY_SSIZE_T_MAX ? NULL : PyMem_Malloc(len);
    buffer->len = len;
    if (buffer->start == NULL)
        PyErr_NoMemory();
    return buffer->start != NULL;
}

int buffer_take(Buffer *buffer, const char *coder)
{
    if (buffer->busy) {
        PyErr_Format(PyExc_RuntimeError, "the %s is in use by another call", coder);
        return 0;
    }
    buffer->busy = 1;
    return 1;
}

/* The type jcobs._core.Decoder: a streaming decoder with its buffer, and the bytes that it has to decode next.
 *
 * A frame is decoded when its outcome is asked for. Each method changes the decoder within one call, in which no signal
 * handler runs, so no exception of a handler leaves the decoder in between. */
#include <string.h>

#include "core.h"

/* What becomes of the frame that has begun. If its beginning is lost or discarded, its rest is dropped. */
enum rest { DECODED, REPORTED, DISCARDED };

typedef struct {
    PyObject_HEAD Buffer buffer;
    jcobs_decoder state;
    PyObject *classes; /* of the outcomes: Message, Broken and TooLong */
    PyObject *chunk;   /* the bytes that aren't decoded yet begin at the index `at` of this bytes object, or NULL */
    size_t at;
    int found; /* whether the buffer has the outcome of a frame, which has this class and this length */
    int class;
    size_t length;
    enum rest rest;
    unsigned char sentinel;
    int reading, writing; /* whether `alone` runs a call that reads or writes */
} Decoder;

static int are_outcomes(PyObject *classes)
{
    Py_ssize_t i, count = PyTuple_Check(classes) ? PyTuple_Size(classes) : 0;

    for (i = 0; i < count && is_outcome(PyTuple_GetItem(classes, i)); i++)
        ;
    if (i != 3)
        PyErr_SetString(PyExc_TypeError, "the classes must be three classes of outcomes");
    return i == 3;
}

static PyObject *decoder_new(PyTypeObject *type, PyObject *args, PyObject *kwargs)
{
    PyObject *length, *number, *classes;
    size_t max_length;
    unsigned char sentinel;
    Decoder *self;

    (void)kwargs;
    if (!PyArg_UnpackTuple(args, "Decoder", 3, 3, &length, &number, &classes) ||
        !length_of(length, "max_length", &max_length) || !sentinel_of(number, &sentinel) || !are_outcomes(classes))
        return NULL;
    self = new_object(type);
    if (self == NULL)
        return NULL;
    Py_INCREF(classes);
    self->classes = classes;
    self->sentinel = sentinel;
    jcobs_decoder_reset(&self->state);
    if (!buffer_make(&self->buffer, max_length)) {
        Py_DECREF(self);
        return NULL;
    }
    return (PyObject *)self;
}

static void decoder_dealloc(PyObject *object)
{
    Decoder *self = (Decoder *)object;

    PyMem_Free(self->buffer.start);
    Py_XDECREF(self->chunk);
    Py_XDECREF(self->classes);
    free_object(object);
}

static size_t decoder_left(Decoder *self)
{
    return self->chunk == NULL ? 0 : (size_t)PyBytes_Size(self->chunk) - self->at;
}

/* Pushes bytes to the decoder, up to and including the next sentinel. Releases the GIL if at least LONG bytes come
 * before this sentinel. */
static void decoder_step(Decoder *self, const unsigned char *bytes, size_t len)
{
    int far = len >= LONG && memchr(bytes, self->sentinel, LONG) == NULL;
    PyThreadState *thread = release(far ? len : 0);
    jcobs_answer answer = push(&self->state, self->buffer.start, self->buffer.len, bytes, len, self->sentinel);

    restore(thread);
    self->at += answer.consumed;
    self->found = answer.status != JCOBS_MORE;
    self->class = answer.status == JCOBS_OK ? 0 : answer.status == JCOBS_BROKEN ? 1 : 2;
    self->length = answer.length;
}

/* Drops the rest of a frame whose beginning is lost or discarded, up to and including the next sentinel. */
static void decoder_drop(Decoder *self, const unsigned char *bytes, size_t len)
{
    const unsigned char *end = memchr(bytes, self->sentinel, len);

    self->at += end == NULL ? len : (size_t)(end - bytes) + 1;
    if (end == NULL)
        return;
    self->found = self->rest == REPORTED;
    self->class = 1;
    self->length = 0;
    self->rest = DECODED;
}

/* Decodes as far as the end of the next frame, and returns whether there is one. */
static int decoder_find(Decoder *self)
{
    size_t len;

    while (!self->found && (len = decoder_left(self)) > 0) {
        const unsigned char *bytes = start_of(self->chunk) + self->at;
        if (self->rest == DECODED)
            decoder_step(self, bytes, len);
        else
            decoder_drop(self, bytes, len);
    }
    if (self->chunk != NULL && decoder_left(self) == 0)
        Py_CLEAR(self->chunk);
    return self->found;
}

/* Returns the next outcome, or NULL without an error if no frame has ended. If there is no memory for the outcome,
 * raises MemoryError and returns NULL; then the next call returns it. */
static PyObject *decoder_outcome(Decoder *self)
{
    PyObject *data, *outcome = NULL;

    if (!decoder_find(self))
        return NULL;
    data = PyBytes_FromStringAndSize((char *)self->buffer.start, (Py_ssize_t)self->length);
    if (data != NULL)
        outcome = outcome_of(PyTuple_GetItem(self->classes, self->class), data);
    Py_XDECREF(data);
    self->found = outcome == NULL;
    return outcome;
}

static void decoder_clear(Decoder *self)
{
    Py_CLEAR(self->chunk);
    self->found = 0;
    self->rest = DECODED;
    jcobs_decoder_reset(&self->state);
}

/* feed(chunk): returns the list of the outcomes. If there is no memory for it, the decoder is in its initial state. */
static PyObject *decoder_feed(PyObject *object, PyObject *data)
{
    Decoder *self = (Decoder *)object;
    PyObject *chunk = bytes_of(data, "chunk"), *list = NULL, *outcome = NULL;

    if (chunk == NULL && !PyErr_ExceptionMatches(PyExc_MemoryError))
        return NULL;
    if (!buffer_take(&self->buffer, "decoder")) {
        Py_XDECREF(chunk);
        return NULL;
    }
    Py_XDECREF(self->chunk);
    self->chunk = chunk;
    self->at = 0;
    if (chunk != NULL)
        list = PyList_New(0);
    while (list != NULL && (outcome = decoder_outcome(self)) != NULL) {
        int failed = PyList_Append(list, outcome);
        Py_DECREF(outcome);
        if (failed)
            Py_CLEAR(list);
    }
    if (PyErr_Occurred())
        Py_CLEAR(list);
    if (list == NULL)
        decoder_clear(self);
    self->buffer.busy = 0;
    return list;
}

/* push(chunk): takes the next bytes of the stream, and decodes none of them yet. The bytes before must be decoded. */
static PyObject *decoder_push(PyObject *object, PyObject *data)
{
    Decoder *self = (Decoder *)object;
    PyObject *chunk = bytes_of(data, "chunk");

    if (chunk == NULL)
        return NULL;
    if (decoder_left(self) > 0 || self->buffer.busy) {
        Py_DECREF(chunk);
        return PyErr_Format(PyExc_RuntimeError, "there are bytes that aren't decoded yet");
    }
    Py_XDECREF(self->chunk);
    self->chunk = chunk;
    self->at = 0;
    return PyLong_FromSsize_t(PyBytes_Size(chunk));
}

/* Notes that bytes of the stream are lost. The rest of the frame that they belong to will be reported as broken. */
static void decoder_lose(Decoder *self)
{
    self->rest = REPORTED;
    jcobs_decoder_reset(&self->state);
}

/* receive(read, size): calls read(size), takes the bytes as `push` does, and returns their number, or None if `read`
 * returned None. An exception in a `read` that is written in Python may have lost bytes, unless it is an OSError. */
static PyObject *decoder_receive(PyObject *object, PyObject *args)
{
    Decoder *self = (Decoder *)object;
    PyObject *read, *size, *given, *count;

    if (!PyArg_UnpackTuple(args, "receive", 2, 2, &read, &size) || !buffer_take(&self->buffer, "decoder"))
        return NULL;
    given = PyObject_CallFunctionObjArgs(read, size, NULL);
    self->buffer.busy = 0;
    if (given == NULL && !PyCFunction_Check(read) && !PyErr_ExceptionMatches(PyExc_OSError))
        decoder_lose(self);
    if (given == NULL || given == Py_None)
        return given;
    count = decoder_push(object, given);
    Py_DECREF(given);
    if (count == NULL)
        decoder_lose(self);
    return count;
}

/* take(): returns the next outcome, or None if no frame has ended. */
static PyObject *decoder_take(PyObject *object, PyObject *none)
{
    Decoder *self = (Decoder *)object;
    PyObject *outcome;

    (void)none;
    if (!buffer_take(&self->buffer, "decoder"))
        return NULL;
    outcome = decoder_outcome(self);
    self->buffer.busy = 0;
    if (outcome != NULL || PyErr_Occurred())
        return outcome;
    Py_RETURN_NONE;
}

/* Iterating takes the outcomes too, but not while `alone` runs a call that reads. In a for statement, no signal handler
 * can run between the step that takes an outcome and the one that stores it. */
static PyObject *decoder_next(PyObject *object)
{
    Decoder *self = (Decoder *)object;
    PyObject *outcome;

    if (self->reading || self->buffer.busy) {
        PyErr_SetString(PyExc_RuntimeError, "the reader is in use by another call");
        return NULL;
    }
    self->buffer.busy = 1;
    outcome = decoder_outcome(self);
    self->buffer.busy = 0;
    return outcome;
}

/* alone(what, function, *arguments): calls the function with up to three arguments, unless `alone` is calling one for
 * the same use, "reader" or "writer", in another thread or in the code that a signal handler has interrupted. */
static PyObject *decoder_alone(PyObject *object, PyObject *const *args, Py_ssize_t count)
{
    Decoder *self = (Decoder *)object;
    PyObject *result;
    int *used, writes;

    if (count < 2 || count > 5)
        return PyErr_Format(PyExc_TypeError, "alone() takes a use, a function and up to three arguments");
    writes = PyUnicode_CompareWithASCIIString(args[0], "writer") == 0;
    used = writes ? &self->writing : &self->reading;
    if (*used || (!writes && self->buffer.busy))
        return PyErr_Format(PyExc_RuntimeError, "the %S is in use by another call", args[0]);
    *used = 1;
    result = PyObject_CallFunctionObjArgs(args[1], count > 2 ? args[2] : NULL, count > 3 ? args[3] : NULL,
                                          count > 4 ? args[4] : NULL, NULL);
    *used = 0;
    return result;
}

/* discard(): drops all bytes, and the rest of the frame that has begun, which is still to come. */
static PyObject *decoder_discard(PyObject *object, PyObject *none)
{
    Decoder *self = (Decoder *)object;

    (void)none;
    if (!buffer_take(&self->buffer, "decoder"))
        return NULL;
    while (decoder_find(self))
        self->found = 0;
    if (self->rest != DECODED || !jcobs_decoder_is_idle(&self->state))
        self->rest = DISCARDED;
    jcobs_decoder_reset(&self->state);
    self->buffer.busy = 0;
    Py_RETURN_NONE;
}

static PyObject *decoder_reset(PyObject *object, PyObject *none)
{
    Decoder *self = (Decoder *)object;

    (void)none;
    if (!buffer_take(&self->buffer, "decoder"))
        return NULL;
    decoder_clear(self);
    self->buffer.busy = 0;
    Py_RETURN_NONE;
}

/* Whether a frame has begun but not ended, in the bytes that aren't decoded yet too. */
static PyObject *decoder_unfinished(PyObject *object, void *closure)
{
    Decoder *self = (Decoder *)object;
    int begun;

    (void)closure;
    if (!buffer_take(&self->buffer, "decoder"))
        return NULL;
    if (decoder_left(self) > 0)
        begun = start_of(self->chunk)[PyBytes_Size(self->chunk) - 1] != self->sentinel;
    else
        begun = self->rest != DECODED || !jcobs_decoder_is_idle(&self->state);
    self->buffer.busy = 0;
    return PyBool_FromLong(begun);
}

/* Whether there are bytes that aren't decoded yet. */
static PyObject *decoder_pending(PyObject *object, void *closure)
{
    (void)closure;
    return PyBool_FromLong(((Decoder *)object)->found || decoder_left((Decoder *)object) > 0);
}

static PyMethodDef decoder_methods[] = {
    {"alone", FAST(decoder_alone), METH_FASTCALL, NULL},
    {"discard", decoder_discard, METH_NOARGS, NULL},
    {"feed", decoder_feed, METH_O, NULL},
    {"push", decoder_push, METH_O, NULL},
    {"receive", decoder_receive, METH_VARARGS, NULL},
    {"reset", decoder_reset, METH_NOARGS, NULL},
    {"take", decoder_take, METH_NOARGS, NULL},
    {NULL, NULL, 0, NULL},
};

static PyGetSetDef decoder_getset[] = {
    {"pending", decoder_pending, NULL, NULL, NULL},
    {"unfinished", decoder_unfinished, NULL, NULL, NULL},
    {NULL, NULL, NULL, NULL, NULL},
};

static PyType_Slot decoder_slots[] = {
    {Py_tp_new, decoder_new},
    {Py_tp_dealloc, decoder_dealloc},
    {Py_tp_iter, PyObject_SelfIter},
    {Py_tp_iternext, decoder_next},
    {Py_tp_methods, decoder_methods},
    {Py_tp_getset, decoder_getset},
    {0, NULL},
};

PyType_Spec decoder_spec = {
    "jcobs._core.Decoder", sizeof(Decoder), 0, Py_TPFLAGS_DEFAULT, decoder_slots,
};

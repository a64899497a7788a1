/* The type jcobs._core.Encoder: a streaming encoder with its buffer. */
#include "core.h"

typedef struct {
    PyObject_HEAD Buffer buffer;
    jcobs_encoder state;
    size_t max_length;
    size_t taken;
    unsigned char sentinel;
} Encoder;

static void encoder_clear(Encoder *self)
{
    jcobs_encoder_reset(&self->state);
    self->taken = 0;
}

static PyObject *encoder_new(PyTypeObject *type, PyObject *args, PyObject *kwargs)
{
    PyObject *length, *number;
    size_t max_length;
    unsigned char sentinel;
    Encoder *self;

    (void)kwargs;
    if (!PyArg_UnpackTuple(args, "Encoder", 2, 2, &length, &number) || !length_of(length, "max_length", &max_length) ||
        !sentinel_of(number, &sentinel))
        return NULL;
    self = new_object(type);
    if (self == NULL)
        return NULL;
    self->max_length = max_length;
    self->sentinel = sentinel;
    encoder_clear(self);
    if (!buffer_make(&self->buffer, jcobs_max_length(max_length))) {
        Py_DECREF(self);
        return NULL;
    }
    return (PyObject *)self;
}

static void encoder_dealloc(PyObject *self)
{
    PyMem_Free(((Encoder *)self)->buffer.start);
    free_object(self);
}

/* feed(data): takes the next bytes of the message, or none of them if the message would become too long. */
static PyObject *encoder_feed(PyObject *object, PyObject *data)
{
    Encoder *self = (Encoder *)object;
    PyObject *piece = bytes_of(data, "data");
    size_t len;
    int fits;

    if (piece == NULL)
        return NULL;
    if (!buffer_take(&self->buffer, "encoder")) {
        Py_DECREF(piece);
        return NULL;
    }
    len = (size_t)PyBytes_Size(piece);
    fits = len <= self->max_length - self->taken;
    if (fits) {
        const unsigned char *bytes = start_of(piece);
        PyThreadState *thread = release(len);
        jcobs_answer answer = jcobs_encoder_push(&self->state, self->buffer.start, self->buffer.len, bytes, len);
        restore(thread);
        (void)answer; /* there is always room for a message of max_length bytes */
        self->taken += len;
    } else {
        PyErr_Format(PyExc_ValueError, "the message is longer than max_length=%zu", self->max_length);
    }
    self->buffer.busy = 0;
    Py_DECREF(piece);
    if (!fits)
        return NULL;
    Py_RETURN_NONE;
}

/* finish(terminated): returns the frame of the message. After the call the encoder is in its initial state, even if
 * there was no memory for the frame. */
static PyObject *encoder_finish(PyObject *object, PyObject *args)
{
    Encoder *self = (Encoder *)object;
    PyObject *frame;
    jcobs_answer answer;
    int terminated;

    if (!PyArg_ParseTuple(args, "p:finish", &terminated) || !buffer_take(&self->buffer, "encoder"))
        return NULL;
    answer = jcobs_encoder_finish(&self->state, self->buffer.start, self->buffer.len);
    frame = room_of(answer.length + (size_t)terminated);
    if (frame != NULL) {
        unsigned char *to = start_of(frame);
        xor_each(to, self->buffer.start, answer.length, self->sentinel);
        if (terminated)
            to[answer.length] = self->sentinel;
    }
    encoder_clear(self);
    self->buffer.busy = 0;
    return frame;
}

static PyObject *encoder_reset(PyObject *object, PyObject *none)
{
    Encoder *self = (Encoder *)object;

    (void)none;
    if (!buffer_take(&self->buffer, "encoder"))
        return NULL;
    encoder_clear(self);
    self->buffer.busy = 0;
    Py_RETURN_NONE;
}

static PyMethodDef encoder_methods[] = {
    {"feed", encoder_feed, METH_O, NULL},
    {"finish", encoder_finish, METH_VARARGS, NULL},
    {"reset", encoder_reset, METH_NOARGS, NULL},
    {NULL, NULL, 0, NULL},
};

static PyType_Slot encoder_slots[] = {
    {Py_tp_new, encoder_new},
    {Py_tp_dealloc, encoder_dealloc},
    {Py_tp_methods, encoder_methods},
    {0, NULL},
};

PyType_Spec encoder_spec = {
    "jcobs._core.Encoder", sizeof(Encoder), 0, Py_TPFLAGS_DEFAULT, encoder_slots,
};

/* jcobs._core: the calls of libjcobs, for the package jcobs.
 *
 * The module is built for the stable ABI of CPython 3.9, so one file works with CPython 3.9 and every later version.
 * The module has no state: a decoder takes the classes of its outcomes as an argument. So the module works in every
 * subinterpreter.
 */
#ifndef JCOBS_CORE_H
#define JCOBS_CORE_H

#define PY_SSIZE_T_CLEAN
#include <Python.h>
#include <structmember.h>

#include "jcobs.h"

/* These macros call functions of CPython to change reference counts. CPython 3.12 shares immortal objects between
 * interpreters. The macros in the headers of earlier versions don't know about immortal objects, and change every
 * reference count inline. So with those macros, two threads could change the count of an immortal object at once, if
 * their interpreters have GILs of their own. */
#undef Py_INCREF
#undef Py_DECREF
#undef Py_XDECREF
#undef Py_RETURN_NONE
#define Py_INCREF(object) Py_IncRef((PyObject *)(object))
#define Py_DECREF(object) Py_DecRef((PyObject *)(object))
#define Py_XDECREF(object) Py_DecRef((PyObject *)(object)) /* Py_DecRef accepts NULL */
#define Py_RETURN_NONE return Py_IncRef(Py_None), Py_None

/* A call releases the GIL if its input has at least this many bytes. A call with a shorter input takes only a few
 * microseconds. */
#define LONG 32768

/* The flag of a function that gets its arguments as an array. The headers for the stable ABI name this flag only from
 * CPython 3.10 on, but CPython 3.9 has the flag too. */
#ifndef METH_FASTCALL
#define METH_FASTCALL 0x0080
#endif
#define FAST(function) ((PyCFunction)(void (*)(void))(function))

/* Returns an argument as a bytes object. A bytes object is returned as it is. The bytes of any other object with a
 * buffer are copied, so that no other thread or process can change the bytes while a call reads them. On failure,
 * raises an error and returns NULL. */
PyObject *bytes_of(PyObject *data, const char *name);

/* The name of a call, and the names of its arguments. The first argument is required, and may be passed by position or
 * by name. */
typedef struct {
    const char *call;
    Py_ssize_t count;
    const char *names[3];
} Signature;

/* Writes the arguments of a call to `found`, in the order of the signature, and returns 1. An argument that isn't
 * passed is NULL. On failure, raises TypeError and returns 0. */
int arguments_of(const Signature *signature, PyObject *const *args, Py_ssize_t count, PyObject *names,
                 PyObject **found);

/* Returns a pointer to the bytes of a bytes object, for calls of libjcobs. */
unsigned char *start_of(PyObject *bytes);

/* Converts an argument to a sentinel, writes the sentinel to `result`, and returns 1. If the argument is NULL, the
 * sentinel is 0. On failure, raises an error and returns 0. */
int sentinel_of(PyObject *number, unsigned char *result);

/* Converts an argument to a length, writes the length to `result`, and returns 1. On failure, raises an error and
 * returns 0. */
int length_of(PyObject *number, const char *name, size_t *result);

/* Releases the GIL if the input has at least LONG bytes. The caller passes the result to `restore`. */
PyThreadState *release(size_t len);

/* Takes the GIL back if it was released. */
void restore(PyThreadState *thread);

/* Returns a new bytes object of this length. The caller then writes the bytes. On failure, raises MemoryError and
 * returns NULL. */
PyObject *room_of(size_t len);

/* Shortens a bytes object that room_of returned, and returns it. The stable ABI has no call that shortens a bytes
 * object, but it lets a program set the size of an object. The memory after the new end stays unused. For a frame, at
 * most 1 byte in 254 stays unused. */
PyObject *cut(PyObject *bytes, size_t len);

/* XORs each of the bytes at `from` with the sentinel, and writes the results to `to`, which may be the same pointer as
 * `from`. */
void xor_each(unsigned char *to, const unsigned char *from, size_t len, unsigned char sentinel);

/* Pushes the next bytes of a stream to a decoder. Each frame of the stream was encoded with the given sentinel, and the
 * sentinel ends each frame. */
jcobs_answer push(jcobs_decoder *decoder, unsigned char *buffer, size_t room, const unsigned char *bytes, size_t len,
                  unsigned char sentinel);

/* Frees the object's memory, and then drops the object's reference to its class. */
void free_object(PyObject *self);

/* Returns a new object of the class. Its memory is zeroed. On failure, raises MemoryError and returns NULL. */
void *new_object(PyTypeObject *type);

/* A buffer for calls of libjcobs, with room for one message or frame. `busy` says whether a call is using the
 * buffer. */
typedef struct {
    unsigned char *start;
    size_t len;
    int busy;
} Buffer;

/* Makes the buffer, and returns 1. On failure, raises MemoryError and returns 0. */
int buffer_make(Buffer *buffer, size_t len);

/* Takes the buffer for a call, and returns 1. If another call is using the buffer, raises RuntimeError and returns 0.
 * The caller holds the GIL. */
int buffer_take(Buffer *buffer, const char *coder);

/* Returns whether an object is a class of outcomes. Such a class has no __init__ of its own (see _streams.py). */
int is_outcome(PyObject *class);

/* Returns a new object of a class of outcomes, with this data. On failure, raises MemoryError and returns NULL. */
PyObject *outcome_of(PyObject *class, PyObject *data);

extern PyType_Spec outcome_spec;
extern PyType_Spec decoder_spec;
extern PyType_Spec encoder_spec;

#endif

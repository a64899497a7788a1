/* The functions of the module, and the definition of the module. */
#include <stdlib.h>
#include <string.h>
#if defined(__x86_64__) && !defined(JCOBS_COMPILED)
#include <cpuid.h>
#endif

#include "core.h"

/* Decodes a frame that was encoded with the given sentinel. No sentinel comes before or after the frame. The caller's
 * buffer is always long enough. */
static jcobs_answer decode_frame(const unsigned char *frame, size_t len, unsigned char *message, size_t room,
                                 unsigned char sentinel)
{
    jcobs_decoder decoder = JCOBS_DECODER_INIT;

    if (sentinel == 0 || len == 0)
        return jcobs_decode(frame, len, message, room);
    (void)push(&decoder, message, room, frame, len, sentinel);
    return push(&decoder, message, room, &sentinel, 1, sentinel);
}

/* Encodes the message into a new bytes object, and returns this object. On failure, raises MemoryError and returns
 * NULL. */
static PyObject *encoded(PyObject *message, unsigned char sentinel, int terminated)
{
    size_t len = (size_t)PyBytes_Size(message), room = jcobs_max_length(len) + (size_t)terminated;
    const unsigned char *from = start_of(message);
    PyThreadState *thread;
    PyObject *frame = room_of(room);
    jcobs_answer answer;
    unsigned char *to;

    if (frame == NULL)
        return NULL;
    to = start_of(frame);
    thread = release(len);
    answer = terminated ? jcobs_encode_terminated_with_sentinel(from, len, to, room, sentinel)
                        : jcobs_encode_with_sentinel(from, len, to, room, sentinel);
    restore(thread);
    return cut(frame, answer.length);
}

static const Signature of_encode = {"encode", 3, {"data", "sentinel", "terminated"}};
static const Signature of_decode = {"decode", 2, {"frame", "sentinel", NULL}};
static const Signature of_frame_kind = {"frame_kind", 2, {"frame", "sentinel", NULL}};

static PyObject *core_encode(PyObject *module, PyObject *const *args, Py_ssize_t count, PyObject *names)
{
    PyObject *found[3], *message, *frame;
    unsigned char sentinel;
    int terminated;

    (void)module;
    if (!arguments_of(&of_encode, args, count, names, found) || !sentinel_of(found[1], &sentinel))
        return NULL;
    terminated = found[2] == NULL ? 0 : PyObject_IsTrue(found[2]);
    if (terminated < 0)
        return NULL;
    message = bytes_of(found[0], "data");
    if (message == NULL)
        return NULL;
    frame = encoded(message, sentinel, terminated);
    Py_DECREF(message);
    return frame;
}

/* Decodes the first frame of the source into a new bytes object, and returns this object. On failure, raises
 * MemoryError and returns NULL. */
static PyObject *decoded(PyObject *source, unsigned char sentinel, unsigned int *status)
{
    size_t len = (size_t)PyBytes_Size(source), room;
    const unsigned char *from = start_of(source), *end;
    PyThreadState *thread;
    PyObject *message;
    jcobs_answer answer;
    unsigned char *to;

    for (; len > 0 && *from == sentinel; len--)
        from++;
    end = memchr(from, sentinel, len);
    len = end == NULL ? len : (size_t)(end - from);
    room = len == 0 ? 0 : len - 1; /* a frame has at least one code */
    message = room_of(room);
    if (message == NULL)
        return NULL;
    to = start_of(message);
    thread = release(len);
    answer = decode_frame(from, len, to, room, sentinel);
    restore(thread);
    *status = answer.status;
    return cut(message, answer.length);
}

/* Raises jcobs.DecodeError, which is a class in Python. */
static void raise_decode_error(const char *kind, PyObject *data)
{
    PyObject *package = PyImport_ImportModule("jcobs"), *class = NULL, *raised = NULL;

    if (package != NULL)
        class = PyObject_GetAttrString(package, "DecodeError");
    if (class != NULL)
        raised = PyObject_CallFunction(class, "sO", kind, data);
    if (raised != NULL)
        PyErr_SetObject(class, raised);
    Py_XDECREF(raised);
    Py_XDECREF(class);
    Py_XDECREF(package);
}

static PyObject *core_decode(PyObject *module, PyObject *const *args, Py_ssize_t count, PyObject *names)
{
    PyObject *found[2], *frame, *message;
    unsigned int status = JCOBS_OK;
    unsigned char sentinel;

    (void)module;
    if (!arguments_of(&of_decode, args, count, names, found) || !sentinel_of(found[1], &sentinel))
        return NULL;
    frame = bytes_of(found[0], "frame");
    if (frame == NULL)
        return NULL;
    message = decoded(frame, sentinel, &status);
    Py_DECREF(frame);
    if (message == NULL || status == JCOBS_OK)
        return message;
    raise_decode_error(status == JCOBS_EMPTY ? "empty" : "broken", message);
    Py_DECREF(message);
    return NULL;
}

/* Returns the bytes XORed with the sentinel, as a new reference. */
static PyObject *xored(PyObject *bytes, unsigned char sentinel)
{
    size_t len = (size_t)PyBytes_Size(bytes);
    PyObject *result;

    if (sentinel == 0) {
        Py_INCREF(bytes);
        return bytes;
    }
    result = room_of(len);
    if (result != NULL)
        xor_each(start_of(result), start_of(bytes), len, sentinel);
    return result;
}

static PyObject *core_frame_kind(PyObject *module, PyObject *const *args, Py_ssize_t count, PyObject *names)
{
    static const char *const kinds[] = {"not_a_frame", "canonical", "longer"};
    PyObject *found[2], *frame, *zero_frame;
    const unsigned char *from;
    PyThreadState *thread;
    unsigned char sentinel;
    unsigned int kind;
    size_t len;

    (void)module;
    if (!arguments_of(&of_frame_kind, args, count, names, found) || !sentinel_of(found[1], &sentinel))
        return NULL;
    frame = bytes_of(found[0], "frame");
    if (frame == NULL)
        return NULL;
    zero_frame = xored(frame, sentinel);
    Py_DECREF(frame);
    if (zero_frame == NULL)
        return NULL;
    len = (size_t)PyBytes_Size(zero_frame);
    from = start_of(zero_frame);
    thread = release(len);
    kind = jcobs_frame_kind(from, len);
    restore(thread);
    Py_DECREF(zero_frame);
    return PyUnicode_InternFromString(kinds[kind]);
}

static PyObject *core_max_frame_length(PyObject *module, PyObject *const *args, Py_ssize_t count, PyObject *names)
{
    static const Signature of_max_length = {"max_frame_length", 1, {"length", NULL, NULL}};
    PyObject *found[1];
    size_t len;

    (void)module;
    if (!arguments_of(&of_max_length, args, count, names, found) || !length_of(found[0], "length", &len))
        return NULL;
    return PyLong_FromSize_t(jcobs_max_length(len));
}

/* The documentation of the functions. inspect.signature reads the arguments from the first line of each text. The
 * functions of _plain.py have the same documentation; the tests compare the two texts. */
static const char encode_document[] =
    "encode(data, *, sentinel=0, terminated=False)\n--\n\n"
    "Encodes a message, and returns its frame. If `terminated` is true, a sentinel follows the frame.\n\n"
    ">>> jcobs.encode(b\"hello\")\n"
    "b'\\x06hello'\n"
    ">>> jcobs.encode(b\"hello\", sentinel=10, terminated=True)\n"
    "b'\\x0cboffe\\n'";
static const char decode_document[] =
    "decode(frame, *, sentinel=0)\n--\n\n"
    "Decodes a frame, and returns its message.\n\n"
    "Leading sentinels are skipped, and the frame ends at the next sentinel or at the last byte. The bytes after the\n"
    "sentinel that ends the frame are ignored: to decode more than one frame, use a `Decoder`.\n\n"
    "Raises `DecodeError` if the frame breaks off inside a block, or if there is no frame.\n\n"
    ">>> jcobs.decode(b\"\\x06hello\")\n"
    "b'hello'\n"
    ">>> jcobs.decode(b\"\\x06hello\\x00\")\n"
    "b'hello'";
static const char frame_kind_document[] =
    "frame_kind(frame, *, sentinel=0)\n--\n\n"
    "Returns whether bytes are a frame, and if so, whether `encode` returns this frame.\n\n"
    "Pass the bytes without the sentinels before and after them. The result is \"canonical\" if `encode` returns this\n"
    "frame for some message. It is \"longer\" if the frame has one needless block at its end; decoders accept such a\n"
    "frame. It is \"not_a_frame\" if the bytes aren't a frame.\n\n"
    ">>> jcobs.frame_kind(b\"\\x06hello\")\n"
    "'canonical'\n"
    ">>> jcobs.frame_kind(b\"\\x06hel\")\n"
    "'not_a_frame'";
static const char max_frame_length_document[] =
    "max_frame_length(length)\n--\n\n"
    "Returns the length of the longest frame that a message of `length` bytes can have, not counting a sentinel.\n\n"
    ">>> jcobs.max_frame_length(254), jcobs.max_frame_length(255)\n"
    "(255, 257)";

static PyMethodDef functions[] = {
    {"encode", FAST(core_encode), METH_FASTCALL | METH_KEYWORDS, encode_document},
    {"decode", FAST(core_decode), METH_FASTCALL | METH_KEYWORDS, decode_document},
    {"frame_kind", FAST(core_frame_kind), METH_FASTCALL | METH_KEYWORDS, frame_kind_document},
    {"max_frame_length", FAST(core_max_frame_length), METH_FASTCALL | METH_KEYWORDS, max_frame_length_document},
    {NULL, NULL, 0, NULL},
};

/* Adds a type to the module, and returns 0. On failure, raises an error and returns -1. */
static int add_type(PyObject *module, const char *name, PyType_Spec *spec)
{
    PyObject *type = PyType_FromSpec(spec);

    if (type == NULL || PyModule_AddObject(module, name, type) < 0) {
        Py_XDECREF(type);
        return -1;
    }
    return 0;
}

/* The name of the code that encodes and decodes. "prebuilt" is libjcobs, which Rattle's compiler built from the proved
 * source. "compiled" is jcobs.c, which is compiled together with this file. */
#ifdef JCOBS_COMPILED
#define BACKEND "compiled"
#else
#define BACKEND "prebuilt"
#endif

static int fill(PyObject *module)
{
    return PyModule_AddStringConstant(module, "backend", BACKEND) < 0 ||
                   PyModule_AddStringConstant(module, "version", JCOBS_PACKAGE) < 0 ||
                   add_type(module, "Outcome", &outcome_spec) < 0 || add_type(module, "Decoder", &decoder_spec) < 0 ||
                   add_type(module, "Encoder", &encoder_spec) < 0
               ? -1
               : 0;
}

/* CPython 3.12 has a slot with which a module says that it may be imported into an interpreter with a GIL of its own.
 * Older versions raise an error for this slot, and the headers for the stable ABI of 3.9 don't name it. */
#define MULTIPLE_INTERPRETERS 3
#define PER_INTERPRETER_GIL_SUPPORTED ((void *)2)

static PyModuleDef_Slot slots[] = {{Py_mod_exec, fill}, {0, NULL}};
static PyModuleDef_Slot slots_of_312[] = {
    {Py_mod_exec, fill}, {MULTIPLE_INTERPRETERS, PER_INTERPRETER_GIL_SUPPORTED}, {0, NULL}};

static PyModuleDef definition = {
    PyModuleDef_HEAD_INIT, "jcobs._core", NULL, 0, functions, slots, NULL, NULL, NULL,
};
static PyModuleDef definition_of_312 = {
    PyModuleDef_HEAD_INIT, "jcobs._core", NULL, 0, functions, slots_of_312, NULL, NULL, NULL,
};

/* Returns whether the processor has the instructions that the library was built for. */
static int has_processor(void)
{
#if defined(__x86_64__) && !defined(JCOBS_COMPILED)
    unsigned int a, b, c = 0, d;

    return __get_cpuid(1, &a, &b, &c, &d) && (c & bit_SSE4_2) && (c & bit_POPCNT);
#else
    return 1;
#endif
}

PyMODINIT_FUNC PyInit__core(void)
{
    /* The version's text begins with "3.". */
    long minor = strtol(Py_GetVersion() + 2, NULL, 10);

    if (!has_processor()) {
        PyErr_SetString(PyExc_ImportError, "the processor has no SSE4.2 and POPCNT");
        return NULL;
    }
    return PyModuleDef_Init(minor >= 12 ? &definition_of_312 : &definition);
}

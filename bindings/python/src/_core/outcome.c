/* The type jcobs._core.Outcome. */
#include "core.h"

/* The outcome of a piece of a stream: the base of Message, Broken and TooLong. */
typedef struct {
    PyObject_HEAD PyObject *data;
} Outcome;

static PyObject *outcome_make(PyTypeObject *type, PyObject *data)
{
    Outcome *self = (Outcome *)PyType_GenericAlloc(type, 0);

    if (self != NULL) {
        Py_INCREF(data);
        self->data = data;
    }
    return (PyObject *)self;
}

/* Raises TypeError, because the caller didn't pass exactly one argument `data`, or passed one that isn't bytes. */
static PyObject *outcome_wrong(PyTypeObject *type, PyObject *data)
{
    PyObject *name = PyObject_GetAttrString((PyObject *)type, "__name__"), *given = NULL;

    if (name != NULL && data == NULL)
        PyErr_Format(PyExc_TypeError, "%U() takes one argument, 'data'", name);
    else if (name != NULL)
        given = PyObject_GetAttrString((PyObject *)Py_TYPE(data), "__name__");
    if (given != NULL)
        PyErr_Format(PyExc_TypeError, "%U() argument 'data' must be bytes, not %U", name, given);
    Py_XDECREF(given);
    Py_XDECREF(name);
    return NULL;
}

static PyObject *outcome_new(PyTypeObject *type, PyObject *args, PyObject *kwargs)
{
    Py_ssize_t named = kwargs == NULL ? 0 : PyDict_Size(kwargs);
    PyObject *data = NULL;

    if (PyTuple_Size(args) + named == 1)
        data = named == 0 ? PyTuple_GetItem(args, 0) : PyDict_GetItemString(kwargs, "data");
    return data != NULL && PyBytes_Check(data) ? outcome_make(type, data) : outcome_wrong(type, data);
}

int is_outcome(PyObject *class)
{
    return PyType_Check(class) && (PyType_GetFlags((PyTypeObject *)class) & Py_TPFLAGS_HEAPTYPE) &&
           PyType_GetSlot((PyTypeObject *)class, Py_tp_new) == (void *)outcome_new;
}

PyObject *outcome_of(PyObject *class, PyObject *data)
{
    return outcome_make((PyTypeObject *)class, data);
}

static void outcome_dealloc(PyObject *self)
{
    Py_XDECREF(((Outcome *)self)->data);
    free_object(self);
}

static PyObject *outcome_repr(PyObject *self)
{
    PyObject *repr = NULL, *name = PyObject_GetAttrString((PyObject *)Py_TYPE(self), "__name__");

    if (name != NULL)
        repr = PyUnicode_FromFormat("%U(%R)", name, ((Outcome *)self)->data);
    Py_XDECREF(name);
    return repr;
}

static Py_hash_t outcome_hash(PyObject *self)
{
    return PyObject_Hash(((Outcome *)self)->data);
}

static PyObject *outcome_compare(PyObject *self, PyObject *other, int operation)
{
    if ((operation != Py_EQ && operation != Py_NE) || Py_TYPE(self) != Py_TYPE(other)) {
        Py_INCREF(Py_NotImplemented);
        return Py_NotImplemented;
    }
    return PyObject_RichCompare(((Outcome *)self)->data, ((Outcome *)other)->data, operation);
}

/* Returns a tuple of the class, its argument and the attributes that a subclass has added. Python's modules `copy` and
 * `pickle` make a copy from this tuple. */
static PyObject *outcome_reduce(PyObject *self, PyObject *none)
{
    PyObject *added = PyObject_GetAttrString(self, "__dict__");

    (void)none;
    if (added == NULL) {
        PyErr_Clear();
        added = Py_None;
        Py_INCREF(added);
    }
    return Py_BuildValue("O(O)N", Py_TYPE(self), ((Outcome *)self)->data, added);
}

static PyMethodDef outcome_methods[] = {
    {"__reduce__", outcome_reduce, METH_NOARGS, NULL},
    {NULL, NULL, 0, NULL},
};

static PyMemberDef outcome_members[] = {
    {"data", T_OBJECT_EX, offsetof(Outcome, data), READONLY, "The bytes that the piece decodes to."},
    {NULL, 0, 0, 0, NULL},
};

static PyType_Slot outcome_slots[] = {
    {Py_tp_doc, "Outcome(data)\n--\n\nThe outcome of a piece of a stream."},
    {Py_tp_new, outcome_new},
    {Py_tp_dealloc, outcome_dealloc},
    {Py_tp_repr, outcome_repr},
    {Py_tp_hash, outcome_hash},
    {Py_tp_richcompare, outcome_compare},
    {Py_tp_members, outcome_members},
    {Py_tp_methods, outcome_methods},
    {0, NULL},
};

PyType_Spec outcome_spec = {
    "jcobs._core.Outcome", sizeof(Outcome), 0, Py_TPFLAGS_DEFAULT | Py_TPFLAGS_BASETYPE, outcome_slots,
};

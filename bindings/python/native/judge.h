/* The calls of a judge, for Python: what _verdicts.py does over ctypes, with the same results. */
#ifndef JUDGE_H
#define JUDGE_H

typedef struct {
    PyObject_HEAD
    osi_judge *slot;
} JudgeCalls;

/* An iterator over the verdicts of a judge that are certain. Once it has found no more, it stays at its end: then the judge is NULL. */
typedef struct {
    PyObject_HEAD
    PyObject *judge;
} Verdicts;

static PyTypeObject *verdicts_type;

static osi_judge *judge_of(PyObject *self)
{
    osi_judge *slot = ((JudgeCalls *)self)->slot;
    if (slot == NULL)
        PyErr_SetString(PyExc_RuntimeError, "Judge.__init__ was not called");
    return slot;
}

/* A side. Returns false, with an exception, if it is none. */
static bool side_of(PyObject *value, uint32_t *side)
{
    PyObject *made;
    unsigned long n = PyLong_AsUnsignedLong(value);
    if (PyErr_Occurred() != NULL || n > OSI_RIGHT) {
        PyErr_Clear();
        made = PyObject_CallFunctionObjArgs(package.judged_side, value, NULL);
        if (made == NULL)
            return false;
        n = PyLong_AsUnsignedLong(made);
        Py_DECREF(made);
    }
    *side = (uint32_t)n;
    return PyErr_Occurred() == NULL;
}

/* The number of a connection; OSI_NO_CONNECTION for None. Returns false, with an exception, if it is none. */
static bool connection_of(PyObject *value, uint64_t *number)
{
    *number = value == Py_None ? OSI_NO_CONNECTION : PyLong_AsUnsignedLongLong(value);
    if (PyErr_Occurred() == NULL)
        return true;
    if (PyErr_ExceptionMatches(PyExc_OverflowError))
        PyErr_Format(PyExc_ValueError, "no number of a connection: %S", value);
    return false;
}

static PyObject *verdict_of(const osi_verdict *shown)
{
    return PyObject_CallFunction(package.verdict, "N", PyLong_FromVoidPtr((void *)(uintptr_t)shown));
}

static PyObject *next_verdict(PyObject *self)
{
    Verdicts *verdicts = (Verdicts *)self;
    osi_verdict shown;
    uint32_t code;
    osi_judge *slot = verdicts->judge == NULL ? NULL : judge_of(verdicts->judge);
    if (slot == NULL)
        return NULL;
    code = osi.judge_next(slot, &shown);
    if (code == OSI_OK)
        return verdict_of(&shown);
    Py_CLEAR(verdicts->judge);
    return code == OSI_NOTHING ? NULL : refused(code);
}

static PyObject *verdicts_of(PyObject *judge)
{
    Verdicts *made = PyObject_New(Verdicts, verdicts_type);
    if (made == NULL)
        return NULL;
    Py_INCREF(judge);
    made->judge = judge;
    return (PyObject *)made;
}

static void free_verdicts(PyObject *self)
{
    PyTypeObject *type = Py_TYPE(self);
    Py_XDECREF(((Verdicts *)self)->judge);
    PyObject_Free(self);
    Py_DECREF(type);
}

static PyType_Slot verdicts_slots[] = {
    {Py_tp_dealloc, free_verdicts},
    {Py_tp_iter, PyObject_SelfIter},
    {Py_tp_iternext, next_verdict},
    {0, NULL},
};
static PyType_Spec verdicts_spec = {"osi_session._native.Verdicts", sizeof(Verdicts), 0, Py_TPFLAGS_DEFAULT, verdicts_slots};

/* ---- calls */

static PyObject *judge_feed(PyObject *self, PyObject *given, PyObject *named)
{
    static char *keywords[] = {"side", "piece", NULL};
    PyObject *arguments[3] = {NULL, NULL, NULL}, *kept;
    osi_octets octets;
    uint32_t side, code;
    size_t used;
    bool is_side;
    osi_judge *slot = judge_of(self);
    if (slot == NULL || !arguments_of(given, named, "OO", keywords, 2, 2, arguments)
        || (kept = octets_of(arguments[1], &octets)) == NULL)
        return NULL;
    is_side = side_of(arguments[0], &side);
    code = is_side ? osi.judge_feed(slot, side, octets.at, octets.length, &used) : OSI_BAD_ARGUMENT;
    Py_DECREF(kept);
    if (!is_side)
        return NULL;
    return code == OSI_OK ? verdicts_of(self) : refused(code);
}

static PyObject *judge_verdicts(PyObject *self, PyObject *unused)
{
    (void)unused;
    return verdicts_of(self);
}

static PyObject *judge_verdict(PyObject *self, PyObject *given, PyObject *named)
{
    static char *keywords[] = {"connection", "side", NULL};
    PyObject *arguments[3] = {NULL, NULL, NULL};
    osi_verdict shown;
    uint64_t connection;
    uint32_t side, code;
    osi_judge *slot = judge_of(self);
    if (slot == NULL || !arguments_of(given, named, "OO", keywords, 2, 2, arguments) || !connection_of(arguments[0], &connection)
        || !side_of(arguments[1], &side))
        return NULL;
    code = osi.judge_verdict(slot, connection, side, &shown);
    return code == OSI_OK ? verdict_of(&shown) : refused(code);
}

static PyObject *judge_connections(PyObject *self, PyObject *unused)
{
    uint64_t connections;
    uint32_t code;
    osi_judge *slot = judge_of(self);
    (void)unused;
    if (slot == NULL)
        return NULL;
    code = osi.judge_connections(slot, &connections);
    return code == OSI_OK ? PyLong_FromUnsignedLongLong(connections) : refused(code);
}

static PyObject *judge_text(PyObject *self, PyObject *unused)
{
    osi_octets text;
    uint32_t code;
    osi_judge *slot = judge_of(self);
    (void)unused;
    if (slot == NULL)
        return NULL;
    code = osi.judge_write(slot);
    if (code != OSI_OK)
        return refused(code);
    osi.judge_text(slot, &text);
    return PyUnicode_DecodeUTF8((const char *)text.at, (Py_ssize_t)text.length, NULL);
}

static PyObject *judge_attach(PyObject *self, PyObject *address)
{
    void *slot = PyLong_AsVoidPtr(address);
    if (slot == NULL && PyErr_Occurred() != NULL)
        return NULL;
    ((JudgeCalls *)self)->slot = slot;
    Py_RETURN_NONE;
}

static PyMethodDef judge_methods[] = {
    {"feed", WITH_NAMES(judge_feed), NULL},
    {"verdicts", judge_verdicts, METH_NOARGS, NULL},
    {"verdict", WITH_NAMES(judge_verdict), NULL},
    {"connections", judge_connections, METH_NOARGS, NULL},
    {"text", judge_text, METH_NOARGS, NULL},
    {"_attach", judge_attach, METH_O, NULL},
    {NULL, NULL, 0, NULL},
};

static void free_judge(PyObject *self)
{
    PyTypeObject *type = Py_TYPE(self);
    freefunc release = (freefunc)PyType_GetSlot(type, Py_tp_free);
    release(self);
    Py_DECREF(type);
}

static PyType_Slot judge_slots[] = {{Py_tp_methods, judge_methods}, {Py_tp_dealloc, free_judge}, {0, NULL}};
static PyType_Spec judge_spec = {
    "osi_session._native.JudgeCalls", sizeof(JudgeCalls), 0, Py_TPFLAGS_DEFAULT | Py_TPFLAGS_BASETYPE, judge_slots,
};
#endif

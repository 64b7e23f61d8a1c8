/* The calls of an end that a program makes for each message, for Python: what _calls.py does over ctypes, with the same results.
 * judge.h has those of a judge.
 *
 * It is built for the limited API of Python 3.9, so that one file serves that version and all later ones. It is not linked with
 * libosi-session: the package loads the library and hands over the addresses of its functions (`bind`). No call here lets another
 * thread run, and the package loads the library in such a way that none of its own calls does. So no two calls of one end overlap. */
#include "package.h"

typedef struct {
    PyObject_HEAD
    osi_end *slot;
    /* Whether a trace has lines to be told. */
    bool traces;
    /* The pieces that are not fed yet, as a list, and how many octets of the first are. NULL before the first piece. */
    PyObject *unfed;
    size_t used;
} Calls;

enum { RECEIVED, SENT };

/* ---- arguments */

/* Raises what is wrong with a number that should have so many bits. */
static PyObject *not_within(const char *name, PyObject *value, unsigned bits)
{
    PyObject *answer = PyObject_CallFunction(package.within, "sOI", name, value, bits);
    if (answer == NULL)
        return NULL;
    Py_DECREF(answer);
    return PyErr_Format(PyExc_TypeError, "%s is no int", name);
}

/* A number of so many bits. Returns false, with an exception, if it is something else. */
static bool number_of(PyObject *value, const char *name, unsigned bits, uint32_t *number)
{
    const unsigned long n = PyLong_AsUnsignedLong(value);
    if (PyErr_Occurred() == NULL && n >> bits == 0) {
        *number = (uint32_t)n;
        return true;
    }
    PyErr_Clear();
    not_within(name, value, bits);
    return false;
}

/* The octets of an argument. Returns what keeps them, or NULL with an exception. */
static PyObject *octets_of(PyObject *value, osi_octets *octets)
{
    char *at;
    Py_ssize_t length;
    PyObject *kept = PyBytes_CheckExact(value) ? (Py_INCREF(value), value) : PyObject_CallFunctionObjArgs(package.octets, value, NULL);
    if (kept == NULL || PyBytes_AsStringAndSize(kept, &at, &length) < 0) {
        Py_XDECREF(kept);
        return NULL;
    }
    octets->at = (const uint8_t *)at;
    octets->length = (size_t)length;
    return kept;
}

static osi_end *slot_of(PyObject *self)
{
    osi_end *slot = ((Calls *)self)->slot;
    if (slot == NULL)
        PyErr_SetString(PyExc_RuntimeError, "End.__init__ was not called");
    return slot;
}

/* ---- values */

/* A value of a frozen dataclass, without its __init__. */
static PyObject *new_value(PyObject *type)
{
    static PyObject *no_arguments;
    newfunc make = (newfunc)PyType_GetSlot((PyTypeObject *)type, Py_tp_new);
    if (no_arguments == NULL && (no_arguments = PyTuple_New(0)) == NULL)
        return NULL;
    return make((PyTypeObject *)type, no_arguments, NULL);
}

/* Sets a field of such a value, and takes over the reference of what it is set to. Returns false, with an exception, if that is NULL
   or there is no memory. */
static bool set(PyObject *value, PyObject *name, PyObject *to)
{
    const bool is_set = to != NULL && PyObject_GenericSetAttr(value, name, to) == 0;
    Py_XDECREF(to);
    return is_set;
}

static PyObject *kept_if(PyObject *value, bool is_good)
{
    if (is_good)
        return value;
    Py_XDECREF(value);
    return NULL;
}

static PyObject *user_data_of(const osi_indication *said)
{
    return PyBytes_FromStringAndSize((const char *)said->user_data.at, (Py_ssize_t)said->user_data.length);
}

/* An indication that has a number or none, and user data. */
static PyObject *indication_of(PyObject *type, const osi_indication *said)
{
    PyObject *made = new_value(type);
    bool is_good = made != NULL && set(made, names.reference, PyLong_FromLong(said->reference));
    if (type != package.data)
        is_good = is_good && set(made, names.number, PyLong_FromUnsignedLong(said->number));
    if (type == package.minor)
        is_good = is_good && set(made, names.confirm, PyBool_FromLong(said->confirm));
    return kept_if(made, is_good && set(made, names.user_data, user_data_of(said)));
}

static PyObject *shown_by(const osi_indication *said)
{
    PyObject *user_data, *made;
    switch (said->tag) {
    case OSI_DATA:
        return indication_of(package.data, said);
    case OSI_MINOR:
        return indication_of(package.minor, said);
    case OSI_MINOR_CONFIRMED:
        return indication_of(package.minor_confirmed, said);
    }
    user_data = user_data_of(said);
    if (user_data == NULL)
        return NULL;
    made = PyObject_CallFunction(package.made, "INO", (unsigned)said->tag, PyLong_FromVoidPtr((void *)(uintptr_t)said), user_data);
    Py_DECREF(user_data);
    return made;
}

/* The next indication; NULL without an exception if none is pending. */
static PyObject *fetched(osi_end *slot)
{
    osi_indication said;
    if (osi.fetch(slot) != OSI_OK)
        return NULL;
    osi.last_with_size(slot, &said, sizeof said);
    return shown_by(&said);
}

/* ---- calls */

static PyObject *refused(uint32_t code)
{
    return PyObject_CallFunction(package.refused, "I", (unsigned)code);
}

/* The answer of a call of a user: None, after a look whether somebody writes what is outgoing now; or an exception. */
static PyObject *done(PyObject *self, uint32_t code)
{
    PyObject *call, *answer;
    if (code != OSI_OK)
        return refused(code);
    call = PyObject_GetAttr(self, names.on_outgoing);
    if (call == NULL || call == Py_None)
        return call;
    answer = PyObject_CallObject(call, NULL);
    Py_DECREF(call);
    if (answer == NULL)
        return NULL;
    Py_DECREF(answer);
    Py_RETURN_NONE;
}

/* The arguments of a call: `most` at most, of which the first `least` have to be there. The others stay as they are. */
static bool arguments_of(PyObject *given, PyObject *named, const char *format, char **keywords, Py_ssize_t least, Py_ssize_t most,
                         PyObject **arguments)
{
    const Py_ssize_t count = PyTuple_Size(given);
    if (named == NULL && count >= least && count <= most) {
        for (Py_ssize_t i = 0; i < count; i++)
            arguments[i] = PyTuple_GetItem(given, i);
        return true;
    }
    return PyArg_ParseTupleAndKeywords(given, named, format, keywords, &arguments[0], &arguments[1], &arguments[2]);
}

/* The one argument of a call. */
static PyObject *argument_of(PyObject *given, PyObject *named, const char *name)
{
    char *keywords[] = {(char *)name, NULL};
    PyObject *arguments[3] = {NULL, NULL, NULL};
    return arguments_of(given, named, "O", keywords, 1, 1, arguments) ? arguments[0] : NULL;
}

/* The arguments of calls that have a reference and user data, and perhaps something between. */
struct said {
    osi_end *slot;
    uint32_t reference, between;
    osi_octets octets;
    /* What keeps the octets: NULL if there are none, as by default. */
    PyObject *kept;
};

static bool said_of(PyObject *self, PyObject *reference, PyObject *user_data, struct said *said)
{
    said->slot = slot_of(self);
    said->kept = NULL;
    said->octets = (osi_octets){NULL, 0};
    if (said->slot == NULL || !number_of(reference, "reference", 16, &said->reference))
        return false;
    return user_data == NULL || (said->kept = octets_of(user_data, &said->octets)) != NULL;
}

static PyObject *answered(PyObject *self, struct said *said, uint32_t code)
{
    Py_XDECREF(said->kept);
    return done(self, code);
}

/* A call with user data alone, of which `least` tells whether it has to be given. */
static PyObject *say(PyObject *self, PyObject *given, PyObject *named, call_with_octets *call, Py_ssize_t least)
{
    static char *keywords[] = {"reference", "user_data", NULL};
    PyObject *arguments[3] = {NULL, NULL, NULL};
    struct said said;
    if (!arguments_of(given, named, least == 2 ? "OO" : "O|O", keywords, least, 2, arguments)
        || !said_of(self, arguments[0], arguments[1], &said))
        return NULL;
    return answered(self, &said, call(said.slot, (uint16_t)said.reference, said.octets.at, said.octets.length));
}

#define CALL_WITH_OCTETS(name, least) \
    static PyObject *call_##name(PyObject *self, PyObject *given, PyObject *named) \
    { \
        return say(self, given, named, osi.name, least); \
    }
CALL_WITH_OCTETS(refuse, 1)
CALL_WITH_OCTETS(data, 2)
CALL_WITH_OCTETS(major, 1)
CALL_WITH_OCTETS(major_confirm, 1)
CALL_WITH_OCTETS(release, 1)
CALL_WITH_OCTETS(release_accept, 1)
CALL_WITH_OCTETS(release_refuse, 1)
CALL_WITH_OCTETS(abort, 1)

static PyObject *call_give(PyObject *self, PyObject *given, PyObject *named)
{
    static char *keywords[] = {"reference", "tokens", NULL};
    PyObject *arguments[3] = {NULL, NULL, NULL};
    struct said said;
    if (!arguments_of(given, named, "OO", keywords, 2, 2, arguments) || !said_of(self, arguments[0], NULL, &said)
        || !number_of(arguments[1], "tokens", 8, &said.between))
        return NULL;
    return done(self, osi.give(said.slot, (uint16_t)said.reference, (uint8_t)said.between));
}

static PyObject *call_please(PyObject *self, PyObject *given, PyObject *named)
{
    static char *keywords[] = {"reference", "tokens", "user_data", NULL};
    PyObject *arguments[3] = {NULL, NULL, NULL};
    struct said said;
    if (!arguments_of(given, named, "OO|O", keywords, 2, 3, arguments) || !number_of(arguments[1], "tokens", 8, &said.between)
        || !said_of(self, arguments[0], arguments[2], &said))
        return NULL;
    return answered(self, &said, osi.please(said.slot, (uint16_t)said.reference, (uint8_t)said.between, said.octets.at, said.octets.length));
}

static PyObject *call_minor(PyObject *self, PyObject *given, PyObject *named)
{
    static char *keywords[] = {"reference", "confirm", "user_data", NULL};
    PyObject *arguments[3] = {NULL, NULL, NULL};
    struct said said;
    int confirm = 1;
    if (!arguments_of(given, named, "O|OO", keywords, 1, 3, arguments)
        || (arguments[1] != NULL && (confirm = PyObject_IsTrue(arguments[1])) < 0)
        || !said_of(self, arguments[0], arguments[2], &said))
        return NULL;
    return answered(self, &said, osi.minor(said.slot, (uint16_t)said.reference, (uint8_t)confirm, said.octets.at, said.octets.length));
}

static PyObject *call_minor_confirm(PyObject *self, PyObject *given, PyObject *named)
{
    static char *keywords[] = {"reference", "number", "user_data", NULL};
    PyObject *arguments[3] = {NULL, NULL, NULL};
    struct said said;
    if (!arguments_of(given, named, "OO|O", keywords, 2, 3, arguments) || !number_of(arguments[1], "number", 32, &said.between)
        || !said_of(self, arguments[0], arguments[2], &said))
        return NULL;
    return answered(self, &said, osi.minor_confirm(said.slot, (uint16_t)said.reference, said.between, said.octets.at, said.octets.length));
}

/* ---- octets */

/* Tells the lines of a trace. */
static bool told(PyObject *self, int direction)
{
    PyObject *answer;
    if (!((Calls *)self)->traces)
        return true;
    answer = PyObject_CallMethodObjArgs(self, names.tell, direction == SENT ? package.sent : package.received, NULL);
    Py_XDECREF(answer);
    return answer != NULL;
}

/* Feeds a piece. Returns false, with an exception, if the slot is empty. */
static bool fed(PyObject *self, const uint8_t *at, size_t length, osi_fed *said)
{
    uint32_t code;
    osi_end *slot = slot_of(self);
    if (slot == NULL)
        return false;
    code = osi.feed(slot, at, length, said);
    if (code != OSI_OK) {
        Py_XDECREF(refused(code));
        return false;
    }
    return told(self, RECEIVED);
}

/* How many pieces are not fed yet. */
static Py_ssize_t pieces_of(PyObject *self)
{
    PyObject *unfed = ((Calls *)self)->unfed;
    return unfed == NULL ? 0 : PyList_Size(unfed);
}

/* Feeds the first of them. */
static bool fed_first(PyObject *self, osi_fed *said)
{
    Calls *end = (Calls *)self;
    PyObject *piece = PyList_GetItem(end->unfed, 0);
    const size_t length = (size_t)PyBytes_Size(piece);
    bool is_fed;
    Py_INCREF(piece);
    is_fed = fed(self, (const uint8_t *)PyBytes_AsString(piece) + end->used, length - end->used, said);
    Py_DECREF(piece);
    if (!is_fed)
        return false;
    end->used += said->used;
    if (end->used < length)
        return true;
    end->used = 0;
    return PyList_SetSlice(end->unfed, 0, 1, NULL) == 0;
}

static PyObject *fed_value(const osi_fed *said)
{
    PyObject *made = new_value(package.fed);
    return kept_if(made, made != NULL && set(made, names.used, PyLong_FromSize_t(said->used))
                             && set(made, names.waits, PyBool_FromLong(said->waits)));
}

static PyObject *call_feed(PyObject *self, PyObject *given, PyObject *named)
{
    osi_octets octets;
    osi_fed said = {0, false};
    PyObject *piece = argument_of(given, named, "piece"), *kept = piece == NULL ? NULL : octets_of(piece, &octets);
    bool is_fed = kept != NULL;
    while (is_fed && !said.waits && pieces_of(self) > 0)
        is_fed = fed_first(self, &said);
    if (said.waits)
        said.used = 0;
    else
        is_fed = is_fed && fed(self, octets.at, octets.length, &said);
    Py_XDECREF(kept);
    return is_fed ? fed_value(&said) : NULL;
}

static PyObject *call_unfed(PyObject *self, PyObject *unused)
{
    size_t count = 0;
    (void)unused;
    for (Py_ssize_t i = 0; i < pieces_of(self); i++)
        count += (size_t)PyBytes_Size(PyList_GetItem(((Calls *)self)->unfed, i));
    return PyLong_FromSize_t(count - ((Calls *)self)->used);
}

/* Whether a loop over feed_all would yield nothing more. Feeding no octets says whether an indication is pending. */
static PyObject *call_is_spent(PyObject *self, PyObject *unused)
{
    osi_fed said = {0, false};
    osi_end *slot = slot_of(self);
    (void)unused;
    if (slot == NULL)
        return NULL;
    return PyBool_FromLong(pieces_of(self) == 0 && osi.feed(slot, (const uint8_t *)"", 0, &said) == OSI_OK && !said.waits);
}

static PyObject *call_next_indication(PyObject *self, PyObject *unused)
{
    osi_end *slot = slot_of(self);
    PyObject *indication = slot == NULL ? NULL : fetched(slot);
    (void)unused;
    if (indication == NULL && PyErr_Occurred() == NULL)
        Py_RETURN_NONE;
    return indication;
}

static PyObject *call_outgoing(PyObject *self, PyObject *given, PyObject *named)
{
    static char *keywords[] = {"most", NULL};
    PyObject *arguments[3] = {NULL, NULL, NULL};
    osi_octets octets;
    osi_end *slot = slot_of(self);
    if (slot == NULL || !arguments_of(given, named, "|O", keywords, 0, 1, arguments))
        return NULL;
    osi.outgoing(slot, &octets);
    if (arguments[0] != NULL && arguments[0] != Py_None) {
        const Py_ssize_t most = PyLong_AsSsize_t(arguments[0]);
        if (most == -1 && PyErr_Occurred() != NULL)
            return NULL;
        if (most < 0 || (size_t)most < octets.length)
            octets.length = most < 0 ? 0 : (size_t)most;
    }
    return PyBytes_FromStringAndSize((const char *)octets.at, (Py_ssize_t)octets.length);
}

static PyObject *call_outgoing_length(PyObject *self, PyObject *unused)
{
    osi_octets octets;
    osi_end *slot = slot_of(self);
    (void)unused;
    if (slot == NULL)
        return NULL;
    osi.outgoing(slot, &octets);
    return PyLong_FromSize_t(octets.length);
}

static PyObject *call_taken(PyObject *self, PyObject *given, PyObject *named)
{
    uint32_t code;
    size_t count;
    PyObject *octets = argument_of(given, named, "octets");
    osi_end *slot = octets == NULL ? NULL : slot_of(self);
    if (slot == NULL)
        return NULL;
    count = PyLong_AsSize_t(octets);
    if (PyErr_Occurred() != NULL) {
        PyErr_Clear();
        return not_within("octets", octets, 8 * sizeof(size_t));
    }
    code = osi.taken(slot, count);
    if (code != OSI_OK)
        return refused(code);
    if (!told(self, SENT))
        return NULL;
    Py_RETURN_NONE;
}

/* ---- what an end says of itself */

static PyObject *call_wants_write(PyObject *self, PyObject *unused)
{
    osi_end *slot = slot_of(self);
    (void)unused;
    return slot == NULL ? NULL : PyBool_FromLong(osi.wants_write(slot));
}

static PyObject *call_backlog(PyObject *self, PyObject *unused)
{
    osi_end *slot = slot_of(self);
    (void)unused;
    return slot == NULL ? NULL : PyLong_FromSize_t(osi.backlog(slot));
}

static PyObject *call_live(PyObject *self, PyObject *unused)
{
    osi_end *slot = slot_of(self);
    (void)unused;
    return slot == NULL ? NULL : PyLong_FromSize_t(osi.live(slot));
}

/* The reference of a look at a connection: 0, which no connection has, for any that is out of range. Returns the slot, or NULL with
   an exception. */
static osi_end *looked_up(PyObject *self, PyObject *given, PyObject *named, uint16_t *number)
{
    int overflow;
    PyObject *reference = argument_of(given, named, "reference");
    const long n = reference == NULL ? 0 : PyLong_AsLongAndOverflow(reference, &overflow);
    *number = n < 0 || n > UINT16_MAX ? 0 : (uint16_t)n;
    return PyErr_Occurred() == NULL ? slot_of(self) : NULL;
}

static PyObject *call_unsent(PyObject *self, PyObject *given, PyObject *named)
{
    uint16_t number;
    osi_end *slot = looked_up(self, given, named, &number);
    return slot == NULL ? NULL : PyLong_FromSize_t(osi.unsent(slot, number));
}

static PyObject *call_phase(PyObject *self, PyObject *given, PyObject *named)
{
    uint16_t number;
    PyObject *phase;
    osi_end *slot = looked_up(self, given, named, &number);
    if (slot == NULL)
        return NULL;
    phase = PyList_GetItem(package.phases, (Py_ssize_t)osi.phase(slot, number));
    Py_XINCREF(phase);
    return phase;
}

static PyObject *call_ended(PyObject *self, PyObject *unused)
{
    uint64_t detail;
    uint32_t reason;
    osi_end *slot = slot_of(self);
    (void)unused;
    if (slot == NULL)
        return NULL;
    reason = osi.ended(slot, &detail);
    if (reason == OSI_END_NONE)
        Py_RETURN_NONE;
    return PyObject_CallFunction(package.ending, "IK", (unsigned)reason, (unsigned long long)detail);
}

/* ---- the loop around feed */

/* An iterator over the indications of an end, which feeds what is not fed yet. */
typedef struct {
    PyObject_HEAD
    PyObject *end;
} Indications;

static PyTypeObject *indications_type;

/* Keeps a piece until it is fed. */
static bool keep_piece(Calls *end, PyObject *piece)
{
    if (end->unfed == NULL && (end->unfed = PyList_New(0)) == NULL)
        return false;
    return PyBytes_Size(piece) == 0 || PyList_Append(end->unfed, piece) == 0;
}

static PyObject *call_feed_all(PyObject *self, PyObject *given, PyObject *named)
{
    osi_octets octets;
    PyObject *piece = argument_of(given, named, "piece"), *kept = piece == NULL ? NULL : octets_of(piece, &octets);
    Indications *made = kept == NULL ? NULL : PyObject_New(Indications, indications_type);
    const bool is_kept = made != NULL && keep_piece((Calls *)self, kept);
    Py_XDECREF(kept);
    if (made == NULL)
        return NULL;
    Py_INCREF(self);
    made->end = self;
    return kept_if((PyObject *)made, is_kept);
}

static PyObject *next_of_pieces(PyObject *self)
{
    PyObject *end = ((Indications *)self)->end, *indication = NULL;
    osi_end *slot = slot_of(end);
    osi_fed said;
    while (slot != NULL && indication == NULL && PyErr_Occurred() == NULL && pieces_of(end) > 0) {
        /* It uses nothing while an indication is pending. */
        if (!fed_first(end, &said))
            return NULL;
        indication = said.waits ? fetched(slot) : NULL;
    }
    return slot == NULL || indication != NULL || PyErr_Occurred() != NULL ? indication : fetched(slot);
}

static void free_indications(PyObject *self)
{
    PyTypeObject *type = Py_TYPE(self);
    Py_DECREF(((Indications *)self)->end);
    PyObject_Free(self);
    Py_DECREF(type);
}

static PyType_Slot indications_slots[] = {
    {Py_tp_dealloc, free_indications},
    {Py_tp_iter, PyObject_SelfIter},
    {Py_tp_iternext, next_of_pieces},
    {0, NULL},
};
static PyType_Spec indications_spec = {"osi_session._native.Indications", sizeof(Indications), 0, Py_TPFLAGS_DEFAULT, indications_slots};

/* ---- the type and the module */

static PyObject *call_attach(PyObject *self, PyObject *address)
{
    void *slot = PyLong_AsVoidPtr(address);
    if (slot == NULL && PyErr_Occurred() != NULL)
        return NULL;
    ((Calls *)self)->slot = slot;
    Py_RETURN_NONE;
}

static PyObject *call_traces(PyObject *self, PyObject *traces)
{
    const int is_on = PyObject_IsTrue(traces);
    if (is_on < 0)
        return NULL;
    ((Calls *)self)->traces = is_on;
    Py_RETURN_NONE;
}

static PyMethodDef calls[] = {
    {"refuse", WITH_NAMES(call_refuse), NULL},
    {"data", WITH_NAMES(call_data), NULL},
    {"give", WITH_NAMES(call_give), NULL},
    {"please", WITH_NAMES(call_please), NULL},
    {"minor", WITH_NAMES(call_minor), NULL},
    {"minor_confirm", WITH_NAMES(call_minor_confirm), NULL},
    {"major", WITH_NAMES(call_major), NULL},
    {"major_confirm", WITH_NAMES(call_major_confirm), NULL},
    {"release", WITH_NAMES(call_release), NULL},
    {"release_accept", WITH_NAMES(call_release_accept), NULL},
    {"release_refuse", WITH_NAMES(call_release_refuse), NULL},
    {"abort", WITH_NAMES(call_abort), NULL},
    {"feed", WITH_NAMES(call_feed), NULL},
    {"unfed", call_unfed, METH_NOARGS, NULL},
    {"feed_all", WITH_NAMES(call_feed_all), NULL},
    {"outgoing", WITH_NAMES(call_outgoing), NULL},
    {"outgoing_length", call_outgoing_length, METH_NOARGS, NULL},
    {"wants_write", call_wants_write, METH_NOARGS, NULL},
    {"taken", WITH_NAMES(call_taken), NULL},
    {"next_indication", call_next_indication, METH_NOARGS, NULL},
    {"unsent", WITH_NAMES(call_unsent), NULL},
    {"backlog", call_backlog, METH_NOARGS, NULL},
    {"live", call_live, METH_NOARGS, NULL},
    {"phase", WITH_NAMES(call_phase), NULL},
    {"ended", call_ended, METH_NOARGS, NULL},
    {"_is_spent", call_is_spent, METH_NOARGS, NULL},
    {"_attach", call_attach, METH_O, NULL},
    {"_traces", call_traces, METH_O, NULL},
    {NULL, NULL, 0, NULL},
};

static void free_calls(PyObject *self)
{
    PyTypeObject *type = Py_TYPE(self);
    freefunc release = (freefunc)PyType_GetSlot(type, Py_tp_free);
    Py_XDECREF(((Calls *)self)->unfed);
    release(self);
    Py_DECREF(type);
}

static PyType_Slot calls_slots[] = {{Py_tp_methods, calls}, {Py_tp_dealloc, free_calls}, {0, NULL}};
static PyType_Spec calls_spec = {"osi_session._native.Calls", sizeof(Calls), 0, Py_TPFLAGS_DEFAULT | Py_TPFLAGS_BASETYPE, calls_slots};

#include "judge.h"

/* Keeps what the package hands over. */
static bool keep(PyObject *handed)
{
    for (size_t i = 0; i < COUNT(parts); i++) {
        PyObject *part = PyDict_GetItemString(handed, parts[i].name);
        if (part == NULL)
            return PyErr_Format(PyExc_KeyError, "%s", parts[i].name) != NULL;
        Py_INCREF(part);
        *parts[i].place = part;
    }
    return true;
}

/* The base class of such objects, whose methods get their texts. */
static PyObject *made_of(PyType_Spec *spec, PyMethodDef *methods, PyObject *texts)
{
    for (PyMethodDef *call = methods; call->ml_name != NULL; call++) {
        PyObject *text = PyDict_GetItemString(texts, call->ml_name);
        PyObject *octets = text == NULL ? NULL : PyUnicode_AsUTF8String(text);
        /* The text is kept as long as the process lasts, as the method is. */
        if (octets != NULL)
            call->ml_doc = PyBytes_AsString(octets);
        else if (text != NULL)
            return NULL;
    }
    return PyType_FromSpec(spec);
}

/* The base classes of an end and of a judge: `calls(parts, texts of an end, texts of a judge)`. They are made once. */
static PyObject *make_calls(PyObject *module, PyObject *given)
{
    static PyObject *end, *judge;
    PyObject *handed, *of_end, *of_judge;
    (void)module;
    if (!PyArg_ParseTuple(given, "O!O!O!:calls", &PyDict_Type, &handed, &PyDict_Type, &of_end, &PyDict_Type, &of_judge))
        return NULL;
    if (judge == NULL
        && (!keep(handed) || (end = made_of(&calls_spec, calls, of_end)) == NULL
            || (judge = made_of(&judge_spec, judge_methods, of_judge)) == NULL))
        return NULL;
    return PyTuple_Pack(2, end, judge);
}

static PyMethodDef module_functions[] = {
    {"bind", bind, METH_O, "Hands over the addresses of the library's functions, by their names."},
    {"calls", make_calls, METH_VARARGS,
     "The base classes of an end and of a judge, from what they need of the package and the texts of their methods."},
    {NULL, NULL, 0, NULL},
};
static struct PyModuleDef definition = {
    PyModuleDef_HEAD_INIT, "_native", "The calls that a program makes for each message.", -1, module_functions, NULL, NULL, NULL, NULL,
};

PyMODINIT_FUNC PyInit__native(void)
{
    indications_type = (PyTypeObject *)PyType_FromSpec(&indications_spec);
    verdicts_type = (PyTypeObject *)PyType_FromSpec(&verdicts_spec);
    if (indications_type == NULL || verdicts_type == NULL || !make_names())
        return NULL;
    return PyModule_Create(&definition);
}

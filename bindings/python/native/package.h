/* What the package hands over to its module in C: the functions of the library, its own values and functions, and names. */
#ifndef PACKAGE_H
#define PACKAGE_H
#define PY_SSIZE_T_CLEAN
#define Py_LIMITED_API 0x03090000
#include <Python.h>
#include <stdbool.h>
#include <osi.h>

typedef uint32_t call_with_octets(osi_end *, uint16_t, const uint8_t *, size_t);

/* The functions of the library. */
static struct {
    call_with_octets *refuse, *data, *major, *major_confirm, *release, *release_accept, *release_refuse, *abort;
    uint32_t (*give)(osi_end *, uint16_t, uint8_t);
    uint32_t (*please)(osi_end *, uint16_t, uint8_t, const uint8_t *, size_t);
    uint32_t (*minor)(osi_end *, uint16_t, uint8_t, const uint8_t *, size_t);
    uint32_t (*minor_confirm)(osi_end *, uint16_t, uint32_t, const uint8_t *, size_t);
    uint32_t (*feed)(osi_end *, const uint8_t *, size_t, osi_fed *);
    void (*outgoing)(osi_end *, osi_octets *);
    bool (*wants_write)(osi_end *);
    uint32_t (*taken)(osi_end *, size_t);
    uint32_t (*fetch)(osi_end *);
    void (*last_with_size)(osi_end *, osi_indication *, size_t);
    size_t (*unsent)(osi_end *, uint16_t);
    size_t (*backlog)(osi_end *);
    size_t (*live)(osi_end *);
    uint32_t (*phase)(osi_end *, uint16_t);
    uint32_t (*ended)(osi_end *, uint64_t *);
    uint32_t (*judge_feed)(osi_judge *, uint32_t, const uint8_t *, size_t, size_t *);
    uint32_t (*judge_next)(osi_judge *, osi_verdict *);
    uint32_t (*judge_verdict)(osi_judge *, uint64_t, uint32_t, osi_verdict *);
    uint32_t (*judge_connections)(osi_judge *, uint64_t *);
    uint32_t (*judge_write)(osi_judge *);
    void (*judge_text)(osi_judge *, osi_octets *);
} osi;

static const struct {
    const char *name;
    void *place;
} functions[] = {
    {"osi_refuse", &osi.refuse},
    {"osi_data", &osi.data},
    {"osi_major", &osi.major},
    {"osi_major_confirm", &osi.major_confirm},
    {"osi_release", &osi.release},
    {"osi_release_accept", &osi.release_accept},
    {"osi_release_refuse", &osi.release_refuse},
    {"osi_abort", &osi.abort},
    {"osi_give", &osi.give},
    {"osi_please", &osi.please},
    {"osi_minor", &osi.minor},
    {"osi_minor_confirm", &osi.minor_confirm},
    {"osi_feed", &osi.feed},
    {"osi_outgoing", &osi.outgoing},
    {"osi_wants_write", &osi.wants_write},
    {"osi_taken", &osi.taken},
    {"osi_fetch", &osi.fetch},
    {"osi_last_with_size", &osi.last_with_size},
    {"osi_unsent", &osi.unsent},
    {"osi_backlog", &osi.backlog},
    {"osi_live", &osi.live},
    {"osi_phase", &osi.phase},
    {"osi_ended", &osi.ended},
    {"osi_judge_feed", &osi.judge_feed},
    {"osi_judge_next", &osi.judge_next},
    {"osi_judge_verdict", &osi.judge_verdict},
    {"osi_judge_connections", &osi.judge_connections},
    {"osi_judge_write", &osi.judge_write},
    {"osi_judge_text", &osi.judge_text},
};
#define COUNT(array) (sizeof(array) / sizeof((array)[0]))
/* A method with arguments by name. */
#define WITH_NAMES(call) ((PyCFunction)(void (*)(void))(call)), METH_VARARGS | METH_KEYWORDS

/* What the package hands over beside the functions. */
static struct {
    PyObject *refused;   /* raises SessionError, by a code */
    PyObject *octets;    /* what bytes, a bytearray or a memoryview has, as bytes */
    PyObject *within;    /* raises SessionError if a number has too many bits: (name, number, bits) */
    PyObject *made;      /* the indication of a tag, from the address of an osi_indication and user data */
    PyObject *ending;    /* Ending, by its reason and detail */
    PyObject *data, *minor, *minor_confirmed, *fed; /* classes */
    PyObject *phases;    /* the phases, by number */
    PyObject *received, *sent; /* the directions */
    PyObject *judged_side; /* JudgedSide, by its number; raises ValueError if it is none */
    PyObject *verdict;   /* the verdict at the address of an osi_verdict */
} package;

/* The names of attributes. */
static struct {
    PyObject *on_outgoing, *tell, *reference, *user_data, *number, *confirm, *used, *waits;
} names;

/* Hands over the functions of the library: their addresses, by their names. */
static PyObject *bind(PyObject *module, PyObject *addresses)
{
    (void)module;
    for (size_t i = 0; i < COUNT(functions); i++) {
        PyObject *address = PyDict_GetItemString(addresses, functions[i].name);
        if (address == NULL)
            return PyErr_Format(PyExc_KeyError, "%s", functions[i].name);
        *(void **)functions[i].place = PyLong_AsVoidPtr(address);
        if (PyErr_Occurred() != NULL)
            return NULL;
    }
    Py_RETURN_NONE;
}

static const struct {
    const char *name;
    PyObject **place;
} parts[] = {
    {"refused", &package.refused},
    {"octets", &package.octets},
    {"within", &package.within},
    {"made", &package.made},
    {"ending", &package.ending},
    {"data", &package.data},
    {"minor", &package.minor},
    {"minor_confirmed", &package.minor_confirmed},
    {"fed", &package.fed},
    {"phases", &package.phases},
    {"received", &package.received},
    {"sent", &package.sent},
    {"judged_side", &package.judged_side},
    {"verdict", &package.verdict},
};

static bool make_names(void)
{
    static const struct {
        const char *name;
        PyObject **place;
    } all[] = {
        {"on_outgoing", &names.on_outgoing}, {"_tell", &names.tell},     {"reference", &names.reference}, {"user_data", &names.user_data},
        {"number", &names.number},           {"confirm", &names.confirm}, {"used", &names.used},           {"waits", &names.waits},
    };
    for (size_t i = 0; i < COUNT(all); i++)
        if ((*all[i].place = PyUnicode_InternFromString(all[i].name)) == NULL)
            return false;
    return true;
}
#endif

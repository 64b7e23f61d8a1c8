/* The server's objects and answers. */
#include "plant.h"

#include <string.h>
#include <time.h>

/* ---- the variables */

static void put_clock(const struct plant *p, struct ber_writer *w)
{
    (void)p;
    ber_put_number(w, 0x86, (uint32_t)time(NULL));
}

static void put_reads(const struct plant *p, struct ber_writer *w)
{
    ber_put_number(w, 0x86, p->reads);
}

static void put_breaker(const struct plant *p, struct ber_writer *w)
{
    (void)p;
    ber_put(w, (const uint8_t[]){0x83, 0x01, 0x01}, 3);
}

static void put_float(struct ber_writer *w, float value)
{
    uint32_t bits;
    memcpy(&bits, &value, sizeof bits);
    const uint8_t octets[] = {0x87, 0x05, 8, (uint8_t)(bits >> 24), (uint8_t)(bits >> 16), (uint8_t)(bits >> 8), (uint8_t)bits};
    ber_put(w, octets, sizeof octets);
}

static void put_current(const struct plant *p, struct ber_writer *w)
{
    (void)p;
    put_float(w, 12.5f);
}

static void put_voltage(const struct plant *p, struct ber_writer *w)
{
    (void)p;
    put_float(w, 230.25f);
}

/* Types, in the form of a TypeDescription. */
static const uint8_t is_boolean[] = {0x83, 0x00};
static const uint8_t is_unsigned[] = {0x86, 0x01, 0x20};
static const uint8_t is_float[] = {0xa7, 0x06, 0x02, 0x01, 0x20, 0x02, 0x01, 0x08};
static const uint8_t is_text[] = {0x8a, 0x01, 0xc0};

/* Names are in the order of their octets, in which a GetNameList returns them. Those with a $ are the name plates of a logical
 * device and of its hardware, as IEC 61850-8-1 spells them: a client of IEC 61850 looks for them first. */
static const struct variable {
    const char *domain; /* empty for none */
    const char *item;
    const char *text; /* its value; NULL if `put` writes it */
    void (*put)(const struct plant *, struct ber_writer *);
    const uint8_t *type;
    size_t type_length;
} variables[] = {
    {"", "clock", NULL, put_clock, is_unsigned, sizeof is_unsigned},
    {"", "reads", NULL, put_reads, is_unsigned, sizeof is_unsigned},
    {"plant", "LLN0$DC$NamPlt$configRev", "1", NULL, is_text, sizeof is_text},
    {"plant", "LLN0$DC$NamPlt$d", "a plant", NULL, is_text, sizeof is_text},
    {"plant", "LPHD1$DC$PhyNam$model", "examples/mms", NULL, is_text, sizeof is_text},
    {"plant", "LPHD1$DC$PhyNam$serNum", "1", NULL, is_text, sizeof is_text},
    {"plant", "LPHD1$DC$PhyNam$swRev", "1", NULL, is_text, sizeof is_text},
    {"plant", "LPHD1$DC$PhyNam$vendor", "OSI session", NULL, is_text, sizeof is_text},
    {"plant", "breaker", NULL, put_breaker, is_boolean, sizeof is_boolean},
    {"plant", "current", NULL, put_current, is_float, sizeof is_float},
    {"plant", "name", "plant 1", NULL, is_text, sizeof is_text},
    {"plant", "voltage", NULL, put_voltage, is_float, sizeof is_float},
};
#define VARIABLES (sizeof variables / sizeof variables[0])
static const char domain[] = "plant";

static const struct variable *find(const struct mms_name *name)
{
    for (size_t i = 0; i < VARIABLES; i++)
        if (strcmp(variables[i].domain, name->domain) == 0 && strcmp(variables[i].item, name->item) == 0)
            return &variables[i];
    return NULL;
}

static void put_value(const struct plant *p, const struct variable *v, struct ber_writer *w)
{
    if (v->text != NULL)
        ber_put_text(w, 0x8a, v->text);
    else
        v->put(p, w);
}

/* ---- answers */

/* Why a request is refused: class and code of a ServiceError, or a reject. */
enum problem { DONE, NO_SUCH_OBJECT, NOT_OF_THIS_KIND, TOO_LONG, NO_SUCH_SERVICE, BAD_ARGUMENT };

static void put_error(enum problem why, uint32_t invoke, struct ber_writer *w)
{
    if (why == TOO_LONG)
        ber_put_number(w, 0x83, 0); /* resource: other */
    else
        ber_put_number(w, 0x87, why == NO_SUCH_OBJECT ? 2 : 1); /* access: object-non-existent, unsupported */
    ber_wrap(w, 0xa0, 0);
    ber_wrap(w, 0xa2, 0);
    mms_wrap_confirmed(w, MMS_CONFIRMED_ERROR, invoke);
}

static void put_reject(bool has_invoke, uint32_t invoke, uint32_t kind, uint32_t reason, struct ber_writer *w)
{
    ber_put_number(w, kind, reason);
    if (has_invoke)
        ber_put_number(w, 0x80, invoke);
    ber_wrap(w, MMS_REJECT, 0);
}

void plant_reject(const struct mms_pdu *pdu, bool is_readable, struct ber_writer *w)
{
    put_reject(pdu->has_invoke, pdu->invoke, 0x85, is_readable ? 0 : 1, w); /* pdu-error: unknown type, invalid */
}

static enum problem identify(struct ber_writer *w)
{
    ber_put_text(w, 0x82, "1");
    ber_put_text(w, 0x81, "examples/mms");
    ber_put_text(w, 0x80, "OSI session");
    ber_wrap(w, MMS_IDENTIFY_RESPONSE, 0);
    return DONE;
}

/* The names of one scope after `after`, at most as many as fit into one PDU. */
static enum problem get_name_list(struct ber body, struct ber_writer *w)
{
    struct ber part, number, scope;
    struct mms_name of = {"", ""};
    char after[MMS_NAME + 1] = "";
    uint32_t objects, kind;
    if (!ber_find(body, 0xa0, &part) || !ber_read_tag(&part, 0x80, &number) || !ber_number(number, &objects) ||
        !ber_find(body, 0xa1, &part) || !ber_read(&part, &kind, &scope) || (kind == 0x81 && !mms_read_identifier(scope, of.domain)) ||
        (ber_find(body, 0x82, &part) && !mms_read_identifier(part, after)))
        return BAD_ARGUMENT;
    if (kind == 0x81 && strcmp(of.domain, domain) != 0)
        return NO_SUCH_OBJECT;
    ber_put(w, (const uint8_t[]){0x81, 0x01, 0x00}, 3); /* no more follow */
    const size_t before = ber_written(w);
    if (objects == MMS_DOMAIN && kind == 0x80 && strcmp(after, domain) < 0)
        ber_put_text(w, 0x1a, domain);
    for (size_t left = VARIABLES; objects == MMS_NAMED_VARIABLE && kind != 0x82 && left > 0; left--) {
        const struct variable *v = &variables[left - 1];
        if (strcmp(v->domain, of.domain) == 0 && strcmp(v->item, after) > 0)
            ber_put_text(w, 0x1a, v->item);
    }
    ber_wrap(w, 0xa0, before);
    ber_wrap(w, MMS_GET_NAME_LIST, 0);
    return DONE;
}

static enum problem get_attributes(struct ber body, struct ber_writer *w)
{
    struct ber octets;
    struct mms_name name;
    if (!ber_read_tag(&body, 0xa0, &octets) || !mms_read_name(octets, &name))
        return BAD_ARGUMENT;
    const struct variable *v = find(&name);
    if (v == NULL)
        return NO_SUCH_OBJECT;
    ber_put(w, v->type, v->type_length);
    ber_wrap(w, 0xa2, 0);
    ber_put(w, (const uint8_t[]){0x80, 0x01, 0x00}, 3); /* it can't be deleted */
    ber_wrap(w, MMS_GET_ATTRIBUTES, 0);
    return DONE;
}

/* One variable of a Read: its value, or why there is none. */
static void put_result(const struct plant *p, struct ber item, struct ber_writer *w)
{
    struct ber octets;
    struct mms_name name;
    const struct variable *v = NULL;
    const bool is_named = ber_find(item, 0xa0, &octets) && mms_read_name(octets, &name);
    if (is_named)
        v = find(&name);
    if (v != NULL && !ber_find(item, 0xa5, &octets))
        put_value(p, v, w);
    else
        ber_put_number(w, 0x80, v != NULL || !is_named ? 9 : 10); /* object-access-unsupported, non-existent */
}

/* The answers are in the order of the names, and are written from the last to the first: each name is found by
 * reading the list up to it. */
static enum problem read_variables(struct plant *p, struct ber body, struct ber_writer *w)
{
    struct ber specification, list, item = {NULL, 0, false}, with;
    uint32_t count = 0;
    if (!ber_find(body, 0xa1, &specification))
        return BAD_ARGUMENT;
    if (!ber_find(specification, 0xa0, &list))
        return NOT_OF_THIS_KIND; /* a named list of variables: there is none */
    for (struct ber rest = list; ber_read_tag(&rest, 0x30, &item); count++)
        ;
    if (count == 0 || count > 100)
        return count == 0 ? BAD_ARGUMENT : TOO_LONG;
    p->reads += count;
    for (; count > 0; count--) {
        struct ber rest = list;
        for (uint32_t at = 0; at < count; at++)
            ber_read_tag(&rest, 0x30, &item);
        put_result(p, item, w);
    }
    ber_wrap(w, 0xa1, 0);
    if (ber_find(body, 0x80, &with) && with.length == 1 && with.at[0] != 0) {
        const size_t before = ber_written(w);
        ber_put(w, specification.at, specification.length);
        ber_wrap(w, 0xa0, before);
    }
    ber_wrap(w, MMS_READ, 0);
    return DONE;
}

static enum problem answer(struct plant *p, const struct mms_pdu *request, struct ber_writer *w)
{
    switch (request->service) {
    case MMS_IDENTIFY_REQUEST:
        return identify(w);
    case MMS_GET_NAME_LIST:
        return get_name_list(request->body, w);
    case MMS_GET_ATTRIBUTES:
        return get_attributes(request->body, w);
    case MMS_READ:
        return read_variables(p, request->body, w);
    default:
        return NO_SUCH_SERVICE;
    }
}

void plant_answer(struct plant *p, const struct mms_pdu *request, struct ber_writer *w)
{
    const struct ber_writer empty = *w;
    enum problem why = answer(p, request, w);
    if (why == DONE)
        mms_wrap_confirmed(w, MMS_CONFIRMED_RESPONSE, request->invoke);
    if (why == DONE && w->full)
        why = TOO_LONG;
    if (why == DONE)
        return;
    *w = empty;
    if (why == NO_SUCH_SERVICE || why == BAD_ARGUMENT)
        put_reject(true, request->invoke, 0x81, why == NO_SUCH_SERVICE ? 1 : 4, w);
    else
        put_error(why, request->invoke, w);
}

/* ---- initiate */

/* What the server supports: version 1, named variables, and the services GetNameList, Identify, Read,
 * GetVariableAccessAttributes and Conclude. */
static const uint8_t initiate_detail[] = {
    0xa4, 0x16, 0x80, 0x01, 0x01, 0x81, 0x03, 0x05, 0x20, 0x00, 0x82, 0x0c, 0x03, 0x6a,
    0x00, 0x00, 0x00, 0x00, 0x00, 0x00, 0x00, 0x00, 0x00, 0x10,
};

/* An error fits into this many octets, whatever length the client asks for. */
#define SHORTEST 64u

/* A number of the request, or `most` if that is smaller or the request has none. */
static uint32_t agreed(struct ber asked, uint32_t tag, uint32_t most)
{
    struct ber number;
    uint32_t value;
    return ber_find(asked, tag, &number) && ber_number(number, &value) && value < most ? value : most;
}

uint32_t plant_initiate(struct ber asked, struct ber_writer *w)
{
    struct ber detail;
    const uint32_t longest = agreed(asked, 0x80, MMS_LONGEST);
    if (!ber_find(asked, 0xa4, &detail))
        return 0;
    ber_put(w, initiate_detail, sizeof initiate_detail);
    ber_put_number(w, 0x83, agreed(asked, 0x83, 5));
    ber_put_number(w, 0x82, agreed(asked, 0x82, MMS_OUTSTANDING));
    ber_put_number(w, 0x81, agreed(asked, 0x81, MMS_OUTSTANDING));
    ber_put_number(w, 0x80, longest);
    ber_wrap(w, MMS_INITIATE_RESPONSE, 0);
    return longest < SHORTEST ? SHORTEST : longest;
}

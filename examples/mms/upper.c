/* The parts of presentation and ACSE that an association of MMS needs. */
#include "upper.h"

#include <string.h>

/* ---- stored octets */

/* Abstract syntaxes and the transfer syntax, as the contents of an OBJECT IDENTIFIER. */
static const uint8_t acse_syntax[] = {0x52, 0x01, 0x00, 0x01};      /* 2.2.1.0.1 */
static const uint8_t mms_syntax[] = {0x28, 0xca, 0x22, 0x02, 0x01}; /* 1.0.9506.2.1 */

/* The application context 1.0.9506.2.3, which is that of MMS. Some clients name another one of ISO 9506,
 * and are answered by the same: what they have in common are the first octets. */
static const struct selector application = {{0x28, 0xca, 0x22, 0x02, 0x03}, 5};
#define COMMON 3

/* Mode-selector of a CP and of a CPA: normal mode. */
static const uint8_t normal_mode[] = {0xa0, 0x03, 0x80, 0x01, 0x01};

/* The list of contexts of a CP: 1 is ACSE and 3 is MMS, both by BER (2.1.1). */
static const uint8_t asked_contexts[] = {
    0xa4, 0x23, 0x30, 0x0f, 0x02, 0x01, 0x01, 0x06, 0x04, 0x52, 0x01, 0x00, 0x01, 0x30, 0x04, 0x06, 0x02, 0x51, 0x01,
    0x30, 0x10, 0x02, 0x01, 0x03, 0x06, 0x05, 0x28, 0xca, 0x22, 0x02, 0x01, 0x30, 0x04, 0x06, 0x02, 0x51, 0x01,
};

/* The answer of a CPA to one context: accepted, with BER; or the abstract syntax is unknown. */
static const uint8_t context_accepted[] = {0x30, 0x07, 0x80, 0x01, 0x00, 0x81, 0x02, 0x51, 0x01};
static const uint8_t context_refused[] = {0x30, 0x06, 0x80, 0x01, 0x02, 0x82, 0x01, 0x01};

/* Result and diagnostic of an AARE: accepted; or refused permanently, because the name of the application
 * context is unknown. */
static const uint8_t accepted[] = {0xa2, 0x03, 0x02, 0x01, 0x00, 0xa3, 0x05, 0xa1, 0x03, 0x02, 0x01, 0x00};
static const uint8_t other_name[] = {0xa2, 0x03, 0x02, 0x01, 0x01, 0xa3, 0x05, 0xa1, 0x03, 0x02, 0x01, 0x02};

static const uint8_t release_request[] = {0x62, 0x03, 0x80, 0x01, 0x00};
static const uint8_t release_response[] = {0x63, 0x03, 0x80, 0x01, 0x00};
static const uint8_t abort_of_user[] = {0x64, 0x03, 0x80, 0x01, 0x00};

/* ---- writing */

/* Puts the octets written since `before` into a context: User-data of X.226, fully encoded. */
static void wrap_in_context(struct ber_writer *w, uint8_t context, size_t before)
{
    ber_wrap(w, 0xa0, before);
    ber_put_number(w, 0x02, context);
    ber_wrap(w, 0x30, before);
    ber_wrap(w, 0x61, before);
}

/* The user information of an AARQ or AARE: an EXTERNAL with this PDU of MMS. */
static void put_information(struct ber_writer *w, uint8_t context, const uint8_t *mms, size_t length)
{
    const size_t before = ber_written(w);
    ber_put(w, mms, length);
    ber_wrap(w, 0xa0, before);
    ber_put_number(w, 0x02, context);
    ber_wrap(w, 0x28, before);
    ber_wrap(w, 0xbe, before);
}

/* The name of the application context, of an AARQ and of an AARE. */
static void put_name(struct ber_writer *w, const struct selector *name)
{
    const size_t before = ber_written(w);
    ber_put(w, name->octets, name->length);
    ber_wrap(w, 0x06, before);
    ber_wrap(w, 0xa1, before);
}

static void put_selector(struct ber_writer *w, uint32_t tag, const struct selector *selector)
{
    if (selector->length == 0)
        return;
    ber_put(w, selector->octets, selector->length);
    ber_put_header(w, tag, selector->length);
}

static size_t written(const struct ber_writer *w, const uint8_t **at)
{
    *at = w->at + w->begin;
    return w->full ? 0 : ber_written(w);
}

/* Encloses the parameters of a CP or a CPA, which are all the written octets. */
static size_t in_normal_mode(struct ber_writer *w, const uint8_t **at)
{
    ber_wrap(w, 0xa2, 0);
    ber_put(w, normal_mode, sizeof normal_mode);
    ber_wrap(w, 0x31, 0);
    return written(w, at);
}

size_t upper_ask(struct upper *u, const struct selector *calling, const struct selector *called, const uint8_t *mms,
                 size_t length, struct room *room, const uint8_t **at)
{
    struct ber_writer w = ber_writer_of(room->octets, sizeof room->octets);
    memset(u, 0, sizeof *u);
    u->acse = 1;
    u->mms = 3;
    u->name = application;
    put_information(&w, u->mms, mms, length);
    put_name(&w, &u->name);
    ber_wrap(&w, 0x60, 0);
    wrap_in_context(&w, u->acse, 0);
    ber_put(&w, asked_contexts, sizeof asked_contexts);
    put_selector(&w, 0x82, called);
    put_selector(&w, 0x81, calling);
    return in_normal_mode(&w, at);
}

/* The results for the requested contexts, in their order. */
static void put_results(struct ber_writer *w, const struct upper *u)
{
    const size_t before = ber_written(w);
    for (size_t left = u->contexts; left > 0; left--) {
        if (u->knows[left - 1])
            ber_put(w, context_accepted, sizeof context_accepted);
        else
            ber_put(w, context_refused, sizeof context_refused);
    }
    ber_wrap(w, 0xa5, before);
}

size_t upper_accept(const struct upper *u, const struct selector *own, const uint8_t *mms, size_t length,
                    struct room *room, const uint8_t **at)
{
    struct ber_writer w = ber_writer_of(room->octets, sizeof room->octets);
    put_information(&w, u->mms, mms, length);
    ber_put(&w, accepted, sizeof accepted);
    put_name(&w, &u->name);
    ber_wrap(&w, 0x61, 0);
    wrap_in_context(&w, u->acse, 0);
    put_results(&w, u);
    put_selector(&w, 0x83, own);
    return in_normal_mode(&w, at);
}

size_t upper_refuse(const struct upper *u, enum upper_problem why, struct room *room, const uint8_t **at)
{
    struct ber_writer w = ber_writer_of(room->octets, sizeof room->octets);
    if (why == UPPER_OTHER_NAME) {
        ber_put(&w, other_name, sizeof other_name);
        put_name(&w, &application);
        ber_wrap(&w, 0x61, 0);
        wrap_in_context(&w, u->acse, 0);
        put_results(&w, u);
    } else if (why == UPPER_OTHER_CALLED) {
        ber_put_number(&w, 0x8a, 3); /* called-presentation-address-unknown */
    } else {
        ber_put_number(&w, 0x8a, why == UPPER_UNREADABLE ? 6 : 0); /* user-data-not-readable; not specified */
    }
    ber_wrap(&w, 0x30, 0);
    return written(&w, at);
}

/* One stored PDU of ACSE. */
static size_t stored(const struct upper *u, const uint8_t *octets, size_t length, struct room *room, const uint8_t **at)
{
    struct ber_writer w = ber_writer_of(room->octets, sizeof room->octets);
    ber_put(&w, octets, length);
    wrap_in_context(&w, u->acse, 0);
    return written(&w, at);
}

size_t upper_ask_release(const struct upper *u, struct room *room, const uint8_t **at)
{
    return stored(u, release_request, sizeof release_request, room, at);
}

size_t upper_accept_release(const struct upper *u, struct room *room, const uint8_t **at)
{
    return stored(u, release_response, sizeof release_response, room, at);
}

size_t upper_abort(const struct upper *u, struct room *room, const uint8_t **at)
{
    struct ber_writer w = ber_writer_of(room->octets, sizeof room->octets);
    ber_put(&w, abort_of_user, sizeof abort_of_user);
    wrap_in_context(&w, u->acse, 0);
    ber_wrap(&w, 0xa0, 0);
    return written(&w, at);
}

size_t upper_data(const struct upper *u, const uint8_t *mms, size_t length, struct room *room, const uint8_t **at)
{
    struct ber_writer w = ber_writer_of(room->octets, sizeof room->octets);
    ber_put(&w, mms, length);
    wrap_in_context(&w, u->mms, 0);
    return written(&w, at);
}

/* ---- reading */

/* User-data of X.226: the first PDU, and its context. The PDU is there as it is, or as octets. */
static bool read_user_data(struct ber data, uint32_t *context, struct ber *pdu)
{
    struct ber list, item, number;
    return ber_find(data, 0x61, &list) && ber_read_tag(&list, 0x30, &item) && ber_find(item, 0x02, &number) &&
           ber_number(number, context) && (ber_find(item, 0xa0, pdu) || ber_find(item, 0x81, pdu));
}

bool upper_read_data(const struct upper *u, struct ber data, struct ber *mms)
{
    uint32_t context;
    return read_user_data(data, &context, mms) && context == u->mms;
}

/* The PDU of MMS in an AARQ or AARE. */
static bool read_information(struct ber association, struct ber *mms)
{
    struct ber information, external;
    return ber_find(association, 0xbe, &information) && ber_read_tag(&information, 0x28, &external) &&
           ber_find(external, 0xa0, mms);
}

/* The purpose of one context of a CP. */
static bool read_context(struct upper *u, struct ber item)
{
    struct ber number, syntax;
    uint32_t identifier;
    if (!ber_find(item, 0x02, &number) || !ber_number(number, &identifier) || !ber_find(item, 0x06, &syntax))
        return false;
    const bool is_acse = ber_equals(syntax, acse_syntax, sizeof acse_syntax);
    const bool is_mms = ber_equals(syntax, mms_syntax, sizeof mms_syntax);
    if (identifier == 0 || identifier > 127)
        return !is_acse && !is_mms;
    if (is_acse)
        u->acse = (uint8_t)identifier;
    if (is_mms)
        u->mms = (uint8_t)identifier;
    u->knows[u->contexts - 1] = is_acse || is_mms;
    return true;
}

static bool read_contexts(struct upper *u, struct ber parameters)
{
    struct ber list, item;
    if (!ber_find(parameters, 0xa4, &list))
        return false;
    while (u->contexts < MOST_CONTEXTS && ber_read_tag(&list, 0x30, &item)) {
        u->contexts++;
        if (!read_context(u, item))
            return false;
    }
    return list.length == 0 && !list.bad;
}

/* The application context of an AARQ. */
static bool read_name(struct upper *u, struct ber association)
{
    struct ber name, spelled;
    if (!ber_find(association, 0xa1, &name) || !ber_read_tag(&name, 0x06, &spelled) || spelled.length > sizeof u->name.octets)
        return false;
    u->name.length = (uint8_t)spelled.length;
    if (spelled.length > 0)
        memcpy(u->name.octets, spelled.at, spelled.length);
    return true;
}

enum upper_problem upper_read_asked(struct upper *u, struct ber data, const struct selector *own, struct ber *mms)
{
    struct ber connect, parameters, called, pdu, association;
    uint32_t context;
    memset(u, 0, sizeof *u);
    if (!ber_read_tag(&data, 0x31, &connect) || !ber_find(connect, 0xa2, &parameters) || !read_contexts(u, parameters))
        return UPPER_UNREADABLE;
    if (u->acse == 0 || u->mms == 0)
        return UPPER_NO_MMS;
    if (own->length > 0 && (!ber_find(parameters, 0x82, &called) || !ber_equals(called, own->octets, own->length)))
        return UPPER_OTHER_CALLED;
    if (!read_user_data(parameters, &context, &pdu) || context != u->acse || !ber_read_tag(&pdu, 0x60, &association))
        return UPPER_UNREADABLE;
    if (!read_name(u, association))
        return UPPER_UNREADABLE;
    if (u->name.length < COMMON || memcmp(u->name.octets, application.octets, COMMON) != 0)
        return UPPER_OTHER_NAME;
    return read_information(association, mms) ? UPPER_NONE : UPPER_UNREADABLE;
}

enum upper_problem upper_read_answer(struct ber data, struct ber *mms)
{
    struct ber connect, parameters, pdu, association, result, number;
    uint32_t context, code;
    if (!ber_read_tag(&data, 0x31, &connect) || !ber_find(connect, 0xa2, &parameters) ||
        !read_user_data(parameters, &context, &pdu) || !ber_read_tag(&pdu, 0x61, &association) ||
        !ber_find(association, 0xa2, &result) || !ber_read_tag(&result, 0x02, &number) || !ber_number(number, &code))
        return UPPER_UNREADABLE;
    if (code != 0)
        return UPPER_OTHER_NAME;
    return read_information(association, mms) ? UPPER_NONE : UPPER_UNREADABLE;
}

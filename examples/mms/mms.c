/* PDUs of MMS: those that both sides read, and those that the calling side writes. */
#include "mms.h"

#include <string.h>

/* ---- reading */

bool mms_read(struct ber octets, struct mms_pdu *pdu)
{
    struct ber contents, number;
    memset(pdu, 0, sizeof *pdu);
    if (!ber_read(&octets, &pdu->kind, &contents))
        return false;
    pdu->body = contents;
    if (pdu->kind == MMS_CONFIRMED_ERROR || pdu->kind == MMS_REJECT) {
        pdu->has_invoke = ber_find(contents, 0x80, &number) && ber_number(number, &pdu->invoke);
        return pdu->has_invoke || pdu->kind == MMS_REJECT;
    }
    if (pdu->kind != MMS_CONFIRMED_REQUEST && pdu->kind != MMS_CONFIRMED_RESPONSE)
        return true;
    pdu->has_invoke = ber_read_tag(&contents, 0x02, &number) && ber_number(number, &pdu->invoke);
    /* (a list of modifiers may come before the service) */
    bool has_service = pdu->has_invoke && ber_read(&contents, &pdu->service, &pdu->body);
    if (has_service && pdu->service == 0x30)
        has_service = ber_read(&contents, &pdu->service, &pdu->body);
    return has_service;
}

bool mms_read_identifier(struct ber contents, char to[MMS_NAME + 1])
{
    if (contents.length == 0 || contents.length > MMS_NAME)
        return false;
    for (size_t i = 0; i < contents.length; i++) {
        if (contents.at[i] < 0x20 || contents.at[i] > 0x7e)
            return false;
        to[i] = (char)contents.at[i];
    }
    to[contents.length] = '\0';
    return true;
}

bool mms_read_name(struct ber octets, struct mms_name *name)
{
    struct ber contents, part;
    uint32_t tag;
    name->domain[0] = '\0';
    if (!ber_read(&octets, &tag, &contents))
        return false;
    if (tag == 0xa1)
        return ber_read_tag(&contents, 0x1a, &part) && mms_read_identifier(part, name->domain) &&
               ber_read_tag(&contents, 0x1a, &part) && mms_read_identifier(part, name->item);
    return (tag == 0x80 || tag == 0x82) && mms_read_identifier(contents, name->item);
}

/* ---- writing */

/* Version 1; strings, structures and named variables; and the services that this client answers: none. */
static const uint8_t initiate_detail[] = {
    0xa4, 0x16, 0x80, 0x01, 0x01, 0x81, 0x03, 0x05, 0xe1, 0x00, 0x82, 0x0c, 0x03, 0x00,
    0x00, 0x00, 0x00, 0x00, 0x00, 0x00, 0x00, 0x00, 0x00, 0x10,
};

void mms_put_initiate(struct ber_writer *w)
{
    const size_t before = ber_written(w);
    ber_put(w, initiate_detail, sizeof initiate_detail);
    ber_put_number(w, 0x83, 5);
    ber_put_number(w, 0x82, MMS_OUTSTANDING);
    ber_put_number(w, 0x81, MMS_OUTSTANDING);
    ber_put_number(w, 0x80, MMS_LONGEST);
    ber_wrap(w, MMS_INITIATE_REQUEST, before);
}

void mms_wrap_confirmed(struct ber_writer *w, uint32_t kind, uint32_t invoke)
{
    ber_put_number(w, kind == MMS_CONFIRMED_ERROR ? 0x80 : 0x02, invoke);
    ber_wrap(w, kind, 0);
}

void mms_put_identify(struct ber_writer *w, uint32_t invoke)
{
    ber_put_header(w, MMS_IDENTIFY_REQUEST, 0);
    mms_wrap_confirmed(w, MMS_CONFIRMED_REQUEST, invoke);
}

void mms_put_name_list(struct ber_writer *w, uint32_t invoke, uint32_t objects, const char *domain, const char *after)
{
    if (after[0] != '\0')
        ber_put_text(w, 0x82, after);
    size_t before = ber_written(w);
    if (domain[0] != '\0')
        ber_put_text(w, 0x81, domain);
    else
        ber_put_header(w, 0x80, 0);
    ber_wrap(w, 0xa1, before);
    before = ber_written(w);
    ber_put_number(w, 0x80, objects);
    ber_wrap(w, 0xa0, before);
    ber_wrap(w, MMS_GET_NAME_LIST, 0);
    mms_wrap_confirmed(w, MMS_CONFIRMED_REQUEST, invoke);
}

void mms_put_read(struct ber_writer *w, uint32_t invoke, const struct mms_name *name)
{
    if (name->domain[0] != '\0') {
        ber_put_text(w, 0x1a, name->item);
        ber_put_text(w, 0x1a, name->domain);
        ber_wrap(w, 0xa1, 0);
    } else {
        ber_put_text(w, 0x80, name->item);
    }
    ber_wrap(w, 0xa0, 0); /* name */
    ber_wrap(w, 0x30, 0);
    ber_wrap(w, 0xa0, 0); /* listOfVariable */
    ber_wrap(w, 0xa1, 0);
    ber_wrap(w, MMS_READ, 0);
    mms_wrap_confirmed(w, MMS_CONFIRMED_REQUEST, invoke);
}

void mms_put_conclude(struct ber_writer *w)
{
    ber_put_header(w, MMS_CONCLUDE_REQUEST, 0);
}

/* ---- values */

static void print_octets(FILE *to, struct ber contents)
{
    for (size_t i = 0; i < contents.length; i++)
        fprintf(to, "%02x", contents.at[i]);
}

static void print_text(FILE *to, struct ber contents)
{
    putc('"', to);
    for (size_t i = 0; i < contents.length; i++)
        putc(contents.at[i] >= 0x20 && contents.at[i] < 0x7f ? contents.at[i] : '?', to);
    putc('"', to);
}

/* A number of at most 8 octets, signed or unsigned. */
static void print_number(FILE *to, struct ber contents, bool has_sign)
{
    uint64_t value = has_sign && contents.length > 0 && contents.at[0] >= 0x80 ? UINT64_MAX : 0;
    for (size_t i = 0; i < contents.length; i++)
        value = value << 8 | contents.at[i];
    if (contents.length > 9)
        print_octets(to, contents);
    else if (has_sign)
        fprintf(to, "%lld", (long long)(int64_t)value);
    else
        fprintf(to, "%llu", (unsigned long long)value);
}

/* FloatingPoint: an octet with the number of bits of the exponent, and then a number of IEEE 754. */
static void print_float(FILE *to, struct ber contents)
{
    float single;
    double both;
    uint64_t bits = 0;
    for (size_t i = 1; i < contents.length && i < 9; i++)
        bits = bits << 8 | contents.at[i];
    const uint32_t low = (uint32_t)bits;
    memcpy(&single, &low, sizeof single);
    memcpy(&both, &bits, sizeof both);
    if (contents.length == 5 && contents.at[0] == 8)
        fprintf(to, "%g", (double)single);
    else if (contents.length == 9 && contents.at[0] == 11)
        fprintf(to, "%g", both);
    else
        print_octets(to, contents);
}

static void print_at(FILE *to, uint32_t tag, struct ber contents, unsigned depth)
{
    if ((tag == 0xa1 || tag == 0xa2) && depth < 8) {
        struct ber inner;
        const char *between = "";
        putc('{', to);
        while (ber_read(&contents, &tag, &inner)) {
            fputs(between, to);
            print_at(to, tag, inner, depth + 1);
            between = ", ";
        }
        putc('}', to);
    } else if (tag == 0x83 && contents.length == 1) {
        fputs(contents.at[0] != 0 ? "true" : "false", to);
    } else if (tag == 0x85 || tag == 0x86) {
        print_number(to, contents, tag == 0x85);
    } else if (tag == 0x87) {
        print_float(to, contents);
    } else if (tag == 0x8a || tag == 0x90) {
        print_text(to, contents);
    } else {
        print_octets(to, contents);
    }
}

void mms_print_value(FILE *to, uint32_t tag, struct ber contents)
{
    print_at(to, tag, contents, 0);
}

const char *mms_access_error(uint32_t code)
{
    static const char *const names[] = {
        "object-invalidated",      "hardware-fault",      "temporarily-unavailable",     "object-access-denied",
        "object-undefined",        "invalid-address",     "type-unsupported",            "type-inconsistent",
        "object-attribute-inconsistent", "object-access-unsupported", "object-non-existent", "object-value-invalid",
    };
    return code < sizeof names / sizeof names[0] ? names[code] : "unknown";
}

/* A reader of session units written by hand, into fields and borrowed slices, with all checks of the grammar. */
#ifndef TSDU_H
#define TSDU_H
#include <stddef.h>
#include <stdint.h>
#include <string.h>

struct slice {
    const uint8_t *at;
    size_t length;
};

/* The places of the known codes: a unit has a bit for each that is present. */
enum code {
    REFERENCES, ITEM, CALLED_REFERENCE, CALLING_REFERENCE, COMMON_REFERENCE, ADDITIONAL_REFERENCE, SYNC, TOKENS,
    DISCONNECT, OPTIONS, REQUIREMENTS, SIZES, VERSION, INITIAL, ENCLOSURE, SETTING, RESYNC, NUMBER, REFLECT, REASON,
    CALLING, CALLED, DATA, EXTENDED
};

#define BIT(code) ((uint32_t)1 << (code))

enum fault { NONE, UNKNOWN_SI, LENGTH_PAST_END, MISSING, DUPLICATE, BAD_VALUE, BAD_CONCATENATION, TRAILING };

struct failed {
    enum fault fault;
    unsigned code;
    size_t at;
};

struct unit {
    uint8_t si, category;
    uint8_t sync, tokens, disconnect, options, version, setting, resync;
    uint16_t requirements;
    uint32_t there, sizes, initial, number;
    struct slice references[4], reflect, reason, calling, called, data, information;
};

struct kind {
    uint8_t category;
    uint32_t known, references, required;
};

static const struct kind *kind_named(uint8_t si, int first)
{
#define REFS(own) (BIT(own) | BIT(COMMON_REFERENCE) | BIT(ADDITIONAL_REFERENCE))
#define POINT(more) (BIT(ENCLOSURE) | BIT(NUMBER) | BIT(DATA) | (more))
    static const struct kind gt = {0, BIT(TOKENS), 0, 0}, pt = {0, BIT(TOKENS) | BIT(DATA), 0, 0},
        dt = {2, BIT(ENCLOSURE), 0, 0}, nf = {1, BIT(ENCLOSURE) | BIT(DATA), 0, 0},
        fn = {1, BIT(DISCONNECT) | BIT(ENCLOSURE) | BIT(DATA), 0, 0},
        rf = {1, BIT(REFERENCES) | BIT(DISCONNECT) | BIT(REQUIREMENTS) | BIT(VERSION) | BIT(ENCLOSURE) | BIT(REASON),
              REFS(CALLED_REFERENCE), 0},
        cn = {1, BIT(REFERENCES) | BIT(ITEM) | BIT(REQUIREMENTS) | BIT(CALLING) | BIT(CALLED) | BIT(DATA) | BIT(EXTENDED),
              REFS(CALLING_REFERENCE), 0},
        ac = {1, BIT(REFERENCES) | BIT(ITEM) | BIT(TOKENS) | BIT(REQUIREMENTS) | BIT(ENCLOSURE) | BIT(CALLING)
                     | BIT(CALLED) | BIT(DATA),
              REFS(CALLED_REFERENCE), 0},
        ab = {1, BIT(DISCONNECT) | BIT(ENCLOSURE) | BIT(REFLECT) | BIT(DATA), 0, 0}, aa = {1, 0, 0, 0},
        ra = {2, POINT(BIT(SETTING)), 0, BIT(NUMBER)}, map = {2, POINT(BIT(SYNC)), 0, BIT(NUMBER)},
        ack = {2, POINT(0), 0, BIT(NUMBER)}, rs = {2, POINT(BIT(SETTING) | BIT(RESYNC)), 0, BIT(RESYNC) | BIT(NUMBER)};
    switch (si) {
    case 1: return first ? &gt : &dt;
    case 2: return &pt;
    case 8: case 10: return &nf;
    case 9: return &fn;
    case 12: return &rf;
    case 13: return &cn;
    case 14: return &ac;
    case 25: return &ab;
    case 26: return &aa;
    case 34: return &ra;
    case 41: case 49: return &map;
    case 42: case 50: return &ack;
    case 53: return &rs;
    default: return NULL;
    }
}

/* The place of a code, or -1. */
static int place_of(uint8_t code)
{
    switch (code) {
    case 1: return REFERENCES;
    case 5: return ITEM;
    case 9: return CALLED_REFERENCE;
    case 10: return CALLING_REFERENCE;
    case 11: return COMMON_REFERENCE;
    case 12: return ADDITIONAL_REFERENCE;
    case 15: return SYNC;
    case 16: return TOKENS;
    case 17: return DISCONNECT;
    case 19: return OPTIONS;
    case 20: return REQUIREMENTS;
    case 21: return SIZES;
    case 22: return VERSION;
    case 23: return INITIAL;
    case 25: return ENCLOSURE;
    case 26: return SETTING;
    case 27: return RESYNC;
    case 42: return NUMBER;
    case 49: return REFLECT;
    case 50: return REASON;
    case 51: return CALLING;
    case 52: return CALLED;
    case 193: return DATA;
    case 194: return EXTENDED;
    default: return -1;
    }
}

static int number_in(struct slice value, uint32_t *number)
{
    uint32_t n = 0;
    if (value.length == 0 || value.length > 6)
        return 0;
    for (size_t i = 0; i < value.length; i++) {
        if (value.at[i] < '0' || value.at[i] > '9')
            return 0;
        n = n * 10 + (value.at[i] - '0');
    }
    *number = n;
    return 1;
}

static int octet_in(struct slice value, uint8_t *octet)
{
    if (value.length != 1)
        return 0;
    *octet = value.at[0];
    return 1;
}

/* Keeps the value of a parameter; 0 if it is bad. */
static int keep(struct unit *u, int place, struct slice v)
{
    uint8_t b = 0;
    switch (place) {
    case CALLED_REFERENCE: case CALLING_REFERENCE: case COMMON_REFERENCE: case ADDITIONAL_REFERENCE:
        u->references[place - CALLED_REFERENCE] = v;
        return 1;
    case SYNC:
        if (!octet_in(v, &b))
            return 0;
        u->sync = b & 1;
        return 1;
    case TOKENS:
        if (!octet_in(v, &b))
            return 0;
        u->tokens = b & 0x55;
        return 1;
    case DISCONNECT: return octet_in(v, &u->disconnect);
    case OPTIONS: return octet_in(v, &u->options);
    case VERSION: return octet_in(v, &u->version);
    case REQUIREMENTS:
        if (v.length != 2)
            return 0;
        u->requirements = (uint16_t)(v.at[0] << 8 | v.at[1]);
        return 1;
    case SIZES:
        if (v.length != 4)
            return 0;
        u->sizes = (uint32_t)v.at[0] << 24 | (uint32_t)v.at[1] << 16 | (uint32_t)v.at[2] << 8 | v.at[3];
        return 1;
    case INITIAL: return number_in(v, &u->initial);
    case NUMBER: return number_in(v, &u->number);
    case ENCLOSURE: return octet_in(v, &b) && b == 3;
    case SETTING:
        if (!octet_in(v, &b) || (b & b >> 1 & 0x55))
            return 0;
        u->setting = b;
        return 1;
    case RESYNC:
        if (!octet_in(v, &b) || b > 2)
            return 0;
        u->resync = b;
        return 1;
    case REFLECT: u->reflect = v; return 1;
    case REASON: u->reason = v; return v.length > 0;
    case CALLING: u->calling = v; return v.length <= 16;
    case CALLED: u->called = v; return v.length <= 16;
    case DATA: case EXTENDED: u->data = v; return 1;
    default: return 1;
    }
}

/* A length indicator of one or three octets, and the octets that it counts. */
static int measured(const uint8_t **at, const uint8_t *end, struct slice *value)
{
    size_t length;
    if (*at == end)
        return 0;
    length = *(*at)++;
    if (length == 255) {
        if (end - *at < 2)
            return 0;
        length = (size_t)(*at)[0] << 8 | (*at)[1];
        *at += 2;
    }
    if ((size_t)(end - *at) < length)
        return 0;
    value->at = *at;
    value->length = length;
    *at += length;
    return 1;
}

static struct failed failed(enum fault fault, unsigned code, const uint8_t *start, const uint8_t *at)
{
    struct failed f = {fault, code, (size_t)(at - start)};
    return f;
}

/* The parameters of one level: of a unit if `kind` is given, else of a group. */
static struct failed read_level(struct unit *u, const struct kind *kind, uint32_t known, const uint8_t *start,
                                struct slice level)
{
    const uint8_t *at = level.at, *end = level.at + level.length;
    while (at != end) {
        const uint8_t *item = at;
        uint8_t code = *at++;
        struct slice value;
        int place;
        if (!measured(&at, end, &value))
            return failed(LENGTH_PAST_END, 0, start, item);
        place = place_of(code);
        if (place < 0 || !(known & BIT(place)))
            continue;
        if (u->there & BIT(place) || (place == EXTENDED && u->there & BIT(DATA)) || (place == DATA && u->there & BIT(EXTENDED)))
            return failed(DUPLICATE, code, start, item);
        if (!keep(u, place, value))
            return failed(BAD_VALUE, code, start, item);
        u->there |= BIT(place);
        if (place == REFERENCES || place == ITEM) {
            uint32_t members = place == REFERENCES ? kind->references
                : BIT(OPTIONS) | BIT(SIZES) | BIT(VERSION) | BIT(INITIAL) | BIT(SETTING);
            struct failed f = read_level(u, kind, members, start, value);
            if (f.fault)
                return f;
        }
    }
    return failed(NONE, 0, start, start);
}

static struct failed read_unit(struct unit *u, int first, const uint8_t *start, const uint8_t **at, const uint8_t *end)
{
    const uint8_t *si = *at;
    const struct kind *kind;
    struct slice body;
    struct failed f;
    if (si == end)
        return failed(LENGTH_PAST_END, 0, start, si);
    kind = kind_named(*si, first);
    if (!kind)
        return failed(UNKNOWN_SI, 0, start, si);
    if (first == (kind->category == 2))
        return failed(BAD_CONCATENATION, 0, start, si);
    if (!first && kind->category != 2)
        return failed(BAD_CONCATENATION, 0, start, si);
    *at += 1;
    if (!measured(at, end, &body))
        return failed(LENGTH_PAST_END, 0, start, si);
    u->si = *si;
    u->category = kind->category;
    u->there = 0;
    u->data.length = 0;
    f = read_level(u, kind, kind->known, start, body);
    if (f.fault)
        return f;
    if (kind->required & ~u->there)
        return failed(MISSING, kind->required & ~u->there & BIT(RESYNC) ? 27 : 42, start, si);
    if ((u->there & (BIT(DATA) | BIT(EXTENDED))) && u->data.length == 0)
        u->there &= ~(BIT(DATA) | BIT(EXTENDED));
    u->information.length = 0;
    if (!first && u->si == 1) {
        u->information.at = *at;
        u->information.length = (size_t)(end - *at);
        *at = end;
    }
    return f;
}

#define MOST_UNITS 17

/* The units of a TSDU; `count` is their number. */
static struct failed read_units(struct unit units[MOST_UNITS], size_t *count, const uint8_t *octets, size_t length)
{
    const uint8_t *at = octets, *end = octets + length;
    struct failed f = read_unit(&units[0], 1, octets, &at, end);
    *count = 1;
    if (f.fault)
        return f;
    if (units[0].category == 1)
        return failed(at == end ? NONE : TRAILING, 0, octets, at);
    while (at != end) {
        if (*count == MOST_UNITS)
            return failed(kind_named(*at, 0) ? BAD_CONCATENATION : UNKNOWN_SI, 0, octets, at);
        f = read_unit(&units[*count], 0, octets, &at, end);
        if (f.fault)
            return f;
        *count += 1;
    }
    return f;
}
#endif

/* A small reader and writer of BER. */
#include "ber.h"

#include <string.h>

/* How deep elements of indefinite length may be nested. */
#define DEEPEST 16

struct ber ber_of(const uint8_t *at, size_t length)
{
    struct ber octets = {at, length, false};
    return octets;
}

static bool fault(struct ber *from)
{
    from->bad = true;
    return false;
}

static bool read_octet(struct ber *from, uint8_t *octet)
{
    if (from->length == 0)
        return fault(from);
    *octet = *from->at++;
    from->length--;
    return true;
}

/* The identifier octets: one, or for numbers from 31 on up to three more. */
static bool read_tag(struct ber *from, uint32_t *tag)
{
    uint8_t octet;
    if (!read_octet(from, &octet))
        return false;
    *tag = octet;
    if ((octet & 0x1f) != 0x1f)
        return true;
    for (int more = 0; more < 3; more++) {
        if (!read_octet(from, &octet))
            return false;
        *tag = *tag << 8 | octet;
        if (octet < 0x80)
            return true;
    }
    return fault(from);
}

/* The length octets; `open` if the length is indefinite. */
static bool read_length(struct ber *from, size_t *length, bool *open)
{
    uint8_t first, octet;
    if (!read_octet(from, &first))
        return false;
    *open = first == 0x80;
    *length = first < 0x80 ? first : 0;
    if (first <= 0x80)
        return true;
    for (int left = first & 0x7f; left > 0; left--) {
        if (*length > 0xffffff || !read_octet(from, &octet))
            return fault(from);
        *length = *length << 8 | octet;
    }
    return true;
}

static bool read_at(struct ber *from, uint32_t *tag, struct ber *contents, unsigned depth);

/* The contents of an element of indefinite length: up to the two octets 0 that end it. */
static bool read_open(struct ber *from, struct ber *contents, unsigned depth)
{
    const uint8_t *begin = from->at;
    while (from->length >= 2 && (from->at[0] != 0 || from->at[1] != 0)) {
        uint32_t tag;
        struct ber inner;
        if (depth == DEEPEST || !read_at(from, &tag, &inner, depth + 1))
            return fault(from);
    }
    if (from->length < 2)
        return fault(from);
    *contents = ber_of(begin, (size_t)(from->at - begin));
    from->at += 2;
    from->length -= 2;
    return true;
}

static bool read_at(struct ber *from, uint32_t *tag, struct ber *contents, unsigned depth)
{
    size_t length;
    bool open;
    if (from->bad || from->length == 0 || !read_tag(from, tag) || !read_length(from, &length, &open))
        return false;
    if (open)
        return read_open(from, contents, depth);
    if (length > from->length)
        return fault(from);
    *contents = ber_of(from->at, length);
    from->at += length;
    from->length -= length;
    return true;
}

bool ber_read(struct ber *from, uint32_t *tag, struct ber *contents)
{
    return read_at(from, tag, contents, 0);
}

bool ber_read_tag(struct ber *from, uint32_t tag, struct ber *contents)
{
    uint32_t found;
    return ber_read(from, &found, contents) && found == tag;
}

bool ber_find(struct ber in, uint32_t tag, struct ber *contents)
{
    uint32_t found;
    while (ber_read(&in, &found, contents))
        if (found == tag)
            return true;
    return false;
}

bool ber_number(struct ber contents, uint32_t *value)
{
    size_t at = 0;
    *value = 0;
    if (contents.length == 0 || contents.at[0] >= 0x80)
        return false;
    if (contents.at[0] == 0)
        at = 1;
    if (contents.length - at > 4)
        return false;
    for (; at < contents.length; at++)
        *value = *value << 8 | contents.at[at];
    return true;
}

bool ber_equals(struct ber contents, const uint8_t *octets, size_t length)
{
    return contents.length == length && memcmp(contents.at, octets, length) == 0;
}

/* ---- writing */

struct ber_writer ber_writer_of(uint8_t *at, size_t size)
{
    struct ber_writer w = {at, size, size, false};
    return w;
}

size_t ber_written(const struct ber_writer *w)
{
    return w->size - w->begin;
}

void ber_put(struct ber_writer *w, const uint8_t *octets, size_t length)
{
    if (w->full || length > w->begin) {
        w->full = true;
        return;
    }
    w->begin -= length;
    if (length > 0)
        memcpy(w->at + w->begin, octets, length);
}

static void put_octet(struct ber_writer *w, size_t octet)
{
    const uint8_t one = (uint8_t)octet;
    ber_put(w, &one, 1);
}

void ber_put_header(struct ber_writer *w, uint32_t tag, size_t length)
{
    size_t left = length, count = 0;
    if (length < 0x80) {
        put_octet(w, length);
    } else {
        for (; left > 0; left >>= 8, count++)
            put_octet(w, left & 0xff);
        put_octet(w, 0x80 | count);
    }
    for (; tag > 0; tag >>= 8)
        put_octet(w, tag & 0xff);
}

void ber_wrap(struct ber_writer *w, uint32_t tag, size_t before)
{
    ber_put_header(w, tag, ber_written(w) - before);
}

void ber_put_text(struct ber_writer *w, uint32_t tag, const char *text)
{
    ber_put(w, (const uint8_t *)text, strlen(text));
    ber_put_header(w, tag, strlen(text));
}

void ber_put_number(struct ber_writer *w, uint32_t tag, uint32_t value)
{
    const size_t before = ber_written(w);
    do {
        put_octet(w, value & 0xff);
        value >>= 8;
    } while (value > 0);
    if (!w->full && w->at[w->begin] >= 0x80)
        put_octet(w, 0);
    ber_wrap(w, tag, before);
}

/* A small reader and writer of BER (ITU-T X.690), with the parts that presentation, ACSE and MMS need.
 *
 * A tag is written here as its identifier octets, the first one highest: 0x61, 0xa0, 0xbf48. */
#ifndef BER_H
#define BER_H

#include <stdbool.h>
#include <stddef.h>
#include <stdint.h>

/* Octets that are still to be read. `bad` is set once a part of them can't be read. */
struct ber {
    const uint8_t *at;
    size_t length;
    bool bad;
};

struct ber ber_of(const uint8_t *at, size_t length);

/* Reads the next element: its tag and its contents, and moves on. False at the end of the octets, and
 * then `from->bad` says whether the reason is a fault. Lengths may be short, long or indefinite. */
bool ber_read(struct ber *from, uint32_t *tag, struct ber *contents);

/* Reads the next element, which has to have this tag. */
bool ber_read_tag(struct ber *from, uint32_t tag, struct ber *contents);

/* Finds the first element with this tag. */
bool ber_find(struct ber in, uint32_t tag, struct ber *contents);

/* An unsigned number of at most 32 bits, from the contents of an INTEGER. */
bool ber_number(struct ber contents, uint32_t *value);

bool ber_equals(struct ber contents, const uint8_t *octets, size_t length);

/* Writes from the last octet to the first, so that the length of the contents is known when their header is
 * written. The written octets begin at `at + begin`. */
struct ber_writer {
    uint8_t *at;
    size_t size;
    size_t begin;
    bool full; /* something had no room, and the written octets are of no use */
};

struct ber_writer ber_writer_of(uint8_t *at, size_t size);
size_t ber_written(const struct ber_writer *w);

/* Puts these octets in front of the written ones. */
void ber_put(struct ber_writer *w, const uint8_t *octets, size_t length);
/* Puts a header in front of the last `length` octets. */
void ber_put_header(struct ber_writer *w, uint32_t tag, size_t length);
/* Puts a header in front of all octets that were written since there were `before` of them. */
void ber_wrap(struct ber_writer *w, uint32_t tag, size_t before);
void ber_put_text(struct ber_writer *w, uint32_t tag, const char *text);
void ber_put_number(struct ber_writer *w, uint32_t tag, uint32_t value);

#endif

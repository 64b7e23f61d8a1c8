/* Text that grows. */
#ifndef TRIALS_TEXT_H
#define TRIALS_TEXT_H

#include <stddef.h>
#include <stdint.h>

struct text {
    char *at; /* ends with a 0, which is not counted */
    size_t length;
    size_t room;
};

/* Room for so many more octets. A trial that finds none ends the program. */
void text_grow(struct text *text, size_t more);
void text_clear(struct text *text);
void text_free(struct text *text);
void text_put(struct text *text, const char *format, ...) __attribute__((format(printf, 2, 3)));
/* Octets as hexadecimal digits; "-" for none. */
void text_octets(struct text *text, const uint8_t *at, size_t length);

#endif

/* The words of a command line: switches, most of them with a value, and then other words. */
#ifndef WORDS_H
#define WORDS_H

#include "upper.h"

#include <stdbool.h>
#include <stddef.h>

/* A switch, and where its value goes: one of these is not NULL. */
struct word {
    const char *name;           /* as "--port" */
    const char **text;
    unsigned long *number;
    unsigned long least, most;  /* of a number */
    struct selector *selector;  /* hexadecimal digits, text after a colon, or - for none; `most` octets */
    bool *is_there;             /* a switch without a value */
};

/* Reads the switches. It answers the place of the first word that is no switch. If something is wrong, it answers
 * -1 after one line on standard error. */
int words_read(const char *program, int count, char **words, const struct word *known, size_t length);

#endif

/* The words of a command line. */
#include "words.h"

#include <errno.h>
#include <stdio.h>
#include <stdlib.h>
#include <string.h>

static bool read_number(const char *text, const struct word *w)
{
    char *end;
    errno = 0;
    const unsigned long value = strtoul(text, &end, 10);
    if (errno != 0 || *text < '0' || *text > '9' || *end != '\0' || value < w->least || value > w->most)
        return false;
    *w->number = value;
    return true;
}

static int digit(char letter)
{
    static const char digits[] = "0123456789abcdef0123456789ABCDEF";
    const char *found = letter == '\0' ? NULL : strchr(digits, letter);
    return found == NULL ? -1 : (int)(found - digits) % 16;
}

/* "0001" are two octets, ":plant" is five, and "-" is none. */
static bool read_selector(const char *text, const struct word *w)
{
    if (strcmp(text, "-") == 0) {
        w->selector->length = 0;
        return true;
    }
    const bool is_text = text[0] == ':';
    const size_t length = is_text ? strlen(text) - 1 : strlen(text) / 2;
    if (length == 0 || length > w->most || (!is_text && strlen(text) % 2 != 0))
        return false;
    for (size_t i = 0; i < length; i++) {
        const int high = digit(text[2 * i * !is_text]), low = digit(text[(2 * i + 1) * !is_text]);
        if (!is_text && (high < 0 || low < 0))
            return false;
        w->selector->octets[i] = is_text ? (uint8_t)text[i + 1] : (uint8_t)(high << 4 | low);
    }
    w->selector->length = (uint8_t)length;
    return true;
}

static bool read_value(const char *program, const struct word *w, const char *value)
{
    if (w->text != NULL)
        *w->text = value;
    if (w->number != NULL && !read_number(value, w)) {
        fprintf(stderr, "%s: %s wants a number, %lu to %lu, and not %s\n", program, w->name, w->least, w->most, value);
        return false;
    }
    if (w->selector != NULL && !read_selector(value, w)) {
        fprintf(stderr, "%s: %s wants hexadecimal digits, or text after a colon, of at most %lu octets, and not %s\n", program,
                w->name, w->most, value);
        return false;
    }
    return true;
}

int words_read(const char *program, int count, char **words, const struct word *known, size_t length)
{
    int at = 1;
    while (at < count && strncmp(words[at], "--", 2) == 0) {
        const struct word *found = NULL;
        for (size_t i = 0; i < length; i++)
            if (strcmp(known[i].name, words[at]) == 0)
                found = &known[i];
        if (found == NULL || (found->is_there == NULL && at + 1 == count)) {
            fprintf(stderr, "%s: %s %s\n", program, words[at], found == NULL ? "is not known" : "wants a value");
            return -1;
        }
        if (found->is_there != NULL)
            *found->is_there = true;
        else if (!read_value(program, found, words[++at]))
            return -1;
        at++;
    }
    return at;
}

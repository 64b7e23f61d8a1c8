/* A text that grows. */
#include "text.h"

#include <stdarg.h>
#include <stdio.h>
#include <stdlib.h>
#include <string.h>

void text_grow(struct text *text, size_t more)
{
    if (text->length + more < text->room)
        return;
    text->room = 2 * (text->length + more) + 256;
    text->at = realloc(text->at, text->room);
    if (text->at == NULL)
        abort();
}

void text_clear(struct text *text)
{
    text_grow(text, 0);
    text->length = 0;
    text->at[0] = 0;
}

void text_free(struct text *text)
{
    free(text->at);
    *text = (struct text){NULL, 0, 0};
}

void text_put(struct text *text, const char *format, ...)
{
    va_list words;
    text_grow(text, 256);
    va_start(words, format);
    int length = vsnprintf(text->at + text->length, 256, format, words);
    va_end(words);
    if (length < 0 || length >= 256)
        abort();
    text->length += (size_t)length;
}

void text_octets(struct text *text, const uint8_t *at, size_t length)
{
    static const char digits[] = "0123456789abcdef";
    text_grow(text, 2 * length + 2);
    if (length == 0)
        text->at[text->length++] = '-';
    for (size_t i = 0; i < length; i++) {
        text->at[text->length++] = digits[at[i] >> 4];
        text->at[text->length++] = digits[at[i] & 15];
    }
    text->at[text->length] = 0;
}

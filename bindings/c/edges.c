/*
 * The layer between a program and the proved functions of crates/osi_c, for the three functions of osi.h whose arguments
 * a proof can't speak of: a missing slot, a null pointer in a struct, and a struct of another header. It is tested
 * (bindings/c/test_osi.c), and not proved. scripts/library links it in front of the proved functions, which it calls by
 * their names with proved_ before them.
 */
#include "osi.h"

#include <string.h>

void proved_osi_free(osi_end *end);
uint32_t proved_osi_connect(osi_end *end, const osi_opening *asked, uint16_t *reference);
void proved_osi_last(osi_end *end, osi_indication *shown);

void osi_free(osi_end *end)
{
    if (end != NULL)
        proved_osi_free(end);
}

/* Whether all octets are 0. */
static bool is_zero(const char *at, size_t length)
{
    for (size_t i = 0; i < length; i++)
        if (at[i] != 0)
            return false;
    return true;
}

/* Replaces a null pointer to no octets by one that is not null. */
static void point(osi_octets *octets)
{
    static const uint8_t none[1];
    if (octets->length == 0)
        octets->at = none;
}

/* A shorter opening comes from an older header: its missing fields are as in OSI_OPENING. A longer one has fields that this
 * library doesn't know, and is taken if they ask for nothing. */
uint32_t osi_connect_with_size(osi_end *end, const osi_opening *asked, size_t size, uint16_t *reference)
{
    osi_opening whole = OSI_OPENING;
    const size_t known = size < sizeof whole ? size : sizeof whole;
    if (!is_zero((const char *)asked + known, size - known))
        return OSI_BAD_ARGUMENT;
    memcpy(&whole, asked, known);
    point(&whole.calling_tsap);
    point(&whole.called_tsap);
    point(&whole.calling_selector);
    point(&whole.called_selector);
    point(&whole.user_data);
    return proved_osi_connect(end, &whole, reference);
}

/* A shorter indication gets its own fields and no other octet; a longer one gets 0 for fields that this library doesn't know.
 * It is not inlined: otherwise its room would be made for each indication of this header, too. */
__attribute__((noinline)) static void show_in(osi_end *end, osi_indication *shown, size_t size)
{
    osi_indication whole;
    proved_osi_last(end, &whole);
    memset(shown, 0, size);
    memcpy(shown, &whole, size < sizeof whole ? size : sizeof whole);
}

void osi_last_with_size(osi_end *end, osi_indication *shown, size_t size)
{
    if (size == sizeof *shown)
        proved_osi_last(end, shown);
    else
        show_in(end, shown, size);
}

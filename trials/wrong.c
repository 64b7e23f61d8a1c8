/* Ends with a bug, to see that the trials find it. Linked in front of the library (-Wl,--wrap), each function
 * does what it should, except for the one bug that TRIALS_WRONG names. */
#include "osi.h"

#include <stdlib.h>
#include <string.h>

static bool is_wrong(const char *name)
{
    static const char *wrong;
    if (wrong == NULL)
        wrong = getenv("TRIALS_WRONG") == NULL ? "" : getenv("TRIALS_WRONG");
    return strcmp(wrong, name) == 0;
}

uint8_t __real_osi_held(osi_end *end, uint16_t reference);
uint8_t __wrap_osi_held(osi_end *end, uint16_t reference);
uint32_t __real_osi_feed(osi_end *end, const uint8_t *piece, size_t length, osi_fed *fed);
uint32_t __wrap_osi_feed(osi_end *end, const uint8_t *piece, size_t length, osi_fed *fed);
uint32_t __real_osi_fetch(osi_end *end);
uint32_t __wrap_osi_fetch(osi_end *end);
size_t __real_osi_kept(osi_end *end);
size_t __wrap_osi_kept(osi_end *end);
uint32_t __real_osi_data(osi_end *end, uint16_t reference, const uint8_t *data, size_t length);
uint32_t __wrap_osi_data(osi_end *end, uint16_t reference, const uint8_t *data, size_t length);
uint32_t __real_osi_confirmed_below(osi_end *end, uint16_t reference);
uint32_t __wrap_osi_confirmed_below(osi_end *end, uint16_t reference);
void __real_osi_free(osi_end *end);
void __wrap_osi_free(osi_end *end);
uint32_t __real_osi_judge_feed(osi_judge *judge, uint32_t side, const uint8_t *piece, size_t length, size_t *used);
uint32_t __wrap_osi_judge_feed(osi_judge *judge, uint32_t side, const uint8_t *piece, size_t length, size_t *used);
void __real_osi_judge_text(osi_judge *judge, osi_octets *text);
void __wrap_osi_judge_text(osi_judge *judge, osi_octets *text);
uint32_t __real_osi_judge_write(osi_judge *judge);
uint32_t __wrap_osi_judge_write(osi_judge *judge);
void __real_osi_outgoing(osi_end *end, osi_octets *octets);
void __wrap_osi_outgoing(osi_end *end, osi_octets *octets);

uint8_t __wrap_osi_held(osi_end *end, uint16_t reference)
{
    uint8_t held = __real_osi_held(end, reference);
    bool more = is_wrong("given_and_held") && osi_phase(end, reference) == OSI_PHASE_READY;
    return more ? held | OSI_TOKEN_DATA : held;
}

uint32_t __wrap_osi_feed(osi_end *end, const uint8_t *piece, size_t length, osi_fed *fed)
{
    static unsigned long pieces;
    uint64_t detail;
    bool lost = is_wrong("an_octet_is_lost") && ++pieces % 50 == 0 && length > 0;
    uint32_t code = __real_osi_feed(end, piece, lost ? length - 1 : length, fed);
    fed->used += lost && fed->used == length - 1;
    if (is_wrong("the_end_uses_nothing") && osi_ended(end, &detail) != OSI_END_NONE)
        fed->used = 0;
    if (is_wrong("nothing_waits"))
        fed->waits = false;
    return code;
}

uint32_t __wrap_osi_fetch(osi_end *end)
{
    static unsigned long times;
    if (is_wrong("an_indication_is_lost") && ++times % 7 == 0)
        __real_osi_fetch(end);
    return __real_osi_fetch(end);
}

size_t __wrap_osi_kept(osi_end *end)
{
    return __real_osi_kept(end) + (is_wrong("more_is_kept") ? (size_t)129 << 20 : 0);
}

/* The room of what was sent last, which is kept until more is sent. */
static void *kept_room;

static void keep_room(size_t length)
{
    free(kept_room);
    kept_room = length == 0 ? NULL : malloc(length);
}

uint32_t __wrap_osi_data(osi_end *end, uint16_t reference, const uint8_t *data, size_t length)
{
    if (is_wrong("always_no_memory"))
        return OSI_NO_MEMORY;
    if (is_wrong("room_is_kept"))
        keep_room(length);
    uint32_t code = __real_osi_data(end, reference, data, length);
    if (code == OSI_NO_MEMORY && is_wrong("a_refused_call_is_done"))
        __real_osi_data(end, reference, data, length);
    return code;
}

uint32_t __wrap_osi_confirmed_below(osi_end *end, uint16_t reference)
{
    uint32_t below = __real_osi_confirmed_below(end, reference);
    return is_wrong("confirmed_unseen") && below < osi_next_serial(end, reference) ? osi_next_serial(end, reference)
                                                                                   : below;
}

void __wrap_osi_free(osi_end *end)
{
    keep_room(0);
    if (is_wrong("nothing_is_freed"))
        *end = (osi_end)OSI_END;
    __real_osi_free(end);
}

void __wrap_osi_outgoing(osi_end *end, osi_octets *octets)
{
    static uint8_t copy[1 << 16];
    __real_osi_outgoing(end, octets);
    if (!is_wrong("another_reference_is_sent") || octets->length < 10 || octets->length > sizeof copy)
        return;
    memcpy(copy, octets->at, octets->length);
    copy[9] ^= 1;
    octets->at = copy;
}

/* Whether octets have passed since a text was written. */
static bool passed_since;

uint32_t __wrap_osi_judge_feed(osi_judge *judge, uint32_t side, const uint8_t *piece, size_t length, size_t *used)
{
    passed_since = true;
    return __real_osi_judge_feed(judge, side, piece, length, used);
}

uint32_t __wrap_osi_judge_write(osi_judge *judge)
{
    passed_since = false;
    return __real_osi_judge_write(judge);
}

void __wrap_osi_judge_text(osi_judge *judge, osi_octets *text)
{
    __real_osi_judge_text(judge, text);
    if (is_wrong("a_text_is_lost") && passed_since)
        text->length = 0;
}

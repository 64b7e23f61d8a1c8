/* Counts the octets that ends hold. What has gone out is held no longer, however much has waited for credit; nor is what
 * waited on a connection that is over. A TSDU, and data, that arrives in parts is held once, and its last part makes just
 * the room that is missing. Data that leaves in parts is held once while its parts wait. */
#include "memory.h"
#include "pairs.h"

#include <stdio.h>
#include <stdlib.h>
#include <string.h>

#define MOST_DATA 1048572u
#define MANY 64u
/* What an end holds beside octets of its user: room for the units of a window, and for the places of what waits. */
#define SMALL 16384u
/* Of a part that waits: its header, and the place of its buffer. */
#define OF_A_PART 64u

static struct pair pair;
static uint8_t data[MOST_DATA];
static size_t shown_data; /* octets of data that were shown */

static void is_shown(void *to, const osi_indication *i)
{
    (void)to;
    if (i->tag == OSI_DATA)
        shown_data += i->user_data.length;
}

/* ---- two ends, and what they hold */

/* What is held may be so many octets at most. */
static void at_most(const char *what, size_t held, size_t most)
{
    holds(held <= most, "%s: %zu octets are held, and %zu at most should be", what, held, most);
}

/* Carries once all that a side has to send; whether it had something. */
static bool carries(int side)
{
    osi_octets octets;
    osi_outgoing(&pair.ends[side], &octets);
    if (octets.length == 0)
        return false;
    end_feed(&pair.ends[1 - side], octets.at, octets.length, SIZE_MAX, is_shown, NULL);
    memory_in();
    holds(osi_taken(&pair.ends[side], octets.length) == OSI_OK, "octets can't be taken away");
    memory_out();
    return true;
}

static void carries_all(void)
{
    while (carries(LEFT) | carries(RIGHT))
        ;
}

/* Two ends with an open connection, over which both sides send data. A size of 0: TSDUs have any length. Returns what both hold. */
static size_t opened(uint8_t classes, uint8_t size, uint16_t tsdu_size)
{
    struct event ends = event_of(ENDS, LEFT, 0, 0), connect = event_of(CONNECT, LEFT, 0, 0);
    struct event accept = event_of(CALL, RIGHT, 0, 0);
    ends.terms[LEFT] = ends.terms[RIGHT] = (osi_terms){classes, size, 15};
    connect.units = accept.units = OSI_DUPLEX;
    connect.data = accept.data = octets_of("-", &connect.length);
    connect.addresses[0] = connect.addresses[1] = connect.data;
    connect.sizes[0] = connect.sizes[1] = accept.sizes[0] = accept.sizes[1] = tsdu_size;
    accept.verb = ACCEPT;
    accept.reference = 1;
    pair_begin(&pair);
    holds(pair_apply(&pair, &ends) == DONE && pair_apply(&pair, &connect) == DONE, "no connection is asked for");
    carries_all();
    holds(pair_apply(&pair, &accept) == DONE, "no connection is accepted");
    carries_all();
    holds(osi_phase(&pair.ends[LEFT], 1) == OSI_PHASE_READY, "the connection is not open");
    runs += 1;
    shown_data = 0;
    memory_peak();
    return memory_octets();
}

static void says(size_t length)
{
    memory_in();
    uint32_t code = osi_data(&pair.ends[LEFT], 1, data, length);
    memory_out();
    holds(code == OSI_OK, "data is refused: %u", code);
}

/* ---- what has waited for credit */

/* So many data of this length wait, and go out as the peer gives credit. Returns what is held when all is shown and acknowledged. */
static size_t waits_and_goes(size_t count, size_t length)
{
    size_t before = memory_octets(), shown = shown_data;
    for (size_t i = 0; i < count; i++)
        says(length);
    at_most("data that waits", memory_octets(), before + count * (length + OF_A_PART) + SMALL);
    carries_all();
    holds(shown_data - shown == count * length, "%zu octets are shown", shown_data - shown);
    holds(osi_unsent(&pair.ends[LEFT], 1) == 0, "something still waits");
    return memory_octets();
}

/* Before it is looked at, as many short data have gone the same way: the room for a window, and for places, is there. */
static void what_has_waited(void)
{
    static const size_t counts_of[] = {1, 2, MANY};
    text_clear(&place);
    text_put(&place, "data that has waited for credit");
    for (size_t i = 0; i < sizeof counts_of / sizeof counts_of[0]; i++) {
        size_t open = opened(OSI_CLASS_2, 7, 0), count = counts_of[i];
        size_t quiet = waits_and_goes(count, 2000);
        at_most("short data has gone", quiet, open + SMALL);
        size_t after = waits_and_goes(count, MOST_DATA);
        holds(after == quiet, "%zu octets are held when %zu long data have gone, and %zu before", after, count, quiet);
        printf("room: %zu data of %u octets wait for credit: %zu octets are held once they have gone, and %zu before\n", count, MOST_DATA,
               after, quiet);
        pair_free(&pair);
    }
}

/* In class 0 nothing waits for credit: all is lent at once. Its room stays, and is used again. */
static void what_goes_at_once(void)
{
    text_clear(&place);
    text_put(&place, "data that goes at once");
    size_t open = opened(OSI_CLASS_0, 13, 0), after[2];
    for (int time = 0; time < 2; time++) {
        for (size_t i = 0; i < MANY / 8; i++)
            says(MOST_DATA);
        osi_octets octets;
        osi_outgoing(&pair.ends[LEFT], &octets);
        at_most("while it is lent", memory_octets(), open + octets.length + SMALL);
        carries_all();
        after[time] = memory_octets();
    }
    holds(shown_data == 2 * (MANY / 8) * (size_t)MOST_DATA, "%zu octets are shown", shown_data);
    holds(after[1] == after[0], "%zu octets are held after the same data again, and %zu before", after[1], after[0]);
    printf("room: the room of %u data in class 0 is used again\n", MANY / 8);
    pair_free(&pair);
}

/* ---- what waits on a connection that is over */

enum end_of_it { DISCONNECTED, DISCONNECTED_BY_PEER, BROKEN, ABORTED };

static void ends_it(enum end_of_it how)
{
    uint32_t code = OSI_OK;
    memory_in();
    if (how == DISCONNECTED)
        code = osi_disconnect(&pair.ends[LEFT], 1);
    else if (how == DISCONNECTED_BY_PEER)
        code = osi_disconnect(&pair.ends[RIGHT], 1);
    else if (how == BROKEN)
        code = osi_broken(&pair.ends[LEFT]);
    else
        code = osi_abort(&pair.ends[LEFT], 1, OSI_NO_DATA);
    memory_out();
    holds(code == OSI_OK, "the connection does not end: %u", code);
    if (how == DISCONNECTED_BY_PEER)
        carries(RIGHT);
    end_fetch(&pair.ends[LEFT], is_shown, NULL);
}

static void what_waits_no_longer(void)
{
    static const char *const names[] = {"a disconnect", "a disconnect of the peer", "a break", "an abort that all goes before"};
    for (int how = DISCONNECTED; how <= ABORTED; how++) {
        text_clear(&place);
        text_put(&place, "%s behind what waits", names[how]);
        size_t open = opened(OSI_CLASS_2, 7, 0);
        for (size_t i = 0; i < MANY; i++)
            says(MOST_DATA);
        size_t waits = osi_unsent(&pair.ends[LEFT], 1), held = memory_octets();
        holds(waits >= MANY * (size_t)MOST_DATA - SMALL && held >= open + waits, "only %zu octets wait", waits);
        ends_it((enum end_of_it)how);
        if (how == ABORTED)
            carries_all();
        at_most(names[how], memory_octets(), open + SMALL);
        printf("room: %s: of %zu octets, %zu wait, and %zu more than at first are held after it\n", names[how], held, waits,
               memory_octets() > open ? memory_octets() - open : 0);
        pair_free(&pair);
    }
}

/* ---- what arrives in parts */

/* What is held while the parts of one value arrive. */
struct joining {
    size_t before, so_far, last; /* before the first part, before the last one, and after it */
};

/* The last part makes just the room that is missing, and the parts before it no more than twice what they need. */
static void check_joining(const struct joining *j, size_t parts, size_t octets, size_t last)
{
    size_t so_far = j->so_far - j->before, after = j->last - j->before;
    size_t most = so_far > octets ? so_far : octets;
    at_most("before the last part", so_far, 2 * (octets - last) + SMALL / 16);
    holds(after <= most + SMALL / 16, "%zu octets in %zu parts: %zu are held before the last part, and %zu after it", octets, parts,
          so_far, after);
}

/* Feeds the right end, which sent nothing, one packet of a unit that begins with this header. */
static void feeds_unit(const uint8_t *header, size_t header_length, const uint8_t *octets, size_t length)
{
    static uint8_t packet[65535];
    size_t whole = 4 + header_length + length;
    const uint8_t start[] = {3, 0, (uint8_t)(whole >> 8), (uint8_t)whole};
    memcpy(packet, start, sizeof start);
    memcpy(packet + sizeof start, header, header_length);
    memcpy(packet + sizeof start + header_length, octets, length);
    osi_fed fed;
    memory_in();
    osi_feed(&pair.ends[RIGHT], packet, whole, &fed);
    memory_out();
    holds(fed.used == whole, "a packet is not used");
}

/* A TSDU with data, in so many DTs. */
static void one_tsdu(uint8_t classes, size_t parts, size_t length)
{
    static uint8_t tsdu[MOST_DATA + 4];
    const uint8_t session[] = {1, 0, 1, 0}; /* GT and DT */
    struct joining j = {.before = opened(classes, 13, 0)};
    memcpy(tsdu, session, sizeof session);
    for (size_t i = 0; i < parts; i++) {
        const uint8_t end = i + 1 == parts ? 0x80 : 0;
        const uint8_t class_0[] = {2, 0xf0, end}, class_2[] = {4, 0xf0, 0, 1, (uint8_t)(end | ((i + 1) & 0x7f))};
        if (end)
            j.so_far = memory_octets();
        feeds_unit(classes == OSI_CLASS_0 ? class_0 : class_2, classes == OSI_CLASS_0 ? 3 : 5, tsdu + i * length, length);
        memory_in();
        osi_octets octets;
        osi_outgoing(&pair.ends[RIGHT], &octets);
        osi_taken(&pair.ends[RIGHT], octets.length);
        memory_out();
    }
    j.last = memory_octets();
    check_joining(&j, parts, parts * length, length);
    end_fetch(&pair.ends[RIGHT], is_shown, NULL);
    holds(shown_data == parts * length - sizeof session, "%zu octets are shown", shown_data);
    at_most("a TSDU was fetched", memory_octets(), j.before + SMALL / 16);
    pair_free(&pair);
}

/* Data that the left end sends in so many TSDUs, each in one packet. */
static void one_data(uint8_t classes, size_t parts, size_t length)
{
    size_t open = opened(classes, 13, (uint16_t)(length + 8)), all = parts * length;
    struct joining j = {.before = 0};
    osi_octets octets;
    says(all);
    osi_outgoing(&pair.ends[LEFT], &octets);
    j.before = memory_octets();
    for (size_t at = 0; at < octets.length;) {
        size_t packet = (size_t)octets.at[at + 2] << 8 | octets.at[at + 3];
        osi_fed fed;
        j.so_far = memory_octets();
        memory_in();
        osi_feed(&pair.ends[RIGHT], octets.at + at, packet, &fed);
        memory_out();
        holds(fed.used == packet, "a packet is not used");
        at += packet;
    }
    j.last = memory_octets();
    check_joining(&j, parts, all, length);
    end_fetch(&pair.ends[RIGHT], is_shown, NULL);
    holds(shown_data == all, "%zu octets are shown", shown_data);
    at_most("data was fetched", memory_octets(), j.before + SMALL / 16);
    (void)open;
    pair_free(&pair);
}

static void what_arrives_in_parts(void)
{
    static const uint8_t classes[] = {OSI_CLASS_0, OSI_CLASS_2};
    for (size_t i = 0; i < 2; i++) {
        text_clear(&place);
        text_put(&place, "parts of a TSDU in class %d", i == 0 ? 0 : 2);
        for (size_t parts = 2; parts <= 70; parts++)
            one_tsdu(classes[i], parts, 5000);
        one_tsdu(classes[i], 2, 65000);
    }
    text_clear(&place);
    text_put(&place, "parts of data");
    for (size_t parts = 2; parts <= 70; parts++)
        one_data(OSI_CLASS_0, parts, 5000);
    printf("room: TSDUs and data of 2 to 70 parts: the last part makes just the room that is missing\n");
}

/* ---- parts that wait */

static void parts_that_wait(void)
{
    static const uint16_t sizes[] = {100, 1000, 60000};
    for (size_t i = 0; i < sizeof sizes / sizeof sizes[0]; i++) {
        text_clear(&place);
        text_put(&place, "parts of at most %u octets that wait", sizes[i]);
        size_t open = opened(OSI_CLASS_2, 7, sizes[i]), parts = MOST_DATA / (sizes[i] - 8u) + 1;
        says(MOST_DATA);
        size_t held = memory_octets() - open, most = memory_peak() - open;
        at_most("while they wait", held, MOST_DATA + parts * OF_A_PART + SMALL);
        at_most("at the call", most, MOST_DATA + parts * OF_A_PART + SMALL);
        carries_all();
        holds(shown_data == MOST_DATA, "%zu octets are shown", shown_data);
        printf("room: data of %u octets in parts of at most %u: %zu octets are held while they wait (at most %zu), and %zu in the end\n",
               MOST_DATA, sizes[i], held, most, memory_octets() - open);
        at_most("when they have gone", memory_octets(), open + parts * OF_A_PART + SMALL);
        pair_free(&pair);
    }
}

int main(void)
{
    memset(data, 0x41, sizeof data);
    what_has_waited();
    what_goes_at_once();
    what_waits_no_longer();
    what_arrives_in_parts();
    parts_that_wait();
    return counts("room");
}

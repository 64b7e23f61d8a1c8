/* Units other than data and plain points, over two ends of the library for C: tokens that are given and asked for, points with
 * user data, restarts, and refused releases. Each round sends the same number of units, and each of them causes an indication.
 *
 *     others proved KIND CLASS ROUNDS */
#include "osi.h"

#include <stdio.h>
#include <stdlib.h>
#include <string.h>

#define UNITS (OSI_HALF_DUPLEX | OSI_MINOR_SYNC | OSI_RESYNCHRONIZE | OSI_NEGOTIATED_RELEASE)

static const osi_sides all_to_asker = {OSI_ASKER, OSI_ASKER, OSI_ASKER, OSI_ASKER};
static const uint8_t ten[10] = "user data";
static osi_end caller = OSI_END, called = OSI_END;
static uint16_t reference;
static uint64_t shown_units;

static bool carry_some(osi_end *from, osi_end *to)
{
    osi_octets octets;
    osi_fed fed;
    osi_indication shown;
    osi_outgoing(from, &octets);
    if (octets.length == 0)
        return false;
    osi_feed(to, octets.at, octets.length, &fed);
    osi_taken(from, fed.used);
    if (fed.waits && osi_next(to, &shown) && shown.tag < OSI_ABORTED)
        shown_units += 1;
    return true;
}

static void exchange(void)
{
    osi_octets octets;
    do {
        while (carry_some(&caller, &called)) {}
        while (carry_some(&called, &caller)) {}
        osi_outgoing(&caller, &octets);
    } while (octets.length > 0);
}

/* Tokens are given, and given back. */
static unsigned give(void)
{
    unsigned good = osi_give(&caller, reference, OSI_TOKEN_DATA) == OSI_OK;
    exchange();
    good += osi_give(&called, reference, OSI_TOKEN_DATA) == OSI_OK;
    exchange();
    return good;
}

/* Tokens are asked for. */
static unsigned ask(void)
{
    unsigned good = osi_please(&called, reference, OSI_TOKEN_DATA, OSI_NO_DATA) == OSI_OK;
    exchange();
    return good;
}

/* A point and its confirmation, both with user data. */
static unsigned point(void)
{
    uint32_t number = osi_next_serial(&caller, reference);
    unsigned good = osi_minor(&caller, reference, 1, ten, sizeof ten) == OSI_OK;
    exchange();
    good += osi_minor_confirm(&called, reference, number, ten, sizeof ten) == OSI_OK;
    exchange();
    return good;
}

/* A restart and its confirmation. */
static unsigned restart(void)
{
    unsigned good = osi_restart(&caller, reference, osi_next_serial(&caller, reference), &all_to_asker, OSI_NO_DATA) == OSI_OK;
    exchange();
    good += osi_restart_confirm(&called, reference, &all_to_asker, OSI_NO_DATA) == OSI_OK;
    exchange();
    return good;
}

/* A release is asked for and refused. */
static unsigned release(void)
{
    unsigned good = osi_release(&caller, reference, OSI_NO_DATA) == OSI_OK;
    exchange();
    good += osi_release_refuse(&called, reference, OSI_NO_DATA) == OSI_OK;
    exchange();
    return good;
}

static bool open_one(bool class_two)
{
    osi_terms terms = {class_two ? OSI_CLASS_2 : OSI_CLASS_0, 13, 15};
    osi_opening asked = OSI_OPENING;
    asked.requirements = UNITS;
    if (osi_caller(&caller, &terms) || osi_called(&called, &terms) || osi_connect(&caller, &asked, &reference))
        return false;
    exchange();
    if (osi_accept(&called, reference, UNITS, 0, &all_to_asker, OSI_NO_DATA))
        return false;
    exchange();
    return true;
}

int main(int count, char **words)
{
    static const struct {
        const char *name;
        unsigned (*round)(void);
    } kinds[] = {{"give", give}, {"ask", ask}, {"point", point}, {"restart", restart}, {"release", release}};
    if (count < 5)
        return 2;
    if (!open_one(atoi(words[3]) == 2))
        return 1;
    uint64_t rounds = strtoull(words[4], NULL, 10), sent = 0, before = shown_units;
    for (size_t kind = 0; kind < sizeof kinds / sizeof *kinds; kind++)
        for (uint64_t i = 0; i < rounds && strcmp(words[2], kinds[kind].name) == 0; i++)
            sent += kinds[kind].round();
    uint64_t seen = shown_units - before;
    printf("%llu operations\n", (unsigned long long)sent);
    osi_free(&caller);
    osi_free(&called);
    return sent == 0 || seen != sent;
}

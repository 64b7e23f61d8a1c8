/* The resident memory of two ends of the library for C while much is in flight: on each connection the caller sends one
 * message, and none is shown before all of it has arrived. Class 2, a window of 15, TPDUs of at most 8,192 octets.
 *
 *     memory CONNECTIONS OCTETS
 *
 * prints in MiB how much the messages have together, how much more is resident once all are handed in, and how much more at
 * most until the last of them was shown. */
#include "osi.h"

#include <stdio.h>
#include <stdlib.h>
#include <string.h>

static osi_end caller = OSI_END, called = OSI_END;
static uint64_t octets_shown;
static uint32_t refused;
static double most;

/* The resident memory of this process, in MiB. */
static double resident(void)
{
    char line[128];
    double found = 0;
    FILE *file = fopen("/proc/self/status", "r");
    while (file && fgets(line, sizeof line, file))
        if (sscanf(line, "VmRSS: %lf kB", &found) == 1)
            break;
    if (file)
        fclose(file);
    return found / 1024;
}

/* Hands at most 64 KiB from one end to the other, and drops what the user there is shown. */
static bool carry_some(osi_end *from, osi_end *to)
{
    osi_octets octets;
    osi_fed fed;
    osi_indication shown;
    osi_outgoing(from, &octets);
    if (octets.length == 0)
        return false;
    osi_feed(to, octets.at, octets.length < 65536 ? octets.length : 65536, &fed);
    osi_taken(from, fed.used);
    if (fed.waits && osi_next(to, &shown) && shown.tag == OSI_DATA)
        octets_shown += shown.user_data.length;
    return true;
}

/* Carries both ways until nothing is left, and notes the greatest resident memory. */
static void exchange(void)
{
    bool there, back;
    do {
        there = carry_some(&caller, &called);
        back = carry_some(&called, &caller);
        const double now = resident();
        most = now > most ? now : most;
    } while (there || back);
}

static void open_one(void)
{
    uint16_t reference;
    osi_opening asked = OSI_OPENING;
    osi_sides sides = {OSI_ASKER, OSI_ASKER, OSI_ASKER, OSI_ASKER};
    asked.requirements = OSI_HALF_DUPLEX;
    refused |= osi_connect(&caller, &asked, &reference);
    exchange();
    refused |= osi_accept(&called, reference, asked.requirements, 0, &sides, OSI_NO_DATA);
    exchange();
}

int main(int words, char **word)
{
    if (words != 3)
        return 2;
    const unsigned connections = (unsigned)atoi(word[1]);
    const size_t octets = strtoull(word[2], NULL, 10);
    const osi_terms terms = {OSI_CLASS_2, 13, 15};
    uint8_t *message = malloc(octets);
    memset(message, 0x41, octets);
    refused |= osi_caller(&caller, &terms) | osi_called(&called, &terms);
    for (unsigned i = 0; i < connections; i++)
        open_one();
    const double before = resident();
    most = before;
    for (unsigned i = 1; i <= connections; i++)
        refused |= osi_data(&caller, (uint16_t)i, message, octets);
    const double kept = resident();
    exchange();
    printf("%.1f MiB of messages; handed in: %.1f MiB more; on the way: at most %.1f MiB more\n",
           (double)connections * (double)octets / 1048576, kept - before, most - before);
    const bool is_whole = octets_shown == (uint64_t)connections * octets;
    osi_free(&caller);
    osi_free(&called);
    free(message);
    return refused != 0 || !is_whole;
}

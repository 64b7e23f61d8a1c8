/* The work of the scripts of bench/pair.sh, by two ends of the library for C: the same calls, the same octets carried from
 * one end to the other, and each indication fetched.
 *
 *     pair ROUNDS
 *
 * prints how many octets were carried and how many indications were fetched, as in the transcript of the script. */
#include "osi.h"

#include <stdio.h>
#include <stdlib.h>

static osi_end left = OSI_END, right = OSI_END;
static uint64_t carried, shown;

static void must(uint32_t code)
{
    if (code == OSI_OK)
        return;
    fprintf(stderr, "answered %u\n", (unsigned)code);
    exit(1);
}

/* Carries all outgoing octets of an end, as far as the other takes them. */
static void carry(osi_end *from, osi_end *to)
{
    osi_octets octets;
    osi_fed fed;
    osi_indication indication;
    for (;;) {
        osi_outgoing(from, &octets);
        if (octets.length == 0)
            return;
        must(osi_feed(to, octets.at, octets.length, &fed));
        must(osi_taken(from, fed.used));
        carried += fed.used;
        while (osi_next(to, &indication))
            shown += 1;
    }
}

static uint16_t open_one(void)
{
    uint16_t reference;
    osi_opening asked = OSI_OPENING;
    osi_sides sides = {OSI_ASKER, OSI_ASKER, OSI_ASKER, OSI_ASKER};
    asked.requirements = OSI_HALF_DUPLEX | OSI_MINOR_SYNC | OSI_MAJOR_SYNC | OSI_RESYNCHRONIZE | OSI_NEGOTIATED_RELEASE;
    asked.serial = 1;
    must(osi_connect(&left, &asked, &reference));
    carry(&left, &right);
    carry(&right, &left);
    carry(&left, &right);
    must(osi_accept(&right, reference, asked.requirements, asked.serial, &sides, OSI_NO_DATA));
    carry(&right, &left);
    return reference;
}

int main(int count, char **words)
{
    static const uint8_t data[] = {'o', 'n', 'e', ' ', 't', 'w', 'o'};
    osi_terms terms = {OSI_CLASS_2, 13, 15};
    if (count != 2)
        return 2;
    uint32_t rounds = (uint32_t)strtoul(words[1], NULL, 10);
    must(osi_caller(&left, &terms));
    must(osi_called(&right, &terms));
    uint16_t reference = open_one();
    for (uint32_t number = 1; number <= rounds; number++) {
        must(osi_data(&left, reference, data, sizeof data));
        carry(&left, &right);
        must(osi_minor(&left, reference, 1, OSI_NO_DATA));
        carry(&left, &right);
        must(osi_minor_confirm(&right, reference, number, OSI_NO_DATA));
        carry(&right, &left);
    }
    osi_free(&left);
    osi_free(&right);
    printf("%llu %llu\n", (unsigned long long)carried, (unsigned long long)shown);
    return 0;
}

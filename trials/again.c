/* Octets that can be read, written and read again come out the same. For each line of a file, this is tested
 * for the transport units of the packet on it and, if they are one data unit, for its TSDU.
 *
 *     again FILE */
#include "ends.h"
#include "scripts.h"

#include <stdio.h>
#include <stdlib.h>
#include <string.h>

#define LINE 200000

/* crates/osi_bench: 0 the octets are refused, 1 they come out the same, 2 they don't, 3 out of memory. */
uint32_t osi_trial_units(const uint8_t *packet, size_t length);
uint32_t osi_trial_tsdu(const uint8_t *tsdu, size_t length);

static uint64_t units[4], tsdus[4];

/* The header of a data unit of either class; 0 for other units. */
static size_t header_of(const uint8_t *unit, size_t length)
{
    if (length >= 3 && unit[0] == 2 && unit[1] == 0xf0)
        return 3;
    return length >= 5 && unit[0] == 4 && unit[1] == 0xf0 ? 5 : 0;
}

static void one(const uint8_t *packet, size_t length)
{
    if (length < 4)
        return;
    const uint8_t *unit = packet + 4;
    size_t header = header_of(unit, length - 4);
    uint32_t found = osi_trial_units(unit, length - 4);
    units[found & 3] += 1;
    holds(found < 2, "the units of a packet do not come back: %u", found);
    runs += 1;
    if (header == 0)
        return;
    found = osi_trial_tsdu(unit + header, length - 4 - header);
    tsdus[found & 3] += 1;
    holds(found < 2, "a TSDU does not come back: %u", found);
    runs += 1;
}

int main(int count, char **words)
{
    static char line[LINE];
    FILE *file = count > 1 ? fopen(words[1], "r") : NULL;
    if (file == NULL)
        return 2;
    while (fgets(line, sizeof line, file) != NULL) {
        size_t length;
        line[strcspn(line, "\n")] = 0;
        uint8_t *packet = octets_of(line, &length);
        text_clear(&place);
        text_put(&place, "%.200s", line);
        one(packet, length);
        free(packet);
    }
    printf("again: the units of %llu packets and %llu TSDUs come back, %llu and %llu are refused\n",
           (unsigned long long)units[1], (unsigned long long)tsdus[1], (unsigned long long)units[0],
           (unsigned long long)tsdus[0]);
    return counts("again");
}

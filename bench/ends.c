/* The work of osi_bench_stacks by the library for C: the same calls in the same order, to measure the cost of
 * the interface for C. `ends c ..` does it by osi.h, `ends stacks ..` by osi_bench; bench/ledger counts the
 * instructions of both.
 *
 *     ends c|stacks SIZE CONNECTIONS CLASS POINTS ROUNDS */
#include "osi.h"

#include <stdio.h>
#include <stdlib.h>
#include <string.h>

/* A slice is passed as a pointer and a length; the allocator passes nothing. */
uint64_t osi_bench_stacks(const uint8_t *data, size_t length, size_t rounds, uint16_t connections, uint16_t first,
                          bool class_two, bool points, uint16_t size);

static osi_end caller = OSI_END, called = OSI_END;
static uint64_t messages, octets_shown;
static uint32_t refused;

static bool carry_some(osi_end *from, osi_end *to)
{
    osi_octets octets;
    osi_fed fed;
    osi_indication shown;
    osi_outgoing(from, &octets);
    if (octets.length == 0)
        return false;
    osi_feed(to, octets.at, octets.length, &fed);
    osi_taken(from, fed.used);
    if (fed.waits && osi_next(to, &shown)
        && (shown.tag == OSI_DATA || shown.tag == OSI_MINOR || shown.tag == OSI_MINOR_CONFIRMED)) {
        messages += 1;
        octets_shown += shown.user_data.length;
    }
    return true;
}

static void carry(osi_end *from, osi_end *to)
{
    while (carry_some(from, to)) {}
}

static void exchange(void)
{
    osi_octets octets;
    do {
        carry(&caller, &called);
        carry(&called, &caller);
        osi_outgoing(&caller, &octets);
    } while (octets.length > 0);
}

static void open_one(void)
{
    uint16_t reference;
    osi_opening asked = OSI_OPENING;
    osi_sides sides = {OSI_ASKER, OSI_ASKER, OSI_ASKER, OSI_ASKER};
    asked.requirements = OSI_HALF_DUPLEX | OSI_MINOR_SYNC;
    refused |= osi_connect(&caller, &asked, &reference);
    exchange();
    refused |= osi_accept(&called, reference, asked.requirements, 0, &sides, OSI_NO_DATA);
    exchange();
}

static void one_round(uint16_t reference, const uint8_t *data, size_t length, bool points)
{
    refused |= osi_data(&caller, reference, data, length);
    exchange();
    if (!points)
        return;
    uint32_t number = osi_next_serial(&caller, reference);
    refused |= osi_minor(&caller, reference, 1, OSI_NO_DATA);
    exchange();
    refused |= osi_minor_confirm(&called, reference, number, OSI_NO_DATA);
    exchange();
}

static uint64_t over_c(const uint8_t *data, size_t length, size_t rounds, uint16_t connections, bool class_two,
                       bool points)
{
    osi_terms terms = {class_two ? OSI_CLASS_2 : OSI_CLASS_0, 13, 15};
    uint16_t reference = 0;
    refused |= osi_caller(&caller, &terms) | osi_called(&called, &terms);
    for (uint16_t i = 0; i < connections; i++)
        open_one();
    for (size_t i = 0; i < rounds; i++) {
        reference = reference < connections ? reference + 1 : 1;
        one_round(reference, data, length, points);
    }
    osi_free(&caller);
    osi_free(&called);
    return messages * 1000003 + octets_shown;
}

int main(int count, char **words)
{
    static uint8_t data[1 << 20];
    if (count < 7)
        return 2;
    size_t length = strtoull(words[2], NULL, 10), rounds = strtoull(words[6], NULL, 10);
    uint16_t connections = (uint16_t)atoi(words[3]);
    bool class_two = atoi(words[4]) == 2, points = atoi(words[5]) != 0;
    memset(data, 0x41, sizeof data);
    uint64_t seen = strcmp(words[1], "c") == 0
        ? over_c(data, length, rounds, connections, class_two, points)
        : osi_bench_stacks(data, length, rounds, connections, 1, class_two, points, 0);
    printf("%zu operations\n", rounds);
    return seen == 0 || refused != 0;
}

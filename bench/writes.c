/* Writes the units of a TSDU many times into the same room, in ns each. */
#include <stdint.h>
#include <stdio.h>
#include <stdlib.h>
#include "timer.h"

/* A slice is passed as a pointer and a length, the allocator as nothing. */
uint64_t osi_bench_writes(const uint8_t *tsdu, size_t length, size_t rounds);

#define ROUNDS 10000
#define RUNS 201
#define DATA 1000

struct work {
    const char *name;
    const uint8_t *octets;
    size_t length;
};

/* The expected sum of this many rounds, in 64 bits: these TSDUs are in their written form. */
static uint64_t expected(const struct work *w)
{
    uint64_t sum = 1;
    for (size_t i = 0; i < ROUNDS; i++)
        sum = sum * 31 + w->length + w->octets[w->length - 1];
    return sum;
}

/* Prints the best of many runs. Returns whether each wrote the expected octets. */
static int report(const struct work *w)
{
    const uint64_t wanted = expected(w);
    double best = 1e9;
    for (int i = 0; i < RUNS; i++) {
        double start = now(), taken;
        uint64_t seen = osi_bench_writes(w->octets, w->length, ROUNDS);
        taken = (now() - start) * 1e9 / ROUNDS;
        if (seen != wanted)
            return 0;
        if (taken < best)
            best = taken;
    }
    printf("%20s %8zu %8.2f\n", w->name, w->length, best);
    return 1;
}

int main(int argc, char **argv)
{
    /* A GT with no token and a DT, then octets of any value. */
    static uint8_t data[DATA] = {1, 0, 1, 0};
    /* References, protocol options, version 2, first number 1 and token setting in their groups, functional units, both
       selectors and user data. */
    static const uint8_t connect[] = {0x0D, 0x3B, 0x01, 0x0C, 0x0A, 2, 'a', 'b', 0x0B, 2, 'c', 'd', 0x0C, 2,   'e', 'f', 0x05,
                                      0x0C, 0x13, 1,    1,    0x16, 1, 2,   0x17, 1,   0x31, 0x1A, 1,   0,   0x14, 2,  0,   0xB9,
                                      0x33, 4,    's',  'e',  'l',  '1', 0x34, 4,  's', 'e', 'l', '2', 0xC1, 13, 'u', 's', 'e',
                                      'r',  ' ',  'd',  'a',  't',  'a', ' ', 'h', 'e', 'r'};
    /* A GT with no token and a MIP with number 1. */
    static const uint8_t minor[] = {1, 0, 0x31, 3, 0x2A, 1, 0x31};
    static const struct work works[] = {
        {"GT and DT", data, sizeof data},
        {"CN with two groups", connect, sizeof connect},
        {"GT and MIP", minor, sizeof minor},
    };
    int good = 1;
    for (size_t i = 4; i < DATA; i++)
        data[i] = (uint8_t)(i * 31);
    /* With the words `proved TSDU rounds` it runs once, to be counted. */
    if (argc == 4) {
        const struct work *w = &works[atoi(argv[2]) % 3];
        size_t rounds = strtoul(argv[3], NULL, 10);
        printf("%zu operations: %llu\n", rounds, (unsigned long long)osi_bench_writes(w->octets, w->length, rounds));
        return 0;
    }
    say_how("Writing TSDUs, in ns for each TSDU", RUNS);
    printf("%20s %8s %8s\n", "TSDU", "octets", "ours");
    for (size_t i = 0; i < sizeof works / sizeof works[0]; i++)
        good = good && report(&works[i]);
    if (!good)
        fprintf(stderr, "what is written is not what stands there\n");
    return good ? 0 : 1;
}
